//! First collisions: walks that cross, words of few and of all values, and wrong counts and lengths.

use compare::first_collision;
use compare::theirs::collision_numbers;
use other::collide;
use other::gen::Rng;

use crate::{kind_of, Share, Tally};

pub fn run(share: &Share) -> Tally {
    let mut tally = Tally::default();
    for seed in share.seeds(30_000) {
        let mut rng = Rng::new(seed);
        let m = rng.range(1, 12);
        let h = rng.pick(&[0, 1, 2, 5, 20, 60, 255]);
        let mut paths = match rng.range(0, 3) {
            0 => words(m, h, &mut rng),
            1 => lines(m, h, &mut rng),
            _ => walks(m, h, &mut rng),
        };
        let mut count = m as u8;
        match rng.range(0, 29) {
            0 => count = rng.pick(&[0, 13, 255]),
            1 => {
                paths.pop();
            }
            2 => paths.push(0),
            _ => {}
        }
        one(&mut tally, count, h as u8, &paths, seed);
    }
    // No carriers and no paths: the words are as many as there should be, but the count is outside its range.
    for h in share.seeds(256) {
        one(&mut tally, 0, h as u8, &[], h);
    }
    tally
}

/// Any words, of few or of all values.
fn words(m: usize, h: usize, rng: &mut Rng) -> Vec<u16> {
    let most = rng.pick(&[1, 3, 30, 1000, 65535]);
    (0..m * (h + 1)).map(|_| rng.range(0, most) as u16).collect()
}

/// Carriers on a line, there and back, so that they exchange places and follow each other.
fn lines(m: usize, h: usize, rng: &mut Rng) -> Vec<u16> {
    let mut paths = Vec::new();
    for _ in 0..m {
        let (mut place, mut right) = (rng.range(1000, 1100), rng.chance(1, 2));
        for _ in 0..=h {
            paths.push(place as u16);
            if rng.chance(1, 10) {
                right = !right;
            }
            if rng.chance(4, 5) {
                place = if right { place + 1 } else { place - 1 };
            }
        }
    }
    paths
}

/// Random steps on a grid of 32 by 32, the carriers far apart at first.
fn walks(m: usize, h: usize, rng: &mut Rng) -> Vec<u16> {
    let mut paths = Vec::new();
    for i in 0..m {
        let (mut x, mut y) = (4 * (i % 8), 8 * (i / 8) + rng.range(0, 7));
        for _ in 0..=h {
            paths.push((32 * y + x) as u16);
            match rng.range(0, 4) {
                0 => x = (x + 1).min(31),
                1 => x = x.saturating_sub(1),
                2 => y = (y + 1).min(31),
                3 => y = y.saturating_sub(1),
                _ => {}
            }
        }
    }
    paths
}

fn one(tally: &mut Tally, m: u8, h: u8, paths: &[u16], seed: u64) {
    let ours = first_collision(m, h, paths);
    let numbers = collision_numbers(&collide::first_collision(m, h, paths));
    let kind = if ours[..3] == [0, 1, 1] { "move".to_string() } else { kind_of(&ours, "place", "none") };
    tally.count(ours == numbers, kind, || format!("paths {seed}, m {m} h {h}: {ours:?} for {numbers:?}"));
}
