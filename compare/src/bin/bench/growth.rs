//! What a node costs as the number of nodes grows: sheets whose search is spent at 4096 nodes, searched under smaller limits.

use compare::inputs::{roots_alone, stuck, with_limit, Map};
use other::gen::Rng;
use other::{plain, PLENTY, RULES};

use crate::{clock, median};

const LIMITS: [u16; 6] = [125, 250, 500, 1000, 2000, 4000];
const ROUNDS: usize = 5;

pub fn print() {
    println!(
        "\n{:<40} {:>6} {:>10} {:>10}  {:>6}",
        "time of a node", "nodes", "ours µs", "other µs", "ratio"
    );
    let maps = [
        ("20x20 30% K 2", 20, 30, 0, 100),
        ("32x32 10% K 2", 32, 10, 0, 160),
        ("12x12 10% K 2", 12, 10, 0, 60),
        ("20x20 30% K 2, 20% lanes", 20, 30, 20, 100),
        ("32x32 10% K 2, 20% lanes", 32, 10, 20, 160),
    ];
    for (name, side, blocked, lanes, horizon) in maps {
        let map = Map { side, blocked, lanes, carriers: 12, goals: 2, horizon, limit: 4096 };
        of(name, (0..400).map(|seed| map.sheet(&mut Rng::new(500 + seed))));
    }
    of("20x20 K 1, two carriers stuck", [stuck(20, 60, &mut Rng::new(5))].into_iter());
    of("14x14 K 8, roots alone", [roots_alone()].into_iter());
    for kind in ["full", "max"] {
        of(kind, (0..60).map(|seed| plain(kind, seed)));
    }
}

/// The first sheet that is spent at 4096 nodes, if there is one.
fn of(name: &str, sheets: impl Iterator<Item = Vec<u8>>) {
    let (mut work, mut out) = (vec![0; PLENTY], vec![0; 12 * 256]);
    let spent = |sheet: &Vec<u8>| compare::search(&with_limit(sheet, 4096), &mut work, &mut out)[1] == 2;
    let Some(sheet) = sheets.into_iter().find(spent) else {
        return println!("{name:<40} no search is spent at 4096 nodes");
    };
    for limit in LIMITS {
        let sheet = with_limit(&sheet, limit);
        let (mut ours, mut theirs) = (Vec::new(), Vec::new());
        for _ in 0..ROUNDS {
            let begun = clock::now();
            compare::search(&sheet, &mut work, &mut out);
            let between = clock::now();
            let _ = other::search::search(RULES, &sheet, &mut work, &mut out);
            ours.push((between - begun).as_secs_f64());
            theirs.push((clock::now() - between).as_secs_f64());
        }
        let of_a_node = |times| median(times) / f64::from(limit) * 1e6;
        let (ours, theirs) = (of_a_node(ours), of_a_node(theirs));
        println!("{name:<40} {limit:>6} {ours:>10.3} {theirs:>10.3}  {:>6.3}", ours / theirs);
    }
}
