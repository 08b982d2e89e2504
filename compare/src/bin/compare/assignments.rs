//! Least assignments: tables of every size, with many ties, barred entries and large ones; and the condition on prices. The first
//! assignments in order of the same tables.

use compare::inputs::{junk, table};
use compare::theirs::assignment_numbers;
use compare::{assignments_in_order, least_assignment, AssignmentNumbers};
use other::assign::{self, BARRED};
use other::gen::Rng;

use crate::{kind_of, Share, Tally};

pub fn run(share: &Share) -> Tally {
    let mut tally = Tally::default();
    for seed in share.seeds(30_000) {
        let mut rng = Rng::new(seed);
        let m = rng.range(1, 12);
        let most = rng.pick(&[0, 1, 2, 3, 9, 40, 300, 65534]);
        let barred = rng.pick(&[0, 0, 0, 10, 30, 50, 70, 90, 100]);
        let mut entries = table(m, most, barred, &mut rng);
        if rng.chance(1, 8) {
            // Large entries beside small ones.
            for entry in entries.iter_mut().filter(|entry| **entry != BARRED) {
                *entry = if rng.chance(1, 2) { 65534 - *entry } else { *entry };
            }
        }
        let count = if rng.chance(1, 20) { rng.pick(&[0, 13, 14, 255, m as u8 - 1]) } else { m as u8 };
        if rng.chance(1, 20) {
            let length = rng.pick(&[0, entries.len() - 1, entries.len() + 1]);
            entries.resize(length, 0);
        }
        one(&mut tally, count, &entries, seed);
        in_order(&mut tally, count, &entries, seed, &mut rng);
    }
    // A table of 0 by 0, whose count is outside its range.
    for seed in share.seeds(30) {
        one(&mut tally, 0, &[], seed);
        in_order(&mut tally, 0, &[], seed, &mut Rng::new(seed));
    }
    tally
}

/// The first few in order, of some tables the first thousand, with room for more, for fewer or for none, in a workspace of any
/// content.
fn in_order(tally: &mut Tally, m: u8, entries: &[u16], seed: u64, rng: &mut Rng) {
    let most = if seed.is_multiple_of(200) { 1500 } else { 30 };
    let (records, fit) = (rng.range(0, most), rng.range(0, most));
    let mut work = vec![0; 512 * records + rng.pick(&[0, 1, 511])];
    junk(&mut work, rng);
    let before = work.clone();
    let mut lists: Vec<u8> = (0..12 * fit + rng.pick(&[0, 1, 11])).map(|_| rng.word() as u8).collect();
    let mut wanted = lists.clone();
    let numbers = assignments_in_order(m, entries, &mut work, &mut lists);
    let refused = !(1..=12).contains(&m) || entries.len() != usize::from(m) * usize::from(m);
    let theirs = if refused {
        [12, 0]
    } else {
        let first = assign::Assignments::new(usize::from(m), entries).take(records.min(fit));
        let count =
            first.zip(wanted.chunks_mut(12)).map(|((_, tasks), list)| list.copy_from_slice(&tasks)).count();
        [0, count as u32]
    };
    let ok = numbers == theirs && lists == wanted && (!refused || work == before);
    let kind =
        if refused { "cause 12, in order".to_string() } else { format!("in order, {}", numbers[1].min(1)) };
    tally.count(ok, kind, || format!("table {seed}, m {m}, in order: {numbers:?} for {theirs:?}"));
}

fn one(tally: &mut Tally, m: u8, entries: &[u16], seed: u64) {
    let ours = least_assignment(m, entries);
    let theirs = assign::least_assignment(m, entries);
    let numbers = assignment_numbers(&theirs);
    let ok = ours.numbers == numbers && ours.tasks == theirs.tasks && priced(usize::from(m), entries, &ours);
    tally.count(ok, kind_of(&ours.numbers, "found", "none"), || {
        format!("table {seed}, m {m}: {ours:?} for {theirs:?}")
    });
}

/// Row plus column price is at most each unbarred entry and equals it on the chosen ones; 0 past m, and 0 throughout without an
/// assignment.
fn priced(m: usize, entries: &[u16], answer: &AssignmentNumbers) -> bool {
    let used = if answer.numbers[1] == 1 { m } else { 0 };
    let zeros = answer.rows[used..].iter().chain(&answer.columns[used..]).all(|&price| price == 0);
    let sum = |i: usize, j: usize| i64::from(answer.rows[i]) + i64::from(answer.columns[j]);
    let feasible = (0..used).all(|i| {
        (0..used).all(|j| {
            let entry = entries[i * m + j];
            entry == BARRED || sum(i, j) <= i64::from(entry)
        })
    });
    let tight = (0..used).all(|i| {
        let j = usize::from(answer.tasks[i]);
        sum(i, j) == i64::from(entries[i * m + j])
    });
    zeros && feasible && tight
}
