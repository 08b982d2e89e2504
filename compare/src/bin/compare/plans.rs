//! Plan checks: plans that a search found, least paths that may collide, random walks, and each of these with a word, a task or a
//! length changed.

use compare::check_plan;
use compare::inputs::{walk, with_limit};
use compare::theirs::check_numbers;
use other::check;
use other::gen::Rng;
use other::path::PathFinder;
use other::search::{search, SearchKind};
use other::sheet::{Carrier, Sheet, Task};
use other::{generated, RULES};

use crate::{kind_of, kinds, with_carriers, Share, Tally};

pub fn run(share: &Share) -> Tally {
    let mut tally = Tally::default();
    for seed in share.seeds(250) {
        for kind in kinds(seed) {
            let large = matches!(kind, "medium" | "full" | "max");
            if large && seed >= 12 {
                continue;
            }
            let bytes = generated(kind, seed);
            let bytes = if large { with_limit(&bytes, 40) } else { bytes };
            let mut rng = Rng::new(7000 + seed);
            let name = || format!("{kind} {seed}");
            let Some(sheet) = with_carriers(&bytes) else {
                one(&mut tally, &bytes, &[255; 12], &[0; 30], &name);
                one(&mut tally, &bytes, &[255; 12], &[], &name);
                continue;
            };
            let (tasks, paths) = planned(&bytes, &sheet).unwrap_or_else(|| least_paths(&sheet, &mut rng));
            variants(&mut tally, &bytes, &sheet, tasks, paths, &mut rng, &name);
            let (tasks, paths) = least_paths(&sheet, &mut rng);
            variants(&mut tally, &bytes, &sheet, tasks, paths, &mut rng, &name);
            let walks = sheet.carriers().flat_map(|carrier| walk(&sheet, carrier, &mut rng)).collect();
            variants(&mut tally, &bytes, &sheet, tasks, walks, &mut rng, &name);
        }
    }
    tally
}

/// A plan of the other planner.
fn planned(bytes: &[u8], sheet: &Sheet) -> Option<([u8; 12], Vec<u16>)> {
    let mut work = vec![0; sheet.workspace_words()];
    let mut out = vec![0; sheet.m * (sheet.horizon + 1)];
    let answer = search(RULES, bytes, &mut work, &mut out);
    (answer.kind == SearchKind::Plan).then_some((answer.tasks, out))
}

/// Each carrier's least path for a task of its own, whether or not they collide.
fn least_paths(sheet: &Sheet, rng: &mut Rng) -> ([u8; 12], Vec<u16>) {
    let mut order: Vec<u8> = (0..sheet.m as u8).collect();
    rng.shuffle(&mut order);
    let mut tasks = [255; 12];
    tasks[..sheet.m].copy_from_slice(&order);
    let mut finder = PathFinder::new(sheet);
    let mut paths = Vec::new();
    for carrier in sheet.carriers() {
        match finder.least(carrier, Task(usize::from(tasks[carrier.0])), &[]) {
            Some(found) => paths.extend(found.places),
            None => paths.extend(walk(sheet, Carrier(carrier.0), rng)),
        }
    }
    (tasks, paths)
}

fn variants(
    tally: &mut Tally,
    bytes: &[u8],
    sheet: &Sheet,
    tasks: [u8; 12],
    paths: Vec<u16>,
    rng: &mut Rng,
    name: &impl Fn() -> String,
) {
    one(tally, bytes, &tasks, &paths, name);
    for _ in 0..6 {
        // One word of the paths: any, or a place near it.
        let mut other = paths.clone();
        let at = rng.range(0, other.len() - 1);
        other[at] = match rng.range(0, 3) {
            0 => rng.word() as u16,
            1 => other[at].wrapping_add(1),
            2 => other[at].wrapping_sub(1),
            _ => rng.range(0, sheet.area() - 1) as u16,
        };
        one(tally, bytes, &tasks, &other, name);
        // One task: any number, a repeat, or none where there is one.
        let mut list = tasks;
        let at = rng.range(0, 11);
        list[at] = rng.pick(&[0, 1, sheet.m as u8, 254, 255, list[0]]);
        one(tally, bytes, &list, &paths, name);
    }
    let mut swapped = tasks;
    swapped.swap(0, rng.range(0, sheet.m - 1));
    one(tally, bytes, &swapped, &paths, name);
    one(tally, bytes, &tasks, &paths[1..], name);
    one(tally, bytes, &[0; 12], &[&paths[..], &[0]].concat(), name);
}

fn one(tally: &mut Tally, bytes: &[u8], tasks: &[u8; 12], paths: &[u16], name: &impl Fn() -> String) {
    let ours = check_plan(bytes, tasks, paths);
    let numbers = check_numbers(&check::check_plan(RULES, bytes, tasks, paths));
    tally.count_on(bytes, ours == numbers, kind_of(&ours, "yes", "no"), || {
        format!("{}: {ours:?} for {numbers:?}", name())
    });
}
