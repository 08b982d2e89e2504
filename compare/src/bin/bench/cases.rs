//! What is timed.

use std::hint::black_box;

use compare::inputs::{at_goals, records_against, table, with_limit, Map};
use other::gen::Rng;
use other::sheet::{read_sheet, Carrier, Task};
use other::{assign, board, check, path, plain, search, PLENTY, RULES};

use crate::Case;

/// Lanes per hundred free places, on the maps that have any.
const LANES: usize = 20;

/// A case by name, made only where it is wanted.
pub type Named = (String, Box<dyn FnOnce() -> Case>);

pub fn all() -> Vec<Named> {
    let map = |side, blocked, carriers, goals, horizon| Map {
        side,
        blocked,
        lanes: 0,
        carriers,
        goals,
        horizon,
        limit: 16,
    };
    let lanes = move |side, blocked, carriers, goals, horizon| Map {
        lanes: LANES,
        ..map(side, blocked, carriers, goals, horizon)
    };
    let mut cases = vec![
        named("path 8x8 H 30 K 2", move || paths(map(8, 0, 4, 2, 30), 0)),
        named("path 20x20 30% blocked H 100 K 2", move || paths(map(20, 30, 10, 2, 100), 0)),
        named("path 32x32 H 255 K 8", move || paths(map(32, 0, 12, 8, 255), 0)),
        named("path 32x32 H 255 K 1", move || paths(map(32, 0, 12, 1, 255), 0)),
        named("path 32x32 10% H 255 K 8, 50 records", move || paths(map(32, 10, 12, 8, 255), 50)),
        named("path 32x32 10% H 255 K 8, 4096 records", move || paths(map(32, 10, 12, 8, 255), 4096)),
        named("path 8x8 H 30 K 2, lanes", move || paths(lanes(8, 0, 4, 2, 30), 0)),
        named("path 20x20 30% blocked H 100 K 2, lanes", move || paths(lanes(20, 30, 10, 2, 100), 0)),
        named("path 32x32 H 255 K 8, lanes", move || paths(lanes(32, 0, 12, 8, 255), 0)),
        named("path 32x32 10% H 255 K 8, 50 records, lanes", move || paths(lanes(32, 10, 12, 8, 255), 50)),
        named("plan check 32x32 10%, 12 carriers H 255 K 8", move || checks(map(32, 10, 12, 8, 255))),
        named("plan check 32x32 10%, 12 carriers H 255 K 8, lanes", move || {
            checks(lanes(32, 10, 12, 8, 255))
        }),
        named("assignment 12x12, entries to 1000", || assignments(1000, 0)),
        named("assignment 12x12, entries to 3", || assignments(3, 0)),
        named("assignment 12x12, half barred", || assignments(300, 50)),
        named("first 1000 assignments in order 12x12, entries to 30", || in_order(30)),
        named("first 1000 assignments in order 12x12, entries to 3", || in_order(3)),
    ];
    cases.extend(searches());
    cases.extend(boards("gate board", their_board));
    cases
}

/// This planner's gate board beside its own search of the same sheets, in place of the other planner's board. The second of two calls
/// on one sheet finds the processor prepared by the first, as both run the search: so there are no ratios of single sheets.
pub fn boards_beside_searches() -> Vec<Named> {
    let cases = boards("gate board beside search", our_search).into_iter();
    cases.map(|(name, case)| named(&name, move || Case { varied: false, ..case() })).collect()
}

fn named(name: &str, case: impl FnOnce() -> Case + 'static) -> Named {
    (name.to_string(), Box::new(case))
}

/// Least paths of a random carrier and task on sheets of one map.
fn paths(map: Map, records: usize) -> Case {
    struct Input {
        sheet: Vec<u8>,
        carrier: usize,
        task: usize,
        records: Vec<u16>,
    }
    let mut rng = Rng::new(11);
    let mut inputs = Vec::new();
    let (mut words, mut places) = (0, 0);
    while inputs.len() < 12 {
        let sheet = map.sheet(&mut rng);
        let (carrier, task) = (rng.range(0, map.carriers - 1), rng.range(0, map.carriers - 1));
        let records = records_against(&sheet, carrier, task, records, 5, &mut rng);
        let read = read_sheet(RULES, &sheet).expect("an accepted sheet");
        (words, places) = (read.workspace_words(), read.horizon + 1);
        let (mut work, mut out) = (vec![0; words], vec![0; places]);
        if compare::least_path(&sheet, carrier, task, &mut work, &mut out, &records)[1] == 1 {
            inputs.push(Input { sheet, carrier, task, records });
        }
    }
    let inputs = std::rc::Rc::new(inputs);
    let same = inputs.clone();
    let (mut work, mut out) = (vec![0; words], vec![0; places]);
    let (mut other_work, mut other_out) = (work.clone(), out.clone());
    Case {
        inputs: inputs.len(),
        varied: false,
        ours: Box::new(move |k| {
            let Input { sheet, carrier, task, records } = &inputs[k];
            black_box(compare::least_path(sheet, *carrier, *task, &mut work, &mut out, records));
        }),
        theirs: Box::new(move |k| {
            let Input { sheet, carrier, task, records } = &same[k];
            let (carrier, task) = (Carrier(*carrier), Task(*task));
            black_box(path::least_path(
                RULES,
                sheet,
                carrier,
                task,
                &mut other_work,
                &mut other_out,
                records,
            ));
        }),
    }
}

/// Plan checks of plans that a search found.
fn checks(map: Map) -> Case {
    let mut rng = Rng::new(15);
    let (mut work, mut plans) = (vec![0; PLENTY], Vec::new());
    while plans.len() < 6 {
        let sheet = with_limit(&map.sheet(&mut rng), 4096);
        let mut paths = vec![0; map.carriers * (map.horizon + 1)];
        let numbers = compare::search(&sheet, &mut work, &mut paths);
        if numbers[1] == 0 {
            let tasks: [u8; 12] = std::array::from_fn(|i| numbers[5 + i] as u8);
            plans.push((sheet, tasks, paths));
        }
    }
    let same = plans.clone();
    Case {
        inputs: plans.len(),
        varied: false,
        ours: Box::new(move |k| {
            let (sheet, tasks, paths) = &plans[k];
            black_box(compare::check_plan(sheet, tasks, paths));
        }),
        theirs: Box::new(move |k| {
            let (sheet, tasks, paths) = &same[k];
            black_box(check::check_plan(RULES, sheet, tasks, paths));
        }),
    }
}

fn assignments(most: usize, barred: usize) -> Case {
    let mut rng = Rng::new(12);
    let tables: Vec<Vec<u16>> = (0..40).map(|_| table(12, most, barred, &mut rng)).collect();
    let same = tables.clone();
    Case {
        inputs: tables.len(),
        varied: false,
        ours: Box::new(move |k| {
            black_box(compare::least_assignment(12, &tables[k]));
        }),
        theirs: Box::new(move |k| {
            black_box(assign::least_assignment(12, &same[k]));
        }),
    }
}

/// The first 1000 assignments in order.
fn in_order(most: usize) -> Case {
    const COUNT: usize = 1000;
    let mut rng = Rng::new(14);
    let tables: Vec<Vec<u16>> = (0..2).map(|_| table(12, most, 0, &mut rng)).collect();
    let same = tables.clone();
    let (mut work, mut lists) = (vec![0; 512 * COUNT], vec![0; 12 * COUNT]);
    Case {
        inputs: tables.len(),
        varied: false,
        ours: Box::new(move |k| {
            black_box(compare::assignments_in_order(12, &tables[k], &mut work, &mut lists));
        }),
        theirs: Box::new(move |k| {
            black_box(assign::Assignments::new(12, &same[k]).take(COUNT).collect::<Vec<_>>());
        }),
    }
}

/// Whole searches: the other author's kinds of sheet, and the maps of the literature.
fn searches() -> Vec<Named> {
    let kinds = [("medium", 24), ("full", 12), ("max", 8)].into_iter().map(|(kind, count)| {
        named(&format!("search {kind}"), move || whole(of_kind(kind, count), our_search, their_search))
    });
    let maps = [
        ("20x20 30%", 20, 30, 0, 100),
        ("32x32 10%", 32, 10, 0, 160),
        ("32x32", 32, 0, 0, 160),
        ("20x20 30% lanes", 20, 30, LANES, 100),
        ("32x32 10% lanes", 32, 10, LANES, 160),
    ];
    let maps = maps.into_iter().flat_map(|(name, side, blocked, lanes, horizon)| {
        [300, 4096].map(|limit| {
            named(&format!("search {name} K 2, limit {limit}"), move || {
                whole(of_map(side, blocked, lanes, horizon, limit), our_search, their_search)
            })
        })
    });
    // A call that is too short to be timed alone.
    let dark = named("search dark house", || Case {
        varied: false,
        ..whole(vec![Vec::new()], our_search, their_search)
    });
    kinds.chain(maps).chain([dark]).collect()
}

/// Gate boards beside another call, on sheets whose searches are cheap, so that what a board adds has the greatest share.
fn boards(name: &str, beside: Call) -> Vec<Named> {
    vec![
        named(&format!("{name}, medium"), move || whole(of_kind("medium", 24), our_board, beside)),
        named(&format!("{name}, 32x32 K 2, limit 4096"), move || {
            whole(of_map(32, 0, 0, 160, 4096), our_board, beside)
        }),
        named(&format!("{name}, 4x3 H 255, all at their goals"), move || {
            whole(vec![at_goals()], our_board, beside)
        }),
    ]
}

/// Sheets of one of the other author's kinds.
fn of_kind(kind: &str, count: u64) -> Vec<Vec<u8>> {
    (0..count).map(|seed| plain(kind, seed)).collect()
}

/// Twelve sheets of a map, with 10 to 12 carriers.
fn of_map(side: usize, blocked: usize, lanes: usize, horizon: usize, limit: usize) -> Vec<Vec<u8>> {
    let mut rng = Rng::new(13);
    let map = |carriers| Map { side, blocked, lanes, carriers, goals: 2, horizon, limit };
    (0..12).map(|k| map(10 + k % 3).sheet(&mut rng)).collect()
}

/// A call that takes sheet, workspace and output.
type Call = fn(&[u8], &mut [u32], &mut [u16]);

fn our_search(sheet: &[u8], work: &mut [u32], out: &mut [u16]) {
    black_box(compare::search(sheet, work, out));
}

fn their_search(sheet: &[u8], work: &mut [u32], out: &mut [u16]) {
    black_box(search::search(RULES, sheet, work, out));
}

fn our_board(sheet: &[u8], work: &mut [u32], out: &mut [u16]) {
    black_box(compare::gate_board(sheet, work, out));
}

fn their_board(sheet: &[u8], work: &mut [u32], out: &mut [u16]) {
    black_box(board::gate_board(RULES, sheet, work, out));
}

/// Two calls on the same sheets, each with buffers of its own.
fn whole(sheets: Vec<Vec<u8>>, ours: Call, beside: Call) -> Case {
    let same = sheets.clone();
    let (mut work, mut out) = (vec![0; PLENTY], vec![0; 12 * 256]);
    let (mut other_work, mut other_out) = (work.clone(), out.clone());
    Case {
        inputs: sheets.len(),
        varied: true,
        ours: Box::new(move |k| ours(&sheets[k], &mut work, &mut out)),
        theirs: Box::new(move |k| beside(&same[k], &mut other_work, &mut other_out)),
    }
}
