//! The dark house, a sheet of no bytes, in every call that takes a sheet; and sheets of one to seven bytes, which stay refused. The
//! numbers must be the other planner's and those that the documents say, which are written here; every lent word must stay.

use std::fmt::Debug;

use compare::theirs::{board_numbers, check_numbers, path_numbers, search_numbers};
use compare::{cause, check_plan, gate_board, least_path, search, task_goals, workspace};
use other::gen::Rng;
use other::sheet::{read_sheet, Carrier, Task};
use other::{board, check, generated, path, sheet, RULES};

use crate::{Share, Tally};

/// Words before and after the lent ones, which no call may touch.
const PAST: usize = 8;

/// Words of workspace and of output: none, fewer than any other sheet asks for, as many as the program deckround lends, and more.
const WORDS: [usize; 6] = [0, 1, 3, 3072, 16384, 65536];
const PLACES: [usize; 5] = [0, 1, 3, 3072, 16384];

/// Numbers of carriers and of tasks.
const NUMBERS: [usize; 6] = [0, 1, 11, 12, 255, usize::MAX];

/// Words of paths that a plan check is given.
const CHECKED: [usize; 6] = [0, 1, 2, 12, 256, 3072];

pub fn run(share: &Share) -> Tally {
    let mut tally = Tally::default();
    // Once where no byte can be read, then amid the bytes of another sheet, where one that is read past the end shows.
    for seed in share.seeds(4) {
        let around = if seed == 0 { Vec::new() } else { generated("small", seed) };
        let at = Rng::new(seed).range(0, around.len());
        every_call(&mut tally, &around[at..at]);
    }
    // Other sheets' first bytes, and any bytes.
    for seed in share.seeds(1400) {
        let mut rng = Rng::new(seed);
        let bytes =
            if seed / 7 % 2 == 0 { generated("small", seed) } else { rng.word().to_le_bytes().to_vec() };
        each_call(&mut tally, &bytes[..1 + seed as usize % 7], &mut rng);
    }
    tally
}

/// Every call with all that it may be given.
fn every_call(tally: &mut Tally, bytes: &[u8]) {
    reading(tally, bytes);
    for lengths in pairs(&WORDS, &PLACES) {
        searches(tally, bytes, lengths);
        for numbers in pairs(&NUMBERS, &NUMBERS) {
            for records in lists_of_records() {
                least(tally, bytes, numbers, &records, lengths);
            }
        }
    }
    for tasks in task_lists() {
        for count in CHECKED {
            checked(tally, bytes, &tasks, count);
        }
    }
}

/// Every call once.
fn each_call(tally: &mut Tally, bytes: &[u8], rng: &mut Rng) {
    let lengths = (rng.pick(&WORDS), rng.pick(&PLACES));
    reading(tally, bytes);
    searches(tally, bytes, lengths);
    let (numbers, records) = ((rng.pick(&NUMBERS), rng.pick(&NUMBERS)), lists_of_records());
    least(tally, bytes, numbers, &records[rng.range(0, records.len() - 1)], lengths);
    checked(tally, bytes, &rng.pick(&task_lists()), rng.pick(&CHECKED));
}

fn pairs<'a>(first: &'a [usize], second: &'a [usize]) -> impl Iterator<Item = (usize, usize)> + 'a {
    first.iter().flat_map(move |&a| second.iter().map(move |&b| (a, b)))
}

/// None, one that most sheets accept, one of no kind, not in fives, and one above 4096.
fn lists_of_records() -> [Vec<u16>; 5] {
    [vec![], vec![0; 5], vec![2, 0, 0, 0, 0], vec![0; 4], vec![0; 5 * 4097]]
}

/// No task; zeros; every task once; and one entry alone.
fn task_lists() -> Vec<[u8; 12]> {
    let mut lists = vec![[255; 12], [0; 12], std::array::from_fn(|k| k as u8)];
    for at in 0..12 {
        for task in [0, 1, 11, 12, 254] {
            let mut list = [255; 12];
            list[at] = task;
            lists.push(list);
        }
    }
    lists
}

/// The cause and the workspace; the goals of tasks, of which there is none.
fn reading(tally: &mut Tally, bytes: &[u8]) {
    let read = read_sheet(RULES, bytes);
    let theirs = read.map_or_else(|cause| [cause.number().into(), 0], |sheet| [0, sheet.workspace_words()]);
    let said = [usize::from(!bytes.is_empty()), 0];
    let ours = [cause(bytes) as usize, workspace(bytes)];
    count(tally, bytes, "cause", "and workspace", [&ours, &theirs, &said], true);
    for task in NUMBERS {
        let goals = sheet::task_goals(RULES, bytes, Task(task));
        let theirs = [goals.as_ptr() as usize - bytes.as_ptr() as usize, goals.len()];
        let ours = task_goals(bytes, task);
        count(tally, bytes, "goals", &format!("task {task}"), [&ours, &theirs, &[0, 0]], true);
    }
}

/// The search and the gate board: the empty plan without a node, or cause 1.
fn searches(tally: &mut Tally, bytes: &[u8], lengths: (usize, usize)) {
    let first = if bytes.is_empty() { [0; 5] } else { [1, 3, 0, 0, 0] };
    let said = [&first[..], &[255; 12]].concat();
    let ours = |work: &mut [u32], out: &mut [u16]| search(bytes, work, out).to_vec();
    let theirs = |work: &mut [u32], out: &mut [u16]| {
        search_numbers(&other::search::search(RULES, bytes, work, out)).to_vec()
    };
    let call = Lending { call: "search", given: String::new(), said: &said, ours: &ours, theirs: &theirs };
    call.with(tally, bytes, lengths);
    let joined = |(numbers, lines): ([u32; 17], [u32; 48])| [&numbers[..], &lines].concat();
    let ours = |work: &mut [u32], out: &mut [u16]| joined(gate_board(bytes, work, out));
    let theirs = |work: &mut [u32], out: &mut [u16]| {
        joined(board_numbers(&board::gate_board(RULES, bytes, work, out)))
    };
    let said = [&said[..], &[0; 48]].concat();
    let call = Lending { call: "board", given: String::new(), said: &said, ours: &ours, theirs: &theirs };
    call.with(tally, bytes, lengths);
}

/// The least path: cause 8 before those of records, workspace and output.
fn least(
    tally: &mut Tally,
    bytes: &[u8],
    (carrier, task): (usize, usize),
    records: &[u16],
    lengths: (usize, usize),
) {
    let said = [if bytes.is_empty() { 8 } else { 1 }, 0, 0];
    let ours =
        |work: &mut [u32], out: &mut [u16]| least_path(bytes, carrier, task, work, out, records).to_vec();
    let theirs = |work: &mut [u32], out: &mut [u16]| {
        let (carrier, task) = (Carrier(carrier), Task(task));
        path_numbers(&path::least_path(RULES, bytes, carrier, task, work, out, records)).to_vec()
    };
    let given = format!("carrier {carrier}, task {task}, {} words of records, ", records.len());
    Lending { call: "path", given, said: &said, ours: &ours, theirs: &theirs }.with(tally, bytes, lengths);
}

/// The plan check: the empty plan is the only one, and any word of paths is one too many.
fn checked(tally: &mut Tally, bytes: &[u8], tasks: &[u8; 12], words: usize) {
    let said = match (bytes, words) {
        ([], 0) => [0, u32::from(*tasks == [255; 12]), 0],
        ([], _) => [11, 0, 0],
        _ => [1, 0, 0],
    };
    let paths = vec![0; words];
    let theirs = check_numbers(&check::check_plan(RULES, bytes, tasks, &paths));
    let ours = check_plan(bytes, tasks, &paths);
    count(tally, bytes, "check", &format!("{tasks:?}, {words} words"), [&ours, &theirs, &said], true);
}

/// Calls with workspace and output, and hands back the numbers.
type Call<'a> = &'a dyn Fn(&mut [u32], &mut [u16]) -> Vec<u32>;

/// A call that is lent words: what it is given besides, the documents' numbers, and the call itself, this planner's and the other's.
struct Lending<'a> {
    call: &'a str,
    given: String,
    said: &'a [u32],
    ours: Call<'a>,
    theirs: Call<'a>,
}

impl Lending<'_> {
    /// Lends so many words of workspace and of output, each marked by where it stands.
    fn with(&self, tally: &mut Tally, bytes: &[u8], (words, places): (usize, usize)) {
        let mark = |k: usize| (k as u32).wrapping_mul(0x9e37_79b9) ^ 0x5a5a_5a5a;
        let mut work: Vec<u32> = (0..words + 2 * PAST).map(mark).collect();
        let mut out: Vec<u16> = (0..places + 2 * PAST).map(|k| (mark(k) >> 16) as u16).collect();
        let before = (work.clone(), out.clone());
        let theirs = (self.theirs)(&mut work[PAST..PAST + words], &mut out[PAST..PAST + places]);
        let ours = (self.ours)(&mut work[PAST..PAST + words], &mut out[PAST..PAST + places]);
        let given = format!("{}{words} and {places} words", self.given);
        count(tally, bytes, self.call, &given, [&ours, &theirs, self.said], (work, out) == before);
    }
}

/// One answer in numbers: this planner's, the other's, the documents', and whether every lent word stayed.
fn count<T: PartialEq + Debug>(
    tally: &mut Tally,
    bytes: &[u8],
    call: &str,
    given: &str,
    [ours, theirs, said]: [&[T]; 3],
    stays: bool,
) {
    tally.count_on(bytes, ours == theirs && ours == said && stays, call.to_string(), || {
        let lent = if stays { "" } else { ", a lent word changed" };
        format!("{call} of {bytes:?}, {given}: {ours:?} for {theirs:?} and {said:?}{lent}")
    });
}
