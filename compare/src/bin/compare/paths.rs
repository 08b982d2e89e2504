//! One carrier's least path: under no records, random ones, ones along the path, many, and bad ones; with a workspace and an output
//! that hold anything, and with buffers one word short.

use compare::inputs::{junk, record};
use compare::least_path;
use compare::theirs::path_numbers;
use other::gen::Rng;
use other::path::{self, PathKind};
use other::sheet::{Carrier, Sheet, Task};
use other::{generated, PLENTY, RULES};

use crate::{kind_of, kinds, with_carriers, Share, Tally};

/// Words after the lent ones, which no call may touch.
const PAST: usize = 8;

struct Lent {
    work: Vec<u32>,
    out: Vec<u16>,
}

pub fn run(share: &Share) -> Tally {
    let mut tally = Tally::default();
    let mut rng = Rng::new(90 + share.number);
    let mut lent = Lent { work: vec![0; PLENTY + 2 * PAST], out: Vec::new() };
    junk(&mut lent.work, &mut rng);
    for seed in share.seeds(800) {
        for kind in kinds(seed) {
            let large = matches!(kind, "full" | "max");
            if large && seed >= 60 || kind == "medium" && seed >= 150 {
                continue;
            }
            let bytes = generated(kind, seed);
            let mut rng = Rng::new(1000 + seed);
            sheet_cases(&mut tally, &mut lent, &bytes, large, &mut rng, || format!("{kind} {seed}"));
        }
    }
    tally
}

fn sheet_cases(
    tally: &mut Tally,
    lent: &mut Lent,
    bytes: &[u8],
    large: bool,
    rng: &mut Rng,
    name: impl Fn() -> String,
) {
    // Without carriers it is refused whatever else is lent, like a bad sheet.
    let Some(sheet) = with_carriers(bytes) else {
        one(tally, lent, bytes, 0, 0, 100_000, 300, &[], true, &name);
        return;
    };
    let (words, places) = (sheet.workspace_words(), sheet.horizon + 1);
    for _ in 0..if large { 6 } else { 4 } {
        let (carrier, task) = (rng.range(0, sheet.m - 1), rng.range(0, sheet.m - 1));
        one(tally, lent, bytes, carrier, task, words, places, &[], false, &name);
        let records = good_records(bytes, &sheet, carrier, task, rng);
        one(
            tally,
            lent,
            bytes,
            carrier,
            task,
            words + rng.range(0, 3),
            places + rng.range(0, 5),
            &records,
            false,
            &name,
        );
        // Refused: numbers, a bad record, short buffers, and several of these at once.
        let watch = !large || rng.chance(1, 6);
        one(tally, lent, bytes, sheet.m, task, words, places, &records, watch, &name);
        one(tally, lent, bytes, carrier, sheet.m + rng.range(0, 300), words, places, &records, watch, &name);
        let bad = bad_records(&sheet, &records, carrier, rng);
        one(tally, lent, bytes, carrier, task, words, places, &bad, watch, &name);
        one(tally, lent, bytes, carrier, task, words - 1, places - 1, &bad, watch, &name);
        one(tally, lent, bytes, carrier, task, words - 1, places, &records, watch, &name);
        one(tally, lent, bytes, carrier, task, words - 1, places - 1, &records, watch, &name);
        one(tally, lent, bytes, carrier, task, words, places - 1, &records, watch, &name);
    }
}

/// Records of the carrier and of others, mostly against the path that is least without them.
fn good_records(bytes: &[u8], sheet: &Sheet, carrier: usize, task: usize, rng: &mut Rng) -> Vec<u16> {
    let mut path = vec![0; sheet.horizon + 1];
    let mut work = vec![0; sheet.workspace_words()];
    let found = path::least_path(RULES, bytes, Carrier(carrier), Task(task), &mut work, &mut path, &[]);
    let along = (found.kind == PathKind::Found).then_some(&path[..]);
    let count = match rng.range(0, 19) {
        0 => 4096,
        1 => rng.range(100, 1500),
        2..=5 => rng.range(20, 60),
        _ => rng.range(1, 12),
    };
    let mut records = Vec::new();
    for _ in 0..count {
        let who = if rng.chance(4, 5) { carrier } else { rng.range(0, sheet.m - 1) };
        records.extend(record(sheet, who, along, rng));
    }
    records
}

/// The same with one word wrong, one record too many, or a word more or less.
fn bad_records(sheet: &Sheet, records: &[u16], carrier: usize, rng: &mut Rng) -> Vec<u16> {
    let mut bad = records.to_vec();
    let at = 5 * rng.range(0, bad.len() / 5 - 1);
    let kind = bad[at];
    match rng.range(0, 9) {
        0 => bad[at] = rng.pick(&[2, 3, 256, 65535]),
        1 => bad[at + 1] = sheet.m as u16,
        2 => bad[at + 1] = rng.pick(&[12, 255, 256 + carrier as u16]),
        3 => bad[at + 2] = sheet.area() as u16,
        4 => bad[at + 3] = if kind == 0 { 1 } else { sheet.area() as u16 },
        5 => bad[at + 4] = if kind == 0 { sheet.horizon as u16 + 1 } else { sheet.horizon as u16 },
        6 => bad[at + 4] = rng.pick(&[256, 1000, 65535]),
        7 => bad.push(0),
        8 => {
            bad.pop();
        }
        _ => bad = [0, carrier as u16, 0, 0, 0].repeat(4097),
    }
    bad
}

/// Calls both with the same input. The workspace holds what earlier calls left, the output anything. `watch`: the call is
/// refused, and every word of the workspace must stay.
#[allow(clippy::too_many_arguments)]
fn one(
    tally: &mut Tally,
    lent: &mut Lent,
    bytes: &[u8],
    carrier: usize,
    task: usize,
    words: usize,
    places: usize,
    records: &[u16],
    watch: bool,
    name: &impl Fn() -> String,
) {
    let old = (words as u16) ^ 0x5a5a;
    lent.out.resize(places + PAST, old);
    lent.out.fill(old);
    let mut expected = lent.out.clone();
    let before = watch.then(|| lent.work[..words + PAST].to_vec());
    let guard: [u32; PAST] = std::array::from_fn(|k| lent.work[words + k]);
    let answer = path::least_path(
        RULES,
        bytes,
        Carrier(carrier),
        Task(task),
        &mut lent.work[..words],
        &mut expected[..places],
        records,
    );
    let numbers = path_numbers(&answer);
    let ours = least_path(bytes, carrier, task, &mut lent.work[..words], &mut lent.out[..places], records);
    let stays = ours[0] == 0 || before.is_none_or(|before| before[..] == lent.work[..words + PAST]);
    let past = lent.work[words..words + PAST] == guard;
    let ok = ours == numbers && lent.out == expected && stays && past;
    tally.count_on(bytes, ok, kind_of(&ours, "found", "none"), || {
        format!("{}, carrier {carrier} task {task}, {} records, {words} and {places} words: {ours:?} for {numbers:?}", name(), records.len())
    });
}
