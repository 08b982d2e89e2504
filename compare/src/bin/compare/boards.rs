//! Gate boards: on every kind of sheet that searches are compared on, and on sheets whose carriers finish at equal times, beside the
//! other planner's board and beside this planner's search. What document 02 says of a board's lines is also read off the sheet's
//! bytes, the task list and the written paths, without the other planner.

use compare::inputs::{any, equal_finishes, junk, roots_alone, with_limit, Map};
use compare::theirs::board_numbers;
use compare::{gate_board, search};
use other::board;
use other::gen::Rng;
use other::{generated, PLENTY, RULES};

use crate::searches::{asked, kind, workspace_stays, LIMITS, PAST};
use crate::{kinds, lines, Share, Tally};

pub fn run(share: &Share) -> Tally {
    let mut tally = Tally::default();
    let mut work = vec![0; PLENTY + PAST];
    junk(&mut work, &mut Rng::new(70 + share.number));
    of_kinds(share, &mut tally, &mut work);
    drawn(share, &mut tally, &mut work);
    dear(share, &mut tally, &mut work);
    tally
}

/// The other author's kinds, with buffers of every length, under their own node limit and another.
fn of_kinds(share: &Share, tally: &mut Tally, work: &mut [u32]) {
    for seed in share.seeds(1500) {
        for kind in kinds(seed) {
            let most = match kind {
                "max" => 3,
                "full" => 12,
                "medium" => 100,
                "damaged" => 1500,
                _ => 800,
            };
            if seed >= most {
                continue;
            }
            let bytes = generated(kind, seed);
            for lengths in all_lengths(&bytes) {
                one(tally, work, &bytes, lengths, &|| format!("{kind} {seed}"));
            }
            let limit = LIMITS[seed as usize % LIMITS.len()];
            let limited = with_limit(&bytes, limit);
            one(tally, work, &limited, asked(&limited), &|| format!("{kind} {seed}, limit {limit}"));
        }
    }
}

/// Sheets of any size, and sheets whose carriers finish at equal times.
fn drawn(share: &Share, tally: &mut Tally, work: &mut [u32]) {
    for seed in share.seeds(4000) {
        let mut rng = Rng::new(17_000 + seed);
        if seed % 50 < share.of {
            junk(work, &mut rng);
        }
        for (name, sheet) in [("any", any(60, &mut rng)), ("equal finishes", equal_finishes(60, &mut rng))] {
            one(tally, work, &sheet, asked(&sheet), &|| format!("{name} {seed}"));
        }
    }
}

/// Maps of many nodes, and a sheet whose nodes are all roots.
fn dear(share: &Share, tally: &mut Tally, work: &mut [u32]) {
    for seed in share.seeds(4) {
        for (side, blocked, lanes, horizon) in [(20, 30, 0, 100), (32, 10, 20, 160), (32, 0, 0, 160)] {
            let map = Map { side, blocked, lanes, carriers: 12, goals: 2, horizon, limit: 600 };
            let sheet = map.sheet(&mut Rng::new(400 + seed));
            one(tally, work, &sheet, asked(&sheet), &|| format!("map {side} {blocked} {lanes} {seed}"));
        }
        let sheet = with_limit(&roots_alone(), LIMITS[seed as usize]);
        one(tally, work, &sheet, asked(&sheet), &|| format!("roots alone {seed}"));
    }
}

/// Words of workspace and of output: as many as the sheet asks for, more, one short of either and of both, and none.
fn all_lengths(bytes: &[u8]) -> [(usize, usize); 6] {
    let (words, places) = asked(bytes);
    let (fewer_words, fewer_places) = (words.saturating_sub(1), places.saturating_sub(1));
    [
        (words, places),
        ((words + 5).min(PLENTY), places + 3),
        (fewer_words, places),
        (words, fewer_places),
        (fewer_words, fewer_places),
        (0, 0),
    ]
}

/// Calls the other planner's board, this planner's, and this planner's search with the same sheet and lengths. The workspace holds
/// what other sheets' calls left, or anything; after a refusal, and of no bytes, all of it must be as it was, and always what lies past
/// it.
fn one(
    tally: &mut Tally,
    work: &mut [u32],
    bytes: &[u8],
    (words, places): (usize, usize),
    name: &dyn Fn() -> String,
) {
    let old: Vec<u16> = (0..places + PAST).map(|k| (k as u16).wrapping_mul(40_503) ^ words as u16).collect();
    let (mut theirs, mut out, mut searched) = (old.clone(), old.clone(), old);
    let board = board::gate_board(RULES, bytes, &mut work[..words], &mut theirs[..places]);
    let expected = board_numbers(&board);
    let free = if workspace_stays(bytes, &expected.0) { 0 } else { words };
    let before = work[free..words + PAST].to_vec();
    let ours = gate_board(bytes, &mut work[..words], &mut out[..places]);
    let stays = work[free..words + PAST] == before;
    let numbers = search(bytes, &mut work[..words], &mut searched[..places]);
    let lines = lines::of_search(bytes, &numbers, &searched);
    let wrong = [
        (ours != expected, "not the other planner's numbers"),
        (out != theirs, "not the other planner's output"),
        (ours.0 != numbers || out != searched, "not the search's answer and output"),
        (!stays, "a word of the workspace that must stay"),
        (!lines.as_ref().is_some_and(|lines| lines::are_on(lines, &ours.1)), "not the plan's lines"),
    ];
    lines.iter().flat_map(|lines| lines::notes(lines)).for_each(|what| tally.note(what));
    tally.count_on(bytes, wrong.iter().all(|(is, _)| !is), kind(&ours.0), || {
        let wrong: Vec<&str> = wrong.iter().filter(|(is, _)| *is).map(|(_, what)| *what).collect();
        let wrong = wrong.join(", ");
        format!("{}, {words} and {places} words: {wrong}: {ours:?} for {expected:?}", name())
    });
}
