//! Whole searches: every kind of sheet, several node limits, a workspace that holds anything, buffers that are exact, larger and
//! one word short; and on tiny sheets the least flowtime of any plan, by another method.

use compare::inputs::{any, junk, roots_alone, stuck, with_limit, Map};
use compare::search;
use compare::theirs::search_numbers;
use other::gen::Rng;
use other::sheet::read_sheet;
use other::{generated, naive, PLENTY, RULES};

use crate::{kinds, with_carriers, Share, Tally};

/// Words after the lent ones, which no call may touch.
pub const PAST: usize = 8;

struct Lent {
    work: Vec<u32>,
    out: Vec<u16>,
}

/// Node limits that every sheet is searched under besides its own.
pub const LIMITS: [u16; 6] = [1, 2, 3, 5, 17, 60];

pub fn run(share: &Share) -> Tally {
    let mut tally = Tally::default();
    let mut rng = Rng::new(50 + share.number);
    let mut lent = Lent { work: vec![0; PLENTY + PAST], out: Vec::new() };
    junk(&mut lent.work, &mut rng);
    for seed in share.seeds(1500) {
        for kind in kinds(seed) {
            let most = match kind {
                "max" => 6,
                "full" => 24,
                "medium" => 200,
                _ => 1500,
            };
            if seed >= most {
                continue;
            }
            let bytes = generated(kind, seed);
            let name = |limit: u16| format!("{kind} {seed}, limit {limit}");
            let own = bytes.get(4..6).map_or(0, |two| u16::from_le_bytes([two[0], two[1]]));
            one(&mut tally, &mut lent, &bytes, 0, 0, &|| name(own));
            let limit = LIMITS[seed as usize % LIMITS.len()];
            one(&mut tally, &mut lent, &with_limit(&bytes, limit), 5, 3, &|| name(limit));
            short(&mut tally, &mut lent, &bytes, &|| name(own));
            if kind == "tiny" || kind == "lanes" && is_tiny(&bytes) {
                least(&mut tally, &mut lent, &with_limit(&bytes, 4096), &|| name(4096));
            }
            if matches!(kind, "small" | "corridor" | "swap" | "crowd" | "ties") && seed < 30 {
                one(&mut tally, &mut lent, &with_limit(&bytes, 4096), 1, 1, &|| name(4096));
            }
        }
    }
    for seed in share.seeds(20_000) {
        let mut rng = Rng::new(7000 + seed);
        let most = rng.pick(&[4, 20, 100, 100, 500, 4096]);
        let limit = rng.range(1, most);
        let bytes = any(limit, &mut rng);
        if seed % 50 < share.of {
            junk(&mut lent.work, &mut rng);
        }
        one(&mut tally, &mut lent, &bytes, 0, 0, &|| format!("any {seed}, limit {limit}"));
    }
    for seed in share.seeds(6) {
        for (side, blocked, horizon) in [(20, 30, 100), (32, 10, 160), (32, 0, 160)] {
            let lanes = if seed % 3 == 0 { 20 } else { 0 };
            let map = Map { side, blocked, lanes, carriers: 10, goals: 2, horizon, limit: 600 };
            let bytes = map.sheet(&mut Rng::new(300 + seed));
            one(&mut tally, &mut lent, &bytes, 0, 0, &|| format!("map {side} {blocked} {lanes} {seed}"));
        }
    }
    // Many roots, among children and alone.
    for seed in share.seeds(60) {
        let mut rng = Rng::new(900 + seed);
        let (side, horizon) = (rng.range(5, 20), rng.range(2, 60));
        let (among, limit) = (stuck(side, horizon, &mut rng), rng.range(1, 4096) as u16);
        for (name, bytes) in [("among children", among), ("alone", roots_alone())] {
            let bytes = with_limit(&bytes, limit);
            one(&mut tally, &mut lent, &bytes, 0, 0, &|| format!("roots {name} {seed}, limit {limit}"));
        }
    }
    tally
}

/// A sheet that is small enough for every joint state.
fn is_tiny(bytes: &[u8]) -> bool {
    read_sheet(RULES, bytes).is_ok_and(|sheet| sheet.area() <= 9 && sheet.horizon <= 7 && sheet.m <= 3)
}

/// How many words of workspace and of output a sheet asks for; for a refused one, some.
pub fn asked(bytes: &[u8]) -> (usize, usize) {
    read_sheet(RULES, bytes).map_or((1000, 100), |sheet| (sheet.workspace_words(), sheet.plan_words()))
}

/// The kind of a search's answer in words.
pub fn kind(numbers: &[u32; 17]) -> String {
    let kinds = ["plan", "none", "spent"];
    kinds.get(numbers[1] as usize).map_or_else(|| format!("cause {}", numbers[0]), |kind| kind.to_string())
}

/// Whether every word of the workspace must stay: the call is refused, or it needs none, as a round without carriers.
pub fn workspace_stays(bytes: &[u8], numbers: &[u32; 17]) -> bool {
    numbers[0] != 0 || bytes.is_empty()
}

/// Both with buffers that are `more` words longer than asked for.
fn one(
    tally: &mut Tally,
    lent: &mut Lent,
    bytes: &[u8],
    more_work: usize,
    more_out: usize,
    name: &dyn Fn() -> String,
) -> [u32; 17] {
    let (words, places) = asked(bytes);
    call(tally, lent, bytes, (words + more_work).min(PLENTY), places + more_out, name)
}

/// One word short, of the workspace, of the output, and of both. Nothing is short for a round without carriers.
fn short(tally: &mut Tally, lent: &mut Lent, bytes: &[u8], name: &dyn Fn() -> String) {
    let Some(sheet) = with_carriers(bytes) else { return };
    let (words, places) = (sheet.workspace_words(), sheet.m * (sheet.horizon + 1));
    for (words, places) in [(words - 1, places), (words, places - 1), (words - 1, places - 1)] {
        call(tally, lent, bytes, words, places, name);
    }
}

fn call(
    tally: &mut Tally,
    lent: &mut Lent,
    bytes: &[u8],
    words: usize,
    places: usize,
    name: &dyn Fn() -> String,
) -> [u32; 17] {
    let old = (words as u16) ^ 0x3c3c;
    lent.out.clear();
    lent.out.resize(places + PAST, old);
    let mut expected = lent.out.clone();
    let answer = other::search::search(RULES, bytes, &mut lent.work[..words], &mut expected[..places]);
    let numbers = search_numbers(&answer);
    let before = workspace_stays(bytes, &numbers).then(|| lent.work[..words].to_vec());
    let guard: [u32; PAST] = std::array::from_fn(|k| lent.work[words + k]);
    let ours = search(bytes, &mut lent.work[..words], &mut lent.out[..places]);
    let stays = before.is_none_or(|before| before[..] == lent.work[..words]);
    let past = lent.work[words..words + PAST] == guard;
    let ok = ours == numbers && lent.out == expected && stays && past;
    tally.count_on(bytes, ok, kind(&ours), || {
        format!("{}, {words} and {places} words: {ours:?} for {numbers:?}", name())
    });
    ours
}

/// A plan has the least flowtime that any plan has, by joint states; none has none; the bound of spent is below it.
fn least(tally: &mut Tally, lent: &mut Lent, bytes: &[u8], name: &dyn Fn() -> String) {
    let ours = one(tally, lent, bytes, 0, 0, name);
    let plain = naive::read(RULES.changes(), bytes).expect("an accepted sheet");
    let optimum = naive::optimum(&plain).map(|flowtime| flowtime as u32);
    let ok = match ours[1] {
        0 => optimum == Some(ours[2]),
        1 => optimum.is_none(),
        _ => optimum.is_none_or(|least| ours[4] <= least),
    };
    tally.count_on(bytes, ok, "least flowtime".to_string(), || {
        format!("{}: {ours:?}, least flowtime {optimum:?}", name())
    });
}
