//! Compares every exported call with another author's planner on generated inputs. Seeds are fixed. The last line is
//! 'N passed, M failed', and the exit status is 0 only if M is 0.

mod assignments;
mod boards;
mod collisions;
mod dark;
mod lines;
mod paths;
mod plans;
mod searches;
mod sheets;

use std::collections::BTreeMap;
use std::process::ExitCode;

use other::sheet::{read_sheet, Sheet};
use other::RULES;

/// What one part found.
#[derive(Default)]
pub struct Tally {
    passed: u64,
    failed: u64,
    /// How often each kind of answer came.
    kinds: BTreeMap<String, u64>,
    /// How many of the comparisons had what is counted besides, such as lanes on the sheet, or no bytes.
    having: BTreeMap<&'static str, u64>,
    /// The first failures, in words.
    seen: Vec<String>,
}

impl Tally {
    /// One comparison on this sheet, of an answer of this kind.
    pub fn count_on(&mut self, sheet: &[u8], ok: bool, kind: String, what: impl Fn() -> String) {
        if other::has_lanes(sheet) {
            self.note("lanes");
        }
        if sheet.is_empty() {
            self.note("no bytes");
        }
        self.count(ok, kind, what);
    }

    /// The comparison has this, too.
    pub fn note(&mut self, what: &'static str) {
        *self.having.entry(what).or_default() += 1;
    }

    /// One comparison, of an answer of this kind.
    pub fn count(&mut self, ok: bool, kind: String, what: impl Fn() -> String) {
        *self.kinds.entry(kind).or_default() += 1;
        if ok {
            self.passed += 1;
            return;
        }
        self.failed += 1;
        if self.seen.len() < 10 {
            self.seen.push(what());
        }
    }
}

/// The kind of an answer whose first two numbers are the cause and 1 for a yes.
pub fn kind_of(numbers: &[u32], yes: &str, no: &str) -> String {
    match numbers {
        [0, 1, ..] => yes.to_string(),
        [0, ..] => no.to_string(),
        [cause, ..] => format!("cause {cause}"),
        [] => String::new(),
    }
}

/// A part takes the share `number` of `of`: the seeds that leave that remainder.
pub struct Share {
    number: u64,
    of: u64,
}

impl Share {
    pub fn seeds(&self, count: u64) -> impl Iterator<Item = u64> + '_ {
        (0..count).filter(|seed| seed % self.of == self.number)
    }
}

/// The kinds of sheet that a seed makes. The dark house is one sheet, so that only the first seed makes it.
pub fn kinds(seed: u64) -> impl Iterator<Item = &'static str> {
    other::kinds().filter(move |&kind| kind != "dark" || seed == 0)
}

/// An accepted sheet that has carriers: any but the dark house.
pub fn with_carriers(bytes: &[u8]) -> Option<Sheet<'_>> {
    read_sheet(RULES, bytes).ok().filter(|sheet| !sheet.is_dark())
}

type Part = (&'static str, fn(&Share) -> Tally);

const PARTS: &[Part] = &[
    ("sheets and task goals", sheets::run),
    ("least paths", paths::run),
    ("least assignments", assignments::run),
    ("first collisions", collisions::run),
    ("plan checks", plans::run),
    ("searches", searches::run),
    ("gate boards", boards::run),
    ("dark house, and sheets of one to seven bytes", dark::run),
];

/// Each part's seeds are split over this many threads; what is compared does not depend on it.
const THREADS: u64 = 2;

fn main() -> ExitCode {
    let (mut passed, mut failed) = (0, 0);
    for (name, run) in PARTS {
        let tallies: Vec<Tally> = std::thread::scope(|scope| {
            let threads: Vec<_> =
                (0..THREADS).map(|number| scope.spawn(move || run(&Share { number, of: THREADS }))).collect();
            threads.into_iter().map(|thread| thread.join().expect("no part panics")).collect()
        });
        let (good, bad) = tallies.iter().fold((0, 0), |sum, one| (sum.0 + one.passed, sum.1 + one.failed));
        for line in tallies.iter().flat_map(|tally| &tally.seen) {
            println!("{name}: {line}");
        }
        let kinds = added(tallies.iter().map(|tally| &tally.kinds));
        let kinds: Vec<String> = kinds.iter().map(|(kind, count)| format!("{kind} {count}")).collect();
        let having = added(tallies.iter().map(|tally| &tally.having));
        let having: String = having.iter().map(|(what, count)| format!("; with {what} {count}")).collect();
        println!("{name} ({}{having}): {good} passed, {bad} failed", kinds.join(", "));
        passed += good;
        failed += bad;
    }
    compare::ended(passed, failed)
}

/// The counts of all maps, added up.
fn added<'a, K: Ord + Clone + 'a>(maps: impl Iterator<Item = &'a BTreeMap<K, u64>>) -> BTreeMap<K, u64> {
    let mut sums = BTreeMap::new();
    for (key, count) in maps.flatten() {
        *sums.entry(key.clone()).or_insert(0) += count;
    }
    sums
}
