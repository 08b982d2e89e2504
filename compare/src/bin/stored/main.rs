//! The stored cases: what the other author's planner says of the inputs of the test programs (`crates/*_test/stdin`) under the changes
//! that have landed, beside what is stored for them (`stdout`). The last line is 'N passed, M failed', a case to a line of output.
//! With `--write` the outputs are stored anew.

mod assignments;
mod case;
mod paths;
mod searches;
mod sheets;
mod words;

use std::path::Path;
use std::process::ExitCode;

use case::Cases;

type Program = (&'static str, fn(&mut Cases) -> String);

/// The test programs, and what each writes of one case.
const PROGRAMS: &[Program] = &[
    ("sheet_test", sheets::line),
    ("collision_test", words::collision),
    ("plan_check_test", words::check),
    ("assignment_test", assignments::lines),
    ("path_test", paths::line),
    ("search_test", searches::line),
];

fn main() -> ExitCode {
    let write = std::env::args().nth(1).is_some_and(|argument| argument == "--write");
    let crates = Path::new(concat!(env!("CARGO_MANIFEST_DIR"), "/../crates"));
    let (mut passed, mut failed) = (0, 0);
    for (name, answer) in PROGRAMS {
        let folder = crates.join(name);
        let input = std::fs::read(folder.join("stdin")).expect("stored inputs");
        let mut cases = Cases::new(&input);
        let mut said = String::new();
        while !cases.is_done() {
            said += &answer(&mut cases);
        }
        if write {
            std::fs::write(folder.join("stdout"), &said).expect("a folder that can be written to");
        }
        let stored = std::fs::read_to_string(folder.join("stdout")).expect("stored outputs");
        let (good, bad) = beside(name, &stored, &said);
        println!("{name}: {good} passed, {bad} failed");
        passed += good;
        failed += bad;
    }
    compare::ended(passed, failed)
}

/// How many lines are the same and how many are not; the first of these are printed.
fn beside(name: &str, stored: &str, said: &str) -> (u64, u64) {
    let (stored, said): (Vec<&str>, Vec<&str>) = (stored.lines().collect(), said.lines().collect());
    let most = stored.len().max(said.len());
    let other: Vec<usize> = (0..most).filter(|&k| stored.get(k) != said.get(k)).collect();
    for &k in other.iter().take(3) {
        println!(
            "{name}, line {}: stored {:?}, the other planner says {:?}",
            k + 1,
            stored.get(k),
            said.get(k)
        );
    }
    ((most - other.len()) as u64, other.len() as u64)
}
