//! Times the exported calls beside another author's planner: same inputs, same run, both built for release. For each case the
//! median time of a call of either, and the median, least and greatest of the ratios of the rounds. A ratio below 1 says that
//! this planner is faster. Buffers are lent as the call before left them. Times are the thread's processor times, so that what
//! else the machine does weighs less. Of searches, whose inputs differ much, also the median, least and greatest of the ratios of the
//! inputs. A table of its own has the gate board beside this planner's own search of the same sheets, so that a ratio of 1 says that
//! the board adds nothing. An argument picks the cases whose name has it; `growth` picks what a node of a search costs.

mod cases;
mod clock;
mod growth;

use std::time::Duration;

/// One call of this planner on the input of a number, and the call beside it: the other planner's, but for the board beside a search.
pub struct Case {
    pub inputs: usize,
    /// The inputs' times differ much.
    pub varied: bool,
    pub ours: Box<dyn FnMut(usize)>,
    pub theirs: Box<dyn FnMut(usize)>,
}

const ROUNDS: usize = 21;

/// How long one side of a round takes at least.
const SIDE: Duration = Duration::from_millis(8);

fn main() {
    let wanted = std::env::args().nth(1).unwrap_or_default();
    table(["case", "ours µs", "other µs"], cases::all(), &wanted);
    println!();
    table(["what the board adds", "board µs", "search µs"], cases::boards_beside_searches(), &wanted);
    if wanted.is_empty() || wanted == "growth" {
        growth::print();
    }
}

/// The cases that are wanted, under a header of their own.
fn table([case, ours, other]: [&str; 3], cases: Vec<cases::Named>, wanted: &str) {
    println!("{case:<40} {ours:>10} {other:>10}  {:>6}", "ratio");
    for (name, case) in cases.into_iter().filter(|(name, _)| name.contains(wanted)) {
        report(&name, case());
    }
}

fn report(name: &str, mut case: Case) {
    let mut repeats = 1;
    while side(&mut case.theirs, case.inputs, repeats) < SIDE {
        repeats *= 2;
    }
    let mut rounds: Vec<(f64, f64)> = (0..ROUNDS)
        .map(|round| {
            // Either goes first in every other round.
            if round % 2 == 0 {
                let ours = side(&mut case.ours, case.inputs, repeats).as_secs_f64();
                (ours, side(&mut case.theirs, case.inputs, repeats).as_secs_f64())
            } else {
                let theirs = side(&mut case.theirs, case.inputs, repeats).as_secs_f64();
                (side(&mut case.ours, case.inputs, repeats).as_secs_f64(), theirs)
            }
        })
        .collect();
    let calls = (case.inputs * repeats) as f64;
    let per_call = |times: Vec<f64>| median(times) / calls * 1e6;
    let ours = per_call(rounds.iter().map(|round| round.0).collect());
    let theirs = per_call(rounds.iter().map(|round| round.1).collect());
    rounds.sort_by(|a, b| (a.0 / a.1).total_cmp(&(b.0 / b.1)));
    let ratio = |round: &(f64, f64)| round.0 / round.1;
    print!(
        "{:<40} {ours:>10.2} {theirs:>10.2}  {:>6.3} ({:.3} to {:.3})",
        name,
        ratio(&rounds[ROUNDS / 2]),
        ratio(&rounds[0]),
        ratio(&rounds[ROUNDS - 1])
    );
    if case.varied {
        let ratios = spread(&mut case);
        print!(
            "  inputs {:.3} ({:.3} to {:.3})",
            ratios[ratios.len() / 2],
            ratios[0],
            ratios[ratios.len() - 1]
        );
    }
    println!();
}

/// The ratios of the inputs, in order.
fn spread(case: &mut Case) -> Vec<f64> {
    const CALLS: usize = 5;
    let ratio = |input: usize| {
        let timed = |call: &mut dyn FnMut(usize)| {
            let begun = clock::now();
            call(input);
            (clock::now() - begun).as_secs_f64()
        };
        let ours = median((0..CALLS).map(|_| timed(&mut case.ours)).collect());
        ours / median((0..CALLS).map(|_| timed(&mut case.theirs)).collect())
    };
    let mut ratios: Vec<f64> = (0..case.inputs).map(ratio).collect();
    ratios.sort_by(f64::total_cmp);
    ratios
}

fn side(call: &mut dyn FnMut(usize), inputs: usize, repeats: usize) -> Duration {
    let begun = clock::now();
    for _ in 0..repeats {
        for input in 0..inputs {
            call(input);
        }
    }
    clock::now() - begun
}

fn median(mut times: Vec<f64>) -> f64 {
    times.sort_by(f64::total_cmp);
    times[times.len() / 2]
}
