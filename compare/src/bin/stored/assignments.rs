//! `assignment_test`: the least assignment of a table, and the next ones in order.

use compare::theirs::assignment_numbers;
use other::assign::{least_assignment, Assignments};

use crate::case::{spaced, Cases};

/// The test program writes at most this many.
const MOST: usize = 8;

/// The count m, the number of entries, how many assignments to write at most, and the entries.
pub fn lines(cases: &mut Cases) -> String {
    let (m, count, most) = (cases.byte(), cases.number(), cases.byte());
    let table = cases.words(count);
    match assignment_numbers(&least_assignment(m, &table)) {
        [0, 1, _] => {
            let first = Assignments::new(usize::from(m), &table).take(usize::from(most).clamp(1, MOST));
            let words = std::iter::once("least").chain(std::iter::repeat("next"));
            first.zip(words).map(|((sum, tasks), word)| one(word, sum, &tasks)).collect()
        }
        [0, ..] => "none\n".to_string(),
        [cause, ..] => format!("refused {cause}\n"),
    }
}

fn one(word: &str, sum: u32, tasks: &[u8; 12]) -> String {
    format!("{word} {sum}:{}\n", spaced(tasks.iter().filter(|&&task| task != 255)))
}
