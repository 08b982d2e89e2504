//! `path_test`: the answer, and the output's words up to the last that was changed.

use compare::theirs::path_numbers;
use other::path::least_path;
use other::sheet::{Carrier, Task};
use other::RULES;

use crate::case::{changed, Cases};

/// Eight two-byte numbers (how many bytes the sheet has, how many words the list of records, the carrier, the task, how many words of
/// workspace in two halves, how many words of output, and the word that fills both before the call), the sheet, and the records.
pub fn line(cases: &mut Cases) -> String {
    let (size, count) = (cases.number(), cases.number());
    let (carrier, task) = (Carrier(cases.number()), Task(cases.number()));
    let (room, places, fill) = (cases.double(), cases.number(), cases.word());
    let sheet = cases.bytes(size);
    let records = cases.words(count);
    let (mut work, mut out) = (vec![0; room as usize], vec![fill; places]);
    let answer = least_path(RULES, sheet, carrier, task, &mut work, &mut out, &records);
    let said = match path_numbers(&answer) {
        [0, 1, finish] => format!("found {finish}"),
        [0, ..] => "none".to_string(),
        [cause, ..] => format!("refused {cause}"),
    };
    format!("{said}{}\n", changed(&out, fill))
}
