//! `search_test`: every field of the answer, and the output's words up to the last that was changed.

use compare::theirs::search_numbers;
use other::search::search;
use other::RULES;

use crate::case::{changed, spaced, Cases};

/// Eight two-byte numbers (how many bytes the sheet has, how many words of workspace in two halves, how many words of output, the word
/// that fills the output before the call, the word that fills the workspace in two halves, and whether it is kept), and the sheet.
pub fn line(cases: &mut Cases) -> String {
    let size = cases.number();
    let (room, places, fill) = (cases.double(), cases.number(), cases.word());
    let (_filled, _kept) = (cases.double(), cases.word());
    let sheet = cases.bytes(size);
    let (mut work, mut out) = (vec![0; room as usize], vec![fill; places]);
    let numbers = search_numbers(&search(RULES, sheet, &mut work, &mut out));
    let [cause, kind, flowtime, nodes, bound, ..] = numbers;
    let kind = match kind {
        0 => "plan".to_string(),
        1 => "none".to_string(),
        2 => "spent".to_string(),
        _ => format!("refused {cause}"),
    };
    let tasks = spaced(&numbers[5..]);
    format!("{kind} flowtime {flowtime} nodes {nodes} bound {bound} tasks{tasks}{}\n", changed(&out, fill))
}
