//! `collision_test` and `plan_check_test`: lines of document 01's numbers.

use compare::theirs::{check_numbers, collision_numbers};
use other::check::check_plan;
use other::collide::first_collision;
use other::RULES;

use crate::case::{spaced, Cases};

/// m, H, how many words, and the words.
pub fn collision(cases: &mut Cases) -> String {
    let (m, h, count) = (cases.byte(), cases.byte(), cases.number());
    let paths = cases.words(count);
    numbers(&collision_numbers(&first_collision(m, h, &paths)))
}

/// How many bytes the sheet has and how many words, the task list, the sheet and the words.
pub fn check(cases: &mut Cases) -> String {
    let (size, count) = (cases.number(), cases.number());
    let tasks = cases.bytes(12).try_into().expect("twelve tasks");
    let sheet = cases.bytes(size);
    let paths = cases.words(count);
    numbers(&check_numbers(&check_plan(RULES, sheet, tasks, &paths)))
}

fn numbers(line: &[u32]) -> String {
    format!("{}{}\n", line[0], spaced(&line[1..]))
}
