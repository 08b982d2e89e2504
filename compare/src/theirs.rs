//! The other planner's answers as the numbers that the exported calls write.

use other::assign::{AssignmentAnswer, AssignmentKind};
use other::board::BoardAnswer;
use other::check::{CheckAnswer, CheckKind};
use other::collide::{CollisionAnswer, CollisionKind};
use other::path::{PathAnswer, PathKind};
use other::search::{SearchAnswer, SearchKind};

pub fn path_numbers(answer: &PathAnswer) -> [u32; 3] {
    match answer.kind {
        PathKind::Found => [0, 1, u32::from(answer.finish)],
        PathKind::None => [0, 0, 0],
        PathKind::Refused(cause) => [u32::from(cause.number()), 0, 0],
    }
}

pub fn assignment_numbers(answer: &AssignmentAnswer) -> [u32; 3] {
    match answer.kind {
        AssignmentKind::Found => [0, 1, answer.sum],
        AssignmentKind::None => [0, 0, 0],
        AssignmentKind::Refused(cause) => [u32::from(cause.number()), 0, 0],
    }
}

pub fn collision_numbers(answer: &CollisionAnswer) -> [u32; 8] {
    let values = |kind: u32| {
        let [t, i, j, u, v] = [answer.t, answer.i, answer.j, answer.u, answer.v].map(u32::from);
        [0, 1, kind, t, i, j, u, v]
    };
    match answer.kind {
        CollisionKind::None => [0; 8],
        CollisionKind::Place => values(0),
        CollisionKind::Move => values(1),
        CollisionKind::Refused(cause) => [u32::from(cause.number()), 0, 0, 0, 0, 0, 0, 0],
    }
}

pub fn check_numbers(answer: &CheckAnswer) -> [u32; 3] {
    match answer.kind {
        CheckKind::Yes => [0, 1, answer.flowtime],
        CheckKind::No => [0, 0, 0],
        CheckKind::Refused(cause) => [u32::from(cause.number()), 0, 0],
    }
}

pub fn search_numbers(answer: &SearchAnswer) -> [u32; 17] {
    let (cause, kind) = match answer.kind {
        SearchKind::Plan => (0, 0),
        SearchKind::None => (0, 1),
        SearchKind::Spent => (0, 2),
        SearchKind::Refused(cause) => (u32::from(cause.number()), 3),
    };
    let mut numbers = [0; 17];
    numbers[..5].copy_from_slice(&[cause, kind, answer.flowtime, answer.nodes, answer.bound]);
    for (number, task) in numbers[5..].iter_mut().zip(answer.tasks) {
        *number = u32::from(task);
    }
    numbers
}

/// The search's numbers and the twelve lines.
pub fn board_numbers(board: &BoardAnswer) -> ([u32; 17], [u32; 48]) {
    let mut lines = [0; 48];
    for (numbers, line) in lines.chunks_exact_mut(4).zip(&board.lines) {
        numbers.copy_from_slice(&[line.last_goal, line.carrier, line.task, line.finish].map(u32::from));
    }
    (search_numbers(&board.answer), lines)
}
