//! The gate board: which car comes to which gate, and when.

use std::fmt;

use crate::{Answer, Carrier, Place, Plan, Sheet, Task};

/// One line of the gate board: a task of a plan.
#[derive(Clone, Copy, PartialEq, Eq, Hash, Debug)]
pub struct GateLine {
    /// The task's last goal, its gate.
    pub goal: Place,
    /// The carrier that has the task.
    pub carrier: Carrier,
    pub task: Task,
    /// The time from which the carrier rests on the gate.
    pub finish: u32,
}

/// The search's answer and the gate board: of a plan one line for each task, sorted by finish and then by last goal; without a plan
/// no line. It can only be had from [`Planner::gate_board`](crate::Planner::gate_board).
///
/// ```
/// use carrier_planner::{Planner, Sheet};
/// // Two carriers that change sides: round 6 of document 01.
/// let sheet = Sheet::builder(2, 2)
///     .horizon(3)
///     .carrier(0, 0)
///     .carrier(1, 0)
///     .task([(1, 0), (0, 0)])
///     .task([(0, 0), (1, 0)])
///     .build()?;
/// let board = Planner::new().gate_board(&sheet)?;
/// assert_eq!(board.lines().len(), sheet.m());
/// assert_eq!(board.lines()[0].to_string(), "gate 0 carrier 1 task 0 finish 1");
/// let printed = "plan 4 nodes 18\ngate 0 carrier 1 task 0 finish 1\ngate 1 carrier 0 task 1 finish 3\n";
/// assert_eq!(board.to_string(), printed);
/// # Ok::<(), Box<dyn std::error::Error>>(())
/// ```
#[derive(Clone, PartialEq, Eq, Hash, Debug)]
pub struct GateBoard {
    answer: Answer,
    lines: Vec<GateLine>,
}

/// Numbers to a line.
const NUMBERS: usize = 4;

impl GateBoard {
    /// Of the answer and the lines that the call gave for this sheet. How many lines are filled is a matter of the answer and of m
    /// alone, since a filled line may be all zeros.
    pub(crate) fn of(sheet: &Sheet, answer: Answer, lines: &[u32]) -> GateBoard {
        let filled = if answer.plan().is_some() { sheet.m() } else { 0 };
        let lines = lines.chunks_exact(NUMBERS).take(filled).filter_map(GateLine::of).collect();
        GateBoard { answer, lines }
    }

    /// What the search found.
    pub fn answer(&self) -> &Answer {
        &self.answer
    }

    pub fn into_answer(self) -> Answer {
        self.answer
    }

    pub fn plan(&self) -> Option<&Plan> {
        self.answer.plan()
    }

    /// A line for each task of a plan, the first car to finish first, of several at one time the least gate; empty without a plan.
    pub fn lines(&self) -> &[GateLine] {
        &self.lines
    }
}

impl GateLine {
    /// Of the four numbers of a line; `None` of any other count.
    fn of(numbers: &[u32]) -> Option<GateLine> {
        let &[goal, carrier, task, finish] = numbers else { return None };
        Some(GateLine {
            goal: Place(u16::try_from(goal).unwrap_or(u16::MAX)),
            carrier: Carrier(carrier as usize),
            task: Task(task as usize),
            finish,
        })
    }
}

/// `gate 0 carrier 1 task 0 finish 1`, without a line break.
impl fmt::Display for GateLine {
    fn fmt(&self, f: &mut fmt::Formatter<'_>) -> fmt::Result {
        let GateLine { goal, carrier, task, finish } = self;
        write!(f, "gate {goal} {carrier} {task} finish {finish}")
    }
}

/// The first line of the listing of document 01, then the lines of the board, each with its line break.
impl fmt::Display for GateBoard {
    fn fmt(&self, f: &mut fmt::Formatter<'_>) -> fmt::Result {
        self.answer.write_head(f)?;
        self.lines.iter().try_for_each(|line| writeln!(f, "{line}"))
    }
}
