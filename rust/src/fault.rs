//! Where a refused sheet breaks its rule. The verdict is the planner's; here the byte, pair, carrier or task is looked up.

use std::fmt;

use crate::layout::{
    area, byte, directory_end, grid_byte, pairs, word, Pair, BLOCKED, COUNT, HEADER, HEIGHT, LAST_GRID_BYTE,
    LIMIT, RESERVED, WIDTH,
};
use crate::{Carrier, Cause, Task};

/// A refused sheet: the cause, and where it lies.
#[derive(Clone, PartialEq, Eq, Debug)]
pub struct Refusal {
    pub cause: Cause,
    /// The first place that has this cause; `None` only if it was not found.
    pub fault: Option<Fault>,
}

impl fmt::Display for Refusal {
    fn fmt(&self, f: &mut fmt::Formatter<'_>) -> fmt::Result {
        self.cause.fmt(f)?;
        match &self.fault {
            Some(fault) => write!(f, ": {fault}"),
            None => Ok(()),
        }
    }
}

impl std::error::Error for Refusal {}

/// A value of the sheet's header.
#[derive(Clone, Copy, PartialEq, Eq, Debug)]
pub enum Field {
    Width,
    Height,
    Count,
    NodeLimit,
    Zero,
}

impl Field {
    fn words(self) -> (&'static str, &'static str) {
        match self {
            Field::Width => ("the width", "1 to 32"),
            Field::Height => ("the height", "1 to 32"),
            Field::Count => ("the number of carriers and tasks", "1 to 12"),
            Field::NodeLimit => ("the node limit", "1 to 4096"),
            Field::Zero => ("a reserved byte", "0"),
        }
    }
}

/// Why a place cannot be a start or a goal.
#[derive(Clone, Copy, PartialEq, Eq, Debug)]
pub enum Unfit {
    /// Not below w × h.
    OffGrid {
        area: usize,
    },
    Blocked,
}

/// Where a sheet breaks a rule. `byte` counts from the sheet's start.
#[derive(Clone, PartialEq, Eq, Debug)]
#[non_exhaustive]
pub enum Fault {
    /// One to seven bytes; a sheet of none is the dark house.
    Length {
        bytes: usize,
    },
    Header {
        byte: usize,
        field: Field,
        value: usize,
    },
    DirectoryCut {
        bytes: usize,
        needed: usize,
    },
    Offset {
        pair: Pair,
        byte: usize,
        value: usize,
        expected: usize,
    },
    PairLength {
        pair: Pair,
        byte: usize,
        value: usize,
        expected: Option<usize>,
    },
    End {
        bytes: usize,
        expected: usize,
    },
    Grid {
        byte: usize,
        place: usize,
        width: usize,
        value: u8,
    },
    Start {
        carrier: Carrier,
        byte: usize,
        place: usize,
        width: usize,
        unfit: Unfit,
    },
    SharedStart {
        carrier: Carrier,
        other: Carrier,
        byte: usize,
        place: usize,
        width: usize,
    },
    Goal {
        task: Task,
        goal: usize,
        byte: usize,
        place: usize,
        width: usize,
        unfit: Unfit,
    },
    LastGoals {
        task: Task,
        other: Task,
        byte: usize,
        place: usize,
        width: usize,
    },
    /// Of a builder: a sheet has as many tasks as carriers.
    Counts {
        carriers: usize,
        tasks: usize,
    },
}

impl Fault {
    /// The first byte of the value that is at fault, where there is one.
    pub fn byte(&self) -> Option<usize> {
        match *self {
            Fault::Header { byte, .. }
            | Fault::Offset { byte, .. }
            | Fault::PairLength { byte, .. }
            | Fault::Grid { byte, .. }
            | Fault::Start { byte, .. }
            | Fault::SharedStart { byte, .. }
            | Fault::Goal { byte, .. }
            | Fault::LastGoals { byte, .. } => Some(byte),
            Fault::Length { .. } | Fault::DirectoryCut { .. } | Fault::End { .. } | Fault::Counts { .. } => {
                None
            }
        }
    }
}

/// "place 5 (column 1, row 2)", or without the brackets where the place is off the grid.
fn named(place: usize, width: usize, unfit: Option<Unfit>) -> String {
    match unfit {
        Some(Unfit::OffGrid { .. }) => format!("place {place}"),
        _ => format!("place {place} (column {}, row {})", place % width.max(1), place / width.max(1)),
    }
}

impl fmt::Display for Unfit {
    fn fmt(&self, f: &mut fmt::Formatter<'_>) -> fmt::Result {
        match self {
            Unfit::OffGrid { area } => write!(f, "off the grid, which has {area} places"),
            Unfit::Blocked => write!(f, "blocked"),
        }
    }
}

impl fmt::Display for Fault {
    fn fmt(&self, f: &mut fmt::Formatter<'_>) -> fmt::Result {
        match *self {
            Fault::Length { bytes: 1 } => write!(f, "the sheet has 1 byte, its header alone has 8"),
            Fault::Length { bytes } => write!(f, "the sheet has {bytes} bytes, its header alone has 8"),
            Fault::Header { byte, field, value } => {
                let (name, range) = field.words();
                write!(f, "byte {byte}, {name}, is {value}; it must be {range}")
            }
            Fault::DirectoryCut { bytes, needed } => {
                write!(f, "the directory ends at byte {needed}, but the sheet has {bytes} bytes")
            }
            Fault::Offset { pair, byte, value, expected } => {
                write!(f, "byte {byte}, the offset of {pair}, is {value}; it must be {expected}")
            }
            Fault::PairLength { pair, byte, value, expected: Some(expected) } => {
                write!(f, "byte {byte}, the length of {pair}, is {value}; it must be {expected}")
            }
            Fault::PairLength { pair, byte, value, expected: None } => {
                write!(f, "byte {byte}, the length of {pair}, is {value}; it must be even, 2 to 16")
            }
            Fault::End { bytes, expected } => {
                write!(f, "the last pair ends at byte {expected}, but the sheet has {bytes} bytes")
            }
            Fault::Grid { byte, place, width, value } => {
                write!(f, "byte {byte}, {}, is {value}; it must be 0 to 5", named(place, width, None))
            }
            Fault::Start { carrier, byte, place, width, unfit } => {
                write!(
                    f,
                    "byte {byte}, the start of {carrier}: {} is {unfit}",
                    named(place, width, Some(unfit))
                )
            }
            Fault::SharedStart { carrier, other, byte, place, width } => {
                let place = named(place, width, None);
                write!(f, "byte {byte}, the start of {carrier}: {other} starts on {place} too")
            }
            Fault::Goal { task, goal, byte, place, width, unfit } => {
                let place = named(place, width, Some(unfit));
                write!(f, "byte {byte}, goal {goal} of {task}: {place} is {unfit}")
            }
            Fault::LastGoals { task, other, byte, place, width } => {
                let place = named(place, width, None);
                write!(f, "byte {byte}, the last goal of {task}: {other} ends on {place} too")
            }
            Fault::Counts { carriers, tasks } => {
                write!(f, "{carriers} carriers and {tasks} tasks; there must be as many tasks as carriers")
            }
        }
    }
}

/// Looks up where a cause lies.
pub(crate) fn locate(cause: Cause, bytes: &[u8]) -> Refusal {
    let fault = match cause {
        Cause::Short => (bytes.len() < HEADER).then_some(Fault::Length { bytes: bytes.len() }),
        Cause::Header => header(bytes),
        Cause::Directory => directory(bytes),
        Cause::Grid => grid(bytes),
        Cause::Start => starts(bytes),
        Cause::Goal => goals(bytes),
        Cause::LastGoal => last_goals(bytes),
        _ => None,
    };
    Refusal { cause, fault }
}

fn header(bytes: &[u8]) -> Option<Fault> {
    let fields = [
        (WIDTH, Field::Width, byte(bytes, WIDTH), 1..=32),
        (HEIGHT, Field::Height, byte(bytes, HEIGHT), 1..=32),
        (COUNT, Field::Count, byte(bytes, COUNT), 1..=12),
        (LIMIT, Field::NodeLimit, word(bytes, LIMIT), 1..=4096),
        (RESERVED, Field::Zero, byte(bytes, RESERVED), 0..=0),
        (RESERVED + 1, Field::Zero, byte(bytes, RESERVED + 1), 0..=0),
    ];
    let wrong = fields.into_iter().find(|(_, _, value, range)| !range.contains(value));
    wrong.map(|(byte, field, value, _)| Fault::Header { byte, field, value })
}

fn directory(bytes: &[u8]) -> Option<Fault> {
    let m = byte(bytes, COUNT);
    let needed = directory_end(m);
    if bytes.len() < needed {
        return Some(Fault::DirectoryCut { bytes: bytes.len(), needed });
    }
    let mut next = needed;
    for pair in (0..pairs(m)).map(Pair::of) {
        let (at, offset, length) = (pair.at(), pair.offset(bytes), pair.length(bytes));
        if offset != next {
            return Some(Fault::Offset { pair, byte: at, value: offset, expected: next });
        }
        let expected = match pair {
            Pair::Grid => Some(area(bytes)),
            Pair::Starts => Some(2 * m),
            Pair::Task(_) => None,
        };
        let fits =
            expected.map_or(length % 2 == 0 && (2..=16).contains(&length), |expected| length == expected);
        if !fits {
            return Some(Fault::PairLength { pair, byte: at + 2, value: length, expected });
        }
        next += length;
    }
    (next != bytes.len()).then_some(Fault::End { bytes: bytes.len(), expected: next })
}

fn grid(bytes: &[u8]) -> Option<Fault> {
    let (at, width) = (Pair::Grid.offset(bytes), byte(bytes, WIDTH));
    let place = (0..area(bytes)).find(|&place| grid_byte(bytes, place) > LAST_GRID_BYTE)?;
    Some(Fault::Grid { byte: at + place, place, width, value: grid_byte(bytes, place) as u8 })
}

fn unfit(bytes: &[u8], place: usize) -> Option<Unfit> {
    let area = area(bytes);
    if place >= area {
        return Some(Unfit::OffGrid { area });
    }
    (grid_byte(bytes, place) == usize::from(BLOCKED)).then_some(Unfit::Blocked)
}

fn starts(bytes: &[u8]) -> Option<Fault> {
    let (first, width) = (Pair::Starts.offset(bytes), byte(bytes, WIDTH));
    for carrier in 0..byte(bytes, COUNT) {
        let at = first + 2 * carrier;
        let place = word(bytes, at);
        if let Some(unfit) = unfit(bytes, place) {
            return Some(Fault::Start { carrier: Carrier(carrier), byte: at, place, width, unfit });
        }
        if let Some(other) = (0..carrier).find(|other| word(bytes, first + 2 * other) == place) {
            let (carrier, other) = (Carrier(carrier), Carrier(other));
            return Some(Fault::SharedStart { carrier, other, byte: at, place, width });
        }
    }
    None
}

/// Where the goals of each task begin, and how many there are.
fn stretches(bytes: &[u8]) -> impl Iterator<Item = (Task, usize, usize)> + '_ {
    (0..byte(bytes, COUNT)).map(Task).map(|task| {
        let pair = Pair::Task(task);
        (task, pair.offset(bytes), pair.length(bytes) / 2)
    })
}

fn goals(bytes: &[u8]) -> Option<Fault> {
    let width = byte(bytes, WIDTH);
    for (task, first, count) in stretches(bytes) {
        for goal in 0..count {
            let at = first + 2 * goal;
            let place = word(bytes, at);
            if let Some(unfit) = unfit(bytes, place) {
                return Some(Fault::Goal { task, goal, byte: at, place, width, unfit });
            }
        }
    }
    None
}

fn last_goals(bytes: &[u8]) -> Option<Fault> {
    let lasts: Vec<(Task, usize, usize)> = stretches(bytes)
        .map(|(task, first, count)| {
            let at = first + 2 * count.saturating_sub(1);
            (task, at, word(bytes, at))
        })
        .collect();
    lasts.iter().enumerate().find_map(|(index, &(task, byte, place))| {
        let other = lasts.iter().take(index).find(|earlier| earlier.2 == place)?.0;
        Some(Fault::LastGoals { task, other, byte, place, width: self::byte(bytes, WIDTH) })
    })
}
