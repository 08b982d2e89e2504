//! Where the values of a job sheet stand: the one place here that knows the header's bytes and the directory's pairs. A byte past the
//! end reads 0.

use std::fmt;

use crate::Task;

// The header: a byte each, and two for the node limit and for what is reserved.
pub(crate) const WIDTH: usize = 0;
pub(crate) const HEIGHT: usize = 1;
pub(crate) const COUNT: usize = 2;
pub(crate) const HORIZON: usize = 3;
pub(crate) const LIMIT: usize = 4;
pub(crate) const RESERVED: usize = 6;
/// Where the header ends and the directory begins.
pub(crate) const HEADER: usize = 8;

pub(crate) fn byte(bytes: &[u8], at: usize) -> usize {
    bytes.get(at).copied().map_or(0, usize::from)
}

/// A two-byte value, low byte first.
pub(crate) fn word(bytes: &[u8], at: usize) -> usize {
    byte(bytes, at) + 256 * byte(bytes, at.saturating_add(1))
}

pub(crate) fn area(bytes: &[u8]) -> usize {
    byte(bytes, WIDTH) * byte(bytes, HEIGHT)
}

/// The grid byte of a blocked place. 0 is a free one, and 2 to 5 are lanes.
pub(crate) const BLOCKED: u8 = 1;
/// The greatest grid byte.
pub(crate) const LAST_GRID_BYTE: usize = 5;

/// The grid byte of a place; 0 past the sheet's end.
pub(crate) fn grid_byte(bytes: &[u8], place: usize) -> usize {
    byte(bytes, Pair::Grid.offset(bytes) + place)
}

/// What a pair of the directory points to.
#[derive(Clone, Copy, PartialEq, Eq, Debug)]
pub enum Pair {
    Grid,
    Starts,
    Task(Task),
}

impl Pair {
    /// The pairs before those of the tasks.
    pub(crate) const BEFORE_TASKS: usize = 2;

    /// By its number in the directory, from 0.
    pub(crate) fn of(index: usize) -> Pair {
        match index {
            0 => Pair::Grid,
            1 => Pair::Starts,
            _ => Pair::Task(Task(index - Self::BEFORE_TASKS)),
        }
    }

    pub fn index(self) -> usize {
        match self {
            Pair::Grid => 0,
            Pair::Starts => 1,
            Pair::Task(task) => task.0.saturating_add(Self::BEFORE_TASKS),
        }
    }

    /// Where its offset stands; its length follows.
    pub(crate) fn at(self) -> usize {
        HEADER + 4 * self.index()
    }

    /// The offset of what it points to.
    pub(crate) fn offset(self, bytes: &[u8]) -> usize {
        word(bytes, self.at())
    }

    /// How many bytes it points to.
    pub(crate) fn length(self, bytes: &[u8]) -> usize {
        word(bytes, self.at() + 2)
    }
}

impl fmt::Display for Pair {
    fn fmt(&self, f: &mut fmt::Formatter<'_>) -> fmt::Result {
        match self {
            Pair::Grid => write!(f, "pair 0 (the grid)"),
            Pair::Starts => write!(f, "pair 1 (the starts)"),
            Pair::Task(task) => write!(f, "pair {} ({task})", self.index()),
        }
    }
}

/// How many pairs the directory of a sheet of m tasks has.
pub(crate) fn pairs(m: usize) -> usize {
    Pair::BEFORE_TASKS + m
}

/// Where the directory ends, and what it points to begins.
pub(crate) fn directory_end(m: usize) -> usize {
    HEADER + 4 * pairs(m)
}
