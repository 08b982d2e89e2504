//! One-way lanes: free places that may be left in one direction only.

use std::fmt;

/// Where a lane leads. A carrier may wait on a lane, and enter it from any side, but leaves it only this way.
#[derive(Clone, Copy, PartialEq, Eq, PartialOrd, Ord, Hash, Debug)]
pub enum Direction {
    /// To the row above: place − w.
    North,
    /// To the column on the right.
    East,
    /// To the row below: place + w.
    South,
    /// To the column on the left.
    West,
}

impl Direction {
    /// In the order of their grid bytes.
    pub const ALL: [Direction; 4] = [Direction::North, Direction::East, Direction::South, Direction::West];

    /// "north"
    pub fn word(self) -> &'static str {
        match self {
            Direction::North => "north",
            Direction::East => "east",
            Direction::South => "south",
            Direction::West => "west",
        }
    }

    /// How far a step in this direction leads, in columns and rows.
    pub fn step(self) -> (isize, isize) {
        match self {
            Direction::North => (0, -1),
            Direction::East => (1, 0),
            Direction::South => (0, 1),
            Direction::West => (-1, 0),
        }
    }

    /// The grid byte of a lane in this direction.
    pub(crate) fn byte(self) -> u8 {
        match self {
            Direction::North => 2,
            Direction::East => 3,
            Direction::South => 4,
            Direction::West => 5,
        }
    }

    /// The direction of a lane with this grid byte; `None` for a place that is no lane.
    pub(crate) fn of_byte(byte: usize) -> Option<Direction> {
        Direction::ALL.into_iter().find(|direction| usize::from(direction.byte()) == byte)
    }
}

impl fmt::Display for Direction {
    fn fmt(&self, f: &mut fmt::Formatter<'_>) -> fmt::Result {
        f.write_str(self.word())
    }
}
