//! Constraints, least paths, least assignments and first collisions.

use std::fmt;

use crate::{calls, Carrier, Cause, Place, Task};

/// What a carrier must not do.
#[derive(Clone, Copy, PartialEq, Eq, Hash, Debug)]
pub enum Constraint {
    /// The carrier is not on `place` at `time`.
    Place { carrier: Carrier, place: Place, time: u16 },
    /// The carrier does not go from `from` to `to` between `time` and `time` + 1; with equal places it does not wait there.
    Move { carrier: Carrier, from: Place, to: Place, time: u16 },
}

impl Constraint {
    /// The record of five words.
    pub fn record(&self) -> [u16; 5] {
        // A number that 16 bits cannot hold is not below m either.
        let number = |carrier: Carrier| u16::try_from(carrier.0).unwrap_or(u16::MAX);
        match *self {
            Constraint::Place { carrier, place, time } => [0, number(carrier), place.0, 0, time],
            Constraint::Move { carrier, from, to, time } => [1, number(carrier), from.0, to.0, time],
        }
    }
}

/// One carrier's least path.
#[derive(Clone, PartialEq, Eq, Hash, Debug)]
pub struct LeastPath {
    pub finish: u32,
    /// For times 0 to H.
    pub places: Vec<Place>,
}

/// The least assignment of a table, with its prices.
#[derive(Clone, PartialEq, Eq, Hash, Debug)]
pub struct Assignment {
    pub sum: u32,
    /// The task of each carrier.
    pub tasks: Vec<Task>,
    /// A row's plus a column's price is at most each entry that is not barred, and equals it on the chosen ones.
    pub row_prices: Vec<i32>,
    /// At most 0.
    pub column_prices: Vec<i32>,
}

/// An entry of a table that no assignment may use.
pub const BARRED: u16 = 65535;

/// The first assignment by sum of entries, then by list of tasks, of a table of m × m entries: row by row, a row to a carrier.
/// `None` if every assignment uses a barred entry.
pub fn least_assignment(m: u8, table: &[u16]) -> Result<Option<Assignment>, Cause> {
    let answer = calls::least_assignment(m, table);
    let [cause, found, sum] = answer.numbers;
    Cause::check(cause)?;
    let m = usize::from(m);
    Ok((found == 1).then(|| Assignment {
        sum,
        tasks: answer.tasks.iter().take(m).map(|&task| Task(task.into())).collect(),
        row_prices: answer.rows.iter().take(m).copied().collect(),
        column_prices: answer.columns.iter().take(m).copied().collect(),
    }))
}

/// Two carriers on one place, or two that change places.
#[derive(Clone, Copy, PartialEq, Eq, Hash, Debug)]
pub struct Collision {
    pub time: u32,
    pub first: Carrier,
    pub second: Carrier,
    /// The first carrier's place at `time`.
    pub place: Place,
    /// Of a move collision: the first carrier's place at `time` + 1.
    pub to: Option<Place>,
}

impl fmt::Display for Collision {
    fn fmt(&self, f: &mut fmt::Formatter<'_>) -> fmt::Result {
        let Collision { time, first, second, place, to } = self;
        match to {
            None => write!(f, "{first} and {second} are both on place {place} at time {time}"),
            Some(to) => {
                let after = time + 1;
                write!(
                    f,
                    "{first} and {second} change places {place} and {to} between times {time} and {after}"
                )
            }
        }
    }
}

/// The first collision of m paths of `horizon` + 1 words each, carrier by carrier: least time, place before move, least pair.
pub fn first_collision(m: u8, horizon: u8, paths: &[u16]) -> Result<Option<Collision>, Cause> {
    let [cause, found, kind, time, i, j, u, v] = calls::first_collision(m, horizon, paths);
    Cause::check(cause)?;
    let place = |word: u32| Place(u16::try_from(word).unwrap_or(u16::MAX));
    Ok((found == 1).then(|| Collision {
        time,
        first: Carrier(i as usize),
        second: Carrier(j as usize),
        place: place(u),
        to: (kind == 1).then(|| place(v)),
    }))
}
