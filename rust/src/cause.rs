//! Why a call declines.

use std::fmt;

/// Why a call declines, with document 01's number and words, as document 02 changed them.
#[derive(Clone, Copy, PartialEq, Eq, Hash, Debug)]
#[non_exhaustive]
pub enum Cause {
    /// 1
    Short,
    /// 2
    Header,
    /// 3
    Directory,
    /// 4
    Grid,
    /// 5
    Start,
    /// 6
    Goal,
    /// 7
    LastGoal,
    /// 8
    Number,
    /// 9
    Constraints,
    /// 10
    Workspace,
    /// 11
    Output,
    /// 12
    Count,
    /// A number that this crate does not know: the archive is of another version.
    Unknown(u32),
}

/// Every known cause with its number and words, in the order in which they are tried.
const TABLE: [(Cause, u32, &str); 12] = [
    (Cause::Short, 1, "one to seven bytes"),
    (Cause::Header, 2, "header byte outside its range"),
    (Cause::Directory, 3, "directory cut off or breaking a pair's rule"),
    (Cause::Grid, 4, "grid byte above 5"),
    (Cause::Start, 5, "start off grid, blocked or shared"),
    (Cause::Goal, 6, "goal off grid or blocked"),
    (Cause::LastGoal, 7, "two tasks with one last goal"),
    (Cause::Number, 8, "carrier or task number not below m"),
    (
        Cause::Constraints,
        9,
        "constraint list not in fives, over 4096 records, kind above 1, carrier not below m, place off grid, \
         v not 0 in kind 0, t above H (kind 0) or not below H (kind 1)",
    ),
    (Cause::Count, 12, "count m outside 1 to 12, or table not m × m"),
    (Cause::Workspace, 10, "workspace short"),
    (
        Cause::Output,
        11,
        "output under m × (H + 1) words for the search, under H + 1 for one path; for collision and plan check, \
         paths not exactly m × (H + 1)",
    ),
];

impl Cause {
    /// Every known cause, in the order in which a call tries them.
    pub fn all() -> impl Iterator<Item = Cause> {
        TABLE.iter().map(|&(cause, _, _)| cause)
    }

    /// The cause with this number; `None` for 0, which is no cause.
    pub fn from_number(number: u32) -> Option<Cause> {
        let known = TABLE.iter().find(|entry| entry.1 == number).map(|entry| entry.0);
        known.or((number != 0).then_some(Cause::Unknown(number)))
    }

    /// Document 01's number.
    pub fn number(self) -> u32 {
        match self {
            Cause::Unknown(number) => number,
            known => TABLE.iter().find(|entry| entry.0 == known).map_or(0, |entry| entry.1),
        }
    }

    /// Document 01's words.
    pub fn words(self) -> &'static str {
        TABLE.iter().find(|entry| entry.0 == self).map_or("a cause of another version", |entry| entry.2)
    }

    /// `Err` with the cause, if the number is one.
    pub(crate) fn check(number: u32) -> Result<(), Cause> {
        Cause::from_number(number).map_or(Ok(()), Err)
    }
}

impl fmt::Display for Cause {
    fn fmt(&self, f: &mut fmt::Formatter<'_>) -> fmt::Result {
        write!(f, "cause {}: {}", self.number(), self.words())
    }
}

impl std::error::Error for Cause {}
