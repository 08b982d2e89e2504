//! Job sheets: accepted bytes, what stands in them, and a builder.

use std::fmt;

use crate::fault::{self, Fault, Refusal};
use crate::layout::{self, Pair};
use crate::{calls, Cause, Direction};

/// The most carriers, and the length of every task list.
pub const MOST_CARRIERS: usize = 12;

/// A carrier's number, from 0.
#[derive(Clone, Copy, PartialEq, Eq, PartialOrd, Ord, Hash, Debug)]
pub struct Carrier(pub usize);

/// A task's number, from 0.
#[derive(Clone, Copy, PartialEq, Eq, PartialOrd, Ord, Hash, Debug)]
pub struct Task(pub usize);

/// A place of the floor: y × w + x.
#[derive(Clone, Copy, PartialEq, Eq, PartialOrd, Ord, Hash, Debug)]
pub struct Place(pub u16);

impl fmt::Display for Carrier {
    fn fmt(&self, f: &mut fmt::Formatter<'_>) -> fmt::Result {
        write!(f, "carrier {}", self.0)
    }
}

impl fmt::Display for Task {
    fn fmt(&self, f: &mut fmt::Formatter<'_>) -> fmt::Result {
        write!(f, "task {}", self.0)
    }
}

impl fmt::Display for Place {
    fn fmt(&self, f: &mut fmt::Formatter<'_>) -> fmt::Result {
        self.0.fmt(f)
    }
}

/// A job sheet that the planner accepts; that of no bytes is the dark house, [`Sheet::dark`].
#[derive(Clone, PartialEq, Eq, Hash, Debug)]
pub struct Sheet {
    bytes: Vec<u8>,
}

impl Sheet {
    /// Takes bytes that are an accepted sheet; of others it says the cause, and where it lies.
    pub fn new(bytes: impl Into<Vec<u8>>) -> Result<Sheet, Refusal> {
        let bytes = bytes.into();
        match Cause::check(calls::cause(&bytes)) {
            Ok(()) => Ok(Sheet { bytes }),
            Err(cause) => Err(fault::locate(cause, &bytes)),
        }
    }

    /// The sheet of no bytes, of a day without a performance: a round without carriers, tasks and floor. Every number of it is 0, it
    /// asks for no workspace and no output, and the empty plan is its only plan. A least path on it has cause 8.
    ///
    /// ```
    /// use carrier_planner::{Planner, Sheet};
    /// let sheet = Sheet::new([])?;
    /// assert_eq!(sheet, Sheet::dark());
    /// assert_eq!((sheet.m(), sheet.workspace()), (0, 0));
    /// assert_eq!(Planner::within(&mut []).search(&sheet)?.to_string(), "plan 0 nodes 0\n");
    /// # Ok::<(), Box<dyn std::error::Error>>(())
    /// ```
    pub fn dark() -> Sheet {
        Sheet { bytes: Vec::new() }
    }

    /// Whether it is the sheet of no bytes, the only one without carriers.
    pub fn is_dark(&self) -> bool {
        self.bytes.is_empty()
    }

    /// A builder for a floor of this size, without blocked places and lanes.
    pub fn builder(width: u8, height: u8) -> SheetBuilder {
        SheetBuilder::new(width, height)
    }

    pub fn bytes(&self) -> &[u8] {
        &self.bytes
    }

    pub fn into_bytes(self) -> Vec<u8> {
        self.bytes
    }

    pub fn width(&self) -> usize {
        layout::byte(&self.bytes, layout::WIDTH)
    }

    pub fn height(&self) -> usize {
        layout::byte(&self.bytes, layout::HEIGHT)
    }

    /// How many carriers there are, and as many tasks: 1 to 12, and 0 of the dark house.
    pub fn m(&self) -> usize {
        layout::byte(&self.bytes, layout::COUNT)
    }

    /// The horizon H: a path has H + 1 places, for times 0 to H.
    pub fn horizon(&self) -> usize {
        layout::byte(&self.bytes, layout::HORIZON)
    }

    pub fn node_limit(&self) -> usize {
        layout::word(&self.bytes, layout::LIMIT)
    }

    pub fn area(&self) -> usize {
        layout::area(&self.bytes)
    }

    pub fn carriers(&self) -> impl Iterator<Item = Carrier> {
        (0..self.m()).map(Carrier)
    }

    pub fn tasks(&self) -> impl Iterator<Item = Task> {
        (0..self.m()).map(Task)
    }

    pub fn places(&self) -> impl Iterator<Item = Place> {
        (0..self.area() as u16).map(Place)
    }

    /// Whether the place is on the floor and not blocked. A lane is free.
    pub fn is_free(&self, place: Place) -> bool {
        self.grid_byte(place).is_some_and(|byte| byte != usize::from(layout::BLOCKED))
    }

    /// Where the place leads if it is a lane, a free place that may be left in one direction only; `None` for every other place.
    pub fn lane(&self, place: Place) -> Option<Direction> {
        self.grid_byte(place).and_then(Direction::of_byte)
    }

    /// The grid byte of a place of the floor.
    fn grid_byte(&self, place: Place) -> Option<usize> {
        let place = usize::from(place.0);
        (place < self.area()).then(|| layout::grid_byte(&self.bytes, place))
    }

    /// The place in column x and row y, both from 0.
    pub fn place(&self, x: usize, y: usize) -> Option<Place> {
        (x < self.width() && y < self.height()).then(|| Place((y * self.width() + x) as u16))
    }

    /// Column and row of a place.
    pub fn column_and_row(&self, place: Place) -> (usize, usize) {
        let (place, width) = (usize::from(place.0), self.width().max(1));
        (place % width, place / width)
    }

    /// Where the carrier stands at time 0; `None` if there is no such carrier.
    pub fn start(&self, carrier: Carrier) -> Option<Place> {
        let at = Pair::Starts.offset(&self.bytes) + 2 * carrier.0.min(MOST_CARRIERS);
        (carrier.0 < self.m()).then(|| Place(layout::word(&self.bytes, at) as u16))
    }

    /// The stretch of the sheet with the task's goals, two bytes each; `None` if there is no such task.
    pub fn goal_bytes(&self, task: Task) -> Option<&[u8]> {
        let [offset, length] = calls::task_goals(&self.bytes, task.0);
        let stretch = self.bytes.get(offset..offset.checked_add(length)?)?;
        (!stretch.is_empty()).then_some(stretch)
    }

    /// The task's goals in order, the last one its gate; empty if there is no such task.
    pub fn goals(&self, task: Task) -> Vec<Place> {
        let bytes = self.goal_bytes(task).unwrap_or_default();
        bytes.chunks_exact(2).map(|two| Place(u16::from_le_bytes([two[0], two[1]]))).collect()
    }

    /// How many words of workspace a search or a least path on this sheet asks for; 0 of the dark house.
    pub fn workspace(&self) -> usize {
        calls::workspace(&self.bytes)
    }

    /// How many words of output a search writes for a plan: m × (H + 1).
    pub fn output(&self) -> usize {
        self.m() * (self.horizon() + 1)
    }

    /// The same sheet with another node limit. The dark house has none, and is given back as it is.
    pub fn with_node_limit(&self, limit: u16) -> Result<Sheet, Refusal> {
        let mut bytes = self.bytes.clone();
        for (byte, value) in bytes.iter_mut().skip(layout::LIMIT).zip(limit.to_le_bytes()) {
            *byte = value;
        }
        Sheet::new(bytes)
    }
}

impl TryFrom<&[u8]> for Sheet {
    type Error = Refusal;

    fn try_from(bytes: &[u8]) -> Result<Sheet, Refusal> {
        Sheet::new(bytes)
    }
}

impl TryFrom<Vec<u8>> for Sheet {
    type Error = Refusal;

    fn try_from(bytes: Vec<u8>) -> Result<Sheet, Refusal> {
        Sheet::new(bytes)
    }
}

impl AsRef<[u8]> for Sheet {
    fn as_ref(&self) -> &[u8] {
        &self.bytes
    }
}

/// The place of a point that is off the floor: no floor has as many.
const OFF: u16 = u16::MAX;

/// Makes a sheet. Nothing is checked before [`SheetBuilder::build`], and there by the planner.
///
/// ```
/// use carrier_planner::Sheet;
/// // Two carriers that change sides: round 6 of document 01.
/// let sheet = Sheet::builder(2, 2)
///     .horizon(3)
///     .node_limit(18)
///     .carrier(0, 0)
///     .carrier(1, 0)
///     .task([(1, 0), (0, 0)])
///     .task([(0, 0), (1, 0)])
///     .build()?;
/// assert_eq!(sheet.bytes().len(), 40);
/// # Ok::<(), carrier_planner::Refusal>(())
/// ```
#[derive(Clone, PartialEq, Eq, Debug)]
pub struct SheetBuilder {
    width: u8,
    height: u8,
    horizon: u8,
    limit: u16,
    /// Places with their grid bytes, in the order of the calls; all others are free.
    marks: Vec<(u16, u8)>,
    starts: Vec<u16>,
    tasks: Vec<Vec<u16>>,
}

impl SheetBuilder {
    /// A floor without blocked places and lanes, horizon 255 and node limit 4096, the most that there are.
    pub fn new(width: u8, height: u8) -> Self {
        SheetBuilder {
            width,
            height,
            horizon: 255,
            limit: 4096,
            marks: Vec::new(),
            starts: Vec::new(),
            tasks: Vec::new(),
        }
    }

    pub fn horizon(mut self, horizon: u8) -> Self {
        self.horizon = horizon;
        self
    }

    pub fn node_limit(mut self, limit: u16) -> Self {
        self.limit = limit;
        self
    }

    /// Blocks the place in column x and row y; a point off the floor has no effect.
    pub fn block(mut self, x: u8, y: u8) -> Self {
        self.marks.push((self.place(x, y), layout::BLOCKED));
        self
    }

    /// Makes the place in column x and row y a lane, which may be left in this direction only; a point off the floor has no effect.
    /// Of several calls of this and [`SheetBuilder::block`] for one place the last counts.
    ///
    /// ```
    /// use carrier_planner::{Direction, Place, Sheet};
    /// let sheet = Sheet::builder(3, 1).lane(1, 0, Direction::East).carrier(0, 0).task([(2, 0)]).build()?;
    /// assert_eq!(sheet.lane(Place(1)), Some(Direction::East));
    /// assert_eq!(sheet.lane(Place(2)), None);
    /// # Ok::<(), carrier_planner::Refusal>(())
    /// ```
    pub fn lane(mut self, x: u8, y: u8, direction: Direction) -> Self {
        self.marks.push((self.place(x, y), direction.byte()));
        self
    }

    /// The next carrier starts in column x and row y.
    pub fn carrier(mut self, x: u8, y: u8) -> Self {
        self.starts.push(self.place(x, y));
        self
    }

    /// The next task has these goals, the last one its gate.
    pub fn task(mut self, goals: impl IntoIterator<Item = (u8, u8)>) -> Self {
        let goals = goals.into_iter().map(|(x, y)| self.place(x, y)).collect();
        self.tasks.push(goals);
        self
    }

    /// The sheet's bytes, accepted or not. A count or length that its byte or bytes cannot hold is written as the most that they
    /// can, which is outside its range too.
    pub fn bytes(&self) -> Vec<u8> {
        let m = u8::try_from(self.starts.len()).unwrap_or(u8::MAX);
        let area = usize::from(self.width) * usize::from(self.height);
        let mut bytes = vec![self.width, self.height, m, self.horizon];
        push(&mut bytes, self.limit.into());
        push(&mut bytes, 0);
        let lengths =
            [area, 2 * self.starts.len()].into_iter().chain(self.tasks.iter().map(|goals| 2 * goals.len()));
        let mut offset = layout::directory_end(self.tasks.len());
        for length in lengths {
            push(&mut bytes, offset);
            push(&mut bytes, length);
            offset += length;
        }
        let mut grid = vec![0; area];
        for &(place, mark) in &self.marks {
            if let Some(byte) = grid.get_mut(usize::from(place)) {
                *byte = mark;
            }
        }
        bytes.extend(grid);
        for &place in self.starts.iter().chain(self.tasks.iter().flatten()) {
            push(&mut bytes, place.into());
        }
        bytes
    }

    /// The sheet, if the planner accepts it.
    pub fn build(&self) -> Result<Sheet, Refusal> {
        Sheet::new(self.bytes()).map_err(|refusal| {
            let (carriers, tasks) = (self.starts.len(), self.tasks.len());
            if refusal.cause == Cause::Directory && carriers != tasks {
                Refusal { cause: refusal.cause, fault: Some(Fault::Counts { carriers, tasks }) }
            } else {
                refusal
            }
        })
    }

    fn place(&self, x: u8, y: u8) -> u16 {
        if x < self.width && y < self.height {
            u16::from(y) * u16::from(self.width) + u16::from(x)
        } else {
            OFF
        }
    }
}

fn push(bytes: &mut Vec<u8>, value: usize) {
    bytes.extend(u16::try_from(value).unwrap_or(u16::MAX).to_le_bytes());
}
