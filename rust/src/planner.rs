//! The planner with its workspace.

use crate::{calls, Answer, Carrier, Cause, Constraint, GateBoard, LeastPath, Place, Sheet, Task};

/// Runs searches, gate boards and least paths, with a workspace of its own that grows as sheets ask for it, or in one that is lent
/// to it.
///
/// ```
/// use carrier_planner::{Planner, Sheet};
/// let sheet = Sheet::builder(3, 1).horizon(4).carrier(0, 0).task([(2, 0)]).build()?;
/// let answer = Planner::new().search(&sheet)?;
/// assert_eq!(answer.to_string(), "plan 2 nodes 1\ncarrier 0 task 0 finish 2: 0 1 2 2 2\n");
/// # Ok::<(), Box<dyn std::error::Error>>(())
/// ```
#[derive(Debug)]
pub struct Planner<'w> {
    work: Work<'w>,
    out: Vec<u16>,
}

#[derive(Debug)]
enum Work<'w> {
    Own(Vec<u32>),
    Lent(&'w mut [u32]),
}

impl Default for Planner<'_> {
    fn default() -> Self {
        Planner { work: Work::Own(Vec::new()), out: Vec::new() }
    }
}

impl Planner<'static> {
    /// A planner that owns its workspace: as large as the largest sheet so far asked for, at most 17 MiB.
    pub fn new() -> Self {
        Planner::default()
    }
}

impl<'w> Planner<'w> {
    /// A planner within this workspace. A sheet that asks for more is declined with cause 10; [`Sheet::workspace`] says how many
    /// words it asks for.
    pub fn within(workspace: &'w mut [u32]) -> Self {
        Planner { work: Work::Lent(workspace), out: Vec::new() }
    }

    /// Searches for a plan of least flowtime. A thread with 512 KiB of stack is enough (320 KiB sufficed on every sheet measured,
    /// paths of 255 steps among them); the call does not allocate.
    pub fn search(&mut self, sheet: &Sheet) -> Result<Answer, Cause> {
        let work = self.work.at_least(sheet.workspace())?;
        let out = at_least(&mut self.out, sheet.output()).ok_or(Cause::Output)?;
        let numbers = calls::search(sheet.bytes(), work, out);
        Answer::of(sheet, &numbers, out)
    }

    /// Has the search run, once, and gives its answer with the gate board of a plan. Workspace and stack are as for
    /// [`Planner::search`].
    pub fn gate_board(&mut self, sheet: &Sheet) -> Result<GateBoard, Cause> {
        let work = self.work.at_least(sheet.workspace())?;
        let out = at_least(&mut self.out, sheet.output()).ok_or(Cause::Output)?;
        let (numbers, lines) = calls::gate_board(sheet.bytes(), work, out);
        Ok(GateBoard::of(sheet, Answer::of(sheet, &numbers, out)?, &lines))
    }

    /// The carrier's least path for the task under the constraints; `None` if there is no path.
    pub fn least_path(
        &mut self,
        sheet: &Sheet,
        carrier: Carrier,
        task: Task,
        constraints: &[Constraint],
    ) -> Result<Option<LeastPath>, Cause> {
        let records: Vec<u16> = constraints.iter().flat_map(Constraint::record).collect();
        let work = self.work.at_least(sheet.workspace())?;
        let steps = sheet.horizon() + 1;
        let out = at_least(&mut self.out, steps).ok_or(Cause::Output)?;
        let [cause, found, finish] = calls::least_path(sheet.bytes(), carrier.0, task.0, work, out, &records);
        Cause::check(cause)?;
        let places = || out.iter().take(steps).copied().map(Place).collect();
        Ok((found == 1).then(|| LeastPath { finish, places: places() }))
    }
}

impl Work<'_> {
    /// The workspace, of its own with at least so many words; a lent one as it is.
    fn at_least(&mut self, words: usize) -> Result<&mut [u32], Cause> {
        match self {
            Work::Own(own) => at_least(own, words).ok_or(Cause::Workspace),
            Work::Lent(lent) => Ok(lent),
        }
    }
}

/// The buffer, grown to so many words; `None` if there is no memory for them.
fn at_least<T: Copy + Default>(buffer: &mut Vec<T>, words: usize) -> Option<&mut [T]> {
    if buffer.len() < words {
        buffer.try_reserve_exact(words - buffer.len()).ok()?;
        buffer.resize(words, T::default());
    }
    Some(buffer)
}
