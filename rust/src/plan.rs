//! Answers of the search, plans, and the plan check.

use std::fmt;

use crate::parts::{first_collision, Collision};
use crate::sheet::MOST_CARRIERS;
use crate::{calls, Carrier, Cause, Direction, Place, Sheet, Task};

/// A plan: for each carrier its task and its path, without collision. It can only be had from a search or from [`Sheet::check`].
#[derive(Clone, PartialEq, Eq, Hash, Debug)]
pub struct Plan {
    flowtime: u32,
    tasks: Vec<Task>,
    /// Carrier by carrier, `steps` places each.
    places: Vec<Place>,
    steps: usize,
}

impl Plan {
    /// Of numbers that a call gave for this sheet.
    pub(crate) fn of(sheet: &Sheet, flowtime: u32, tasks: impl Iterator<Item = Task>, words: &[u16]) -> Plan {
        Plan {
            flowtime,
            tasks: tasks.take(sheet.m()).collect(),
            places: words.iter().take(sheet.output()).copied().map(Place).collect(),
            steps: sheet.horizon() + 1,
        }
    }

    /// The sum of the finishes.
    pub fn flowtime(&self) -> u32 {
        self.flowtime
    }

    pub fn carriers(&self) -> impl Iterator<Item = Carrier> {
        (0..self.tasks.len()).map(Carrier)
    }

    /// The task of each carrier, carrier 0 first.
    pub fn tasks(&self) -> &[Task] {
        &self.tasks
    }

    /// The carrier's task; `None` if there is no such carrier.
    pub fn task(&self, carrier: Carrier) -> Option<Task> {
        self.tasks.get(carrier.0).copied()
    }

    /// The carrier's places for times 0 to H; empty if there is no such carrier.
    pub fn path(&self, carrier: Carrier) -> &[Place] {
        self.places.chunks(self.steps).nth(carrier.0).unwrap_or_default()
    }

    /// The paths of all carriers, carrier 0 first.
    pub fn paths(&self) -> impl Iterator<Item = &[Place]> {
        self.places.chunks(self.steps)
    }

    /// The time from which the carrier rests on its gate; `None` if there is no such carrier.
    pub fn finish(&self, carrier: Carrier) -> Option<usize> {
        let path = self.path(carrier);
        let gate = path.last()?;
        Some(path.iter().rposition(|place| place != gate).map_or(0, |time| time + 1))
    }
}

/// What a search found.
#[derive(Clone, PartialEq, Eq, Hash, Debug)]
pub enum Answer {
    /// A plan of least flowtime.
    Plan { plan: Plan, nodes: u32 },
    /// The sheet has no plan.
    NoPlan { nodes: u32 },
    /// The node limit was met. No plan has a flowtime below the bound.
    Spent { bound: u32, nodes: u32 },
}

impl Answer {
    /// How many nodes the search made.
    pub fn nodes(&self) -> u32 {
        match *self {
            Answer::Plan { nodes, .. } | Answer::NoPlan { nodes } | Answer::Spent { nodes, .. } => nodes,
        }
    }

    /// The flowtime of a plan, the bound of spent, 0 for no plan.
    pub fn bound(&self) -> u32 {
        match self {
            Answer::Plan { plan, .. } => plan.flowtime,
            Answer::NoPlan { .. } => 0,
            Answer::Spent { bound, .. } => *bound,
        }
    }

    pub fn plan(&self) -> Option<&Plan> {
        match self {
            Answer::Plan { plan, .. } => Some(plan),
            _ => None,
        }
    }

    pub fn into_plan(self) -> Option<Plan> {
        match self {
            Answer::Plan { plan, .. } => Some(plan),
            _ => None,
        }
    }

    /// The listing's first line, with its line break.
    pub(crate) fn write_head(&self, f: &mut fmt::Formatter<'_>) -> fmt::Result {
        match self {
            Answer::Plan { plan, nodes } => writeln!(f, "plan {} nodes {nodes}", plan.flowtime),
            Answer::NoPlan { nodes } => writeln!(f, "none nodes {nodes}"),
            Answer::Spent { bound, nodes } => writeln!(f, "spent {bound} nodes {nodes}"),
        }
    }

    /// Of the call's numbers and the words that it wrote.
    pub(crate) fn of(sheet: &Sheet, numbers: &[u32; 17], words: &[u16]) -> Result<Answer, Cause> {
        let [cause, kind, flowtime, nodes, bound, tasks @ ..] = numbers;
        Cause::check(*cause)?;
        let (nodes, bound) = (*nodes, *bound);
        Ok(match kind {
            0 => {
                let tasks = tasks.iter().map(|&task| Task(task as usize));
                Answer::Plan { plan: Plan::of(sheet, *flowtime, tasks, words), nodes }
            }
            1 => Answer::NoPlan { nodes },
            _ => Answer::Spent { bound, nodes },
        })
    }
}

/// The listing of document 01, each line with its line break.
impl fmt::Display for Answer {
    fn fmt(&self, f: &mut fmt::Formatter<'_>) -> fmt::Result {
        self.write_head(f)?;
        self.plan().map_or(Ok(()), |plan| plan.fmt(f))
    }
}

/// The listing's lines of the carriers.
impl fmt::Display for Plan {
    fn fmt(&self, f: &mut fmt::Formatter<'_>) -> fmt::Result {
        for (carrier, task) in self.carriers().zip(&self.tasks) {
            write!(f, "{carrier} {task} finish {}:", self.finish(carrier).unwrap_or(0))?;
            for place in self.path(carrier) {
                write!(f, " {place}")?;
            }
            writeln!(f)?;
        }
        Ok(())
    }
}

/// Why tasks and paths are not a plan.
#[derive(Clone, PartialEq, Eq, Debug)]
#[non_exhaustive]
pub enum NotAPlan {
    /// The call declines: a path does not have H + 1 places, or there are not m of them.
    Refused(Cause),
    Count {
        given: usize,
        carriers: usize,
    },
    NoSuchTask {
        carrier: Carrier,
        task: Task,
    },
    Shared {
        task: Task,
        first: Carrier,
        second: Carrier,
    },
    Start {
        carrier: Carrier,
        place: Place,
        start: Place,
    },
    Step {
        carrier: Carrier,
        time: usize,
        from: Place,
        to: Place,
    },
    /// It leaves a lane to a place beside it where the lane does not lead.
    Lane {
        carrier: Carrier,
        time: usize,
        from: Place,
        to: Place,
        direction: Direction,
    },
    NotFree {
        carrier: Carrier,
        time: usize,
        place: Place,
    },
    Goal {
        carrier: Carrier,
        task: Task,
        goal: usize,
        place: Place,
    },
    End {
        carrier: Carrier,
        task: Task,
        place: Place,
        gate: Place,
    },
    Collision(Collision),
    /// The check says no, and no reason was found; this does not occur.
    Other,
}

impl fmt::Display for NotAPlan {
    fn fmt(&self, f: &mut fmt::Formatter<'_>) -> fmt::Result {
        match self {
            NotAPlan::Refused(cause) => cause.fmt(f),
            NotAPlan::Count { given, carriers } => {
                write!(f, "there are {given} tasks for {carriers} carriers")
            }
            NotAPlan::NoSuchTask { carrier, task } => {
                write!(f, "{carrier} has {task}, which the sheet has not")
            }
            NotAPlan::Shared { task, first, second } => write!(f, "{first} and {second} both have {task}"),
            NotAPlan::Start { carrier, place, start } => {
                write!(f, "{carrier} begins on place {place}; its start is {start}")
            }
            NotAPlan::Step { carrier, time, from, to } => {
                let after = time + 1;
                write!(f, "{carrier} goes from place {from} to {to} between times {time} and {after}; they are not beside each other")
            }
            NotAPlan::Lane { carrier, time, from, to, direction } => {
                let after = time + 1;
                write!(f, "{carrier} goes from place {from} to {to} between times {time} and {after}; place {from} is a lane that may be left only to the {direction}")
            }
            NotAPlan::NotFree { carrier, time, place } => {
                write!(f, "{carrier} is on place {place} at time {time}, which is blocked or off the floor")
            }
            NotAPlan::Goal { carrier, task, goal, place } => {
                write!(f, "{carrier} does not reach goal {goal} of {task} (place {place}) in its turn")
            }
            NotAPlan::End { carrier, task, place, gate } => {
                write!(f, "{carrier} ends on place {place}; the last goal of {task} is {gate}")
            }
            NotAPlan::Collision(collision) => collision.fmt(f),
            NotAPlan::Other => write!(f, "it is not a plan"),
        }
    }
}

impl std::error::Error for NotAPlan {}

/// The number of an entry without a task; no task has it.
const NO_TASK: u8 = 255;

impl Sheet {
    /// Whether tasks and paths, one for each carrier, are a plan for this sheet. The verdict is the planner's; the reason of a no is
    /// looked up here.
    pub fn check<P: AsRef<[Place]>>(&self, tasks: &[Task], paths: &[P]) -> Result<Plan, NotAPlan> {
        let mut list = [NO_TASK; MOST_CARRIERS];
        if tasks.len() != self.m() {
            return Err(NotAPlan::Count { given: tasks.len(), carriers: self.m() });
        }
        for (entry, task) in list.iter_mut().zip(tasks) {
            *entry = u8::try_from(task.0).unwrap_or(NO_TASK);
        }
        // A path of another length would shift those after it.
        if paths.len() != self.m() || paths.iter().any(|path| path.as_ref().len() != self.horizon() + 1) {
            return Err(NotAPlan::Refused(Cause::Output));
        }
        let words: Vec<u16> = paths.iter().flat_map(|path| path.as_ref()).map(|place| place.0).collect();
        let [cause, yes, flowtime] = calls::check_plan(self.bytes(), &list, &words);
        Cause::check(cause).map_err(NotAPlan::Refused)?;
        if yes == 1 {
            return Ok(Plan::of(self, flowtime, tasks.iter().copied(), &words));
        }
        let reason = self.wrong_task(tasks).or_else(|| {
            self.carriers().zip(tasks).zip(paths).find_map(|((carrier, &task), path)| {
                self.wrong_path(carrier, path.as_ref()).or_else(|| self.unmet(carrier, task, path.as_ref()))
            })
        });
        let collision = || {
            let (m, h) = (self.m() as u8, self.horizon() as u8);
            first_collision(m, h, &words).ok().flatten().map(NotAPlan::Collision)
        };
        Err(reason.or_else(collision).unwrap_or(NotAPlan::Other))
    }

    fn wrong_task(&self, tasks: &[Task]) -> Option<NotAPlan> {
        self.carriers().zip(tasks).find_map(|(carrier, &task)| {
            if task.0 >= self.m() {
                return Some(NotAPlan::NoSuchTask { carrier, task });
            }
            let first = Carrier(tasks.iter().position(|other| *other == task)?);
            (first != carrier).then_some(NotAPlan::Shared { task, first, second: carrier })
        })
    }

    /// The first of its places that is not the start, not next to the one before, not where that one leads, or not free.
    fn wrong_path(&self, carrier: Carrier, path: &[Place]) -> Option<NotAPlan> {
        let (start, place) = (self.start(carrier)?, *path.first()?);
        if place != start {
            return Some(NotAPlan::Start { carrier, place, start });
        }
        path.windows(2).enumerate().find_map(|(time, two)| {
            let (from, to) = (two[0], two[1]);
            if from == to {
                return None;
            }
            if !self.is_free(to) {
                return Some(NotAPlan::NotFree { carrier, time: time + 1, place: to });
            }
            let ((x, y), (to_x, to_y)) = (self.column_and_row(from), self.column_and_row(to));
            if x.abs_diff(to_x) + y.abs_diff(to_y) != 1 {
                return Some(NotAPlan::Step { carrier, time, from, to });
            }
            let direction = self.lane(from)?;
            let leads = (x.checked_add_signed(direction.step().0), y.checked_add_signed(direction.step().1));
            (leads != (Some(to_x), Some(to_y))).then_some(NotAPlan::Lane {
                carrier,
                time,
                from,
                to,
                direction,
            })
        })
    }

    /// The first goal that the path does not reach in its turn, or its end off the gate.
    fn unmet(&self, carrier: Carrier, task: Task, path: &[Place]) -> Option<NotAPlan> {
        let goals = self.goals(task);
        let mut time = 0;
        for (goal, &place) in goals.iter().enumerate() {
            match path.iter().skip(time).position(|&on| on == place) {
                Some(later) => time += later,
                None => return Some(NotAPlan::Goal { carrier, task, goal, place }),
            }
        }
        let (gate, place) = (*goals.last()?, *path.last()?);
        (gate != place).then_some(NotAPlan::End { carrier, task, place, gate })
    }
}
