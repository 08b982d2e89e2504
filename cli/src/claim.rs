//! Plans from files: the listing of document 01, or the JSON that `plan --json` writes.

use carrier_planner::{Place, Plan, Sheet, Task};

use crate::json::{self, Json};
use crate::report::count;
use crate::text::{TextError, WHOLE};

/// What a file says is a plan.
#[derive(Clone, PartialEq, Eq, Debug)]
pub struct Claim {
    /// As said; a file need not say it.
    pub flowtime: Option<u64>,
    /// Carrier 0 first.
    pub rounds: Vec<Round>,
}

/// One carrier's part of it.
#[derive(Clone, PartialEq, Eq, Debug)]
pub struct Round {
    pub task: Task,
    pub finish: Option<u64>,
    pub path: Vec<Place>,
}

fn wrong<T>(line: usize, message: impl Into<String>) -> Result<T, TextError> {
    Err(TextError { line, message: message.into() })
}

pub fn read(text: &str) -> Result<Claim, TextError> {
    if text.trim_start().starts_with('{') {
        of_json(&json::parse(text)?)
    } else {
        of_listing(text)
    }
}

/// Puts the rounds in the order of their carriers, each once.
fn in_order(flowtime: Option<u64>, given: Vec<(usize, u64, Round)>) -> Result<Claim, TextError> {
    let mut rounds: Vec<Option<Round>> = vec![None; given.len()];
    let count = given.len();
    for (line, carrier, round) in given {
        match rounds.get_mut(carrier as usize) {
            Some(slot @ None) => *slot = Some(round),
            Some(Some(_)) => return wrong(line, format!("carrier {carrier} is there twice")),
            None => return wrong(line, format!("carrier {carrier}, but there are {count} carriers, from 0")),
        }
    }
    Ok(Claim { flowtime, rounds: rounds.into_iter().flatten().collect() })
}

fn of_listing(text: &str) -> Result<Claim, TextError> {
    let mut flowtime = None;
    let mut given = Vec::new();
    for (index, line) in text.lines().enumerate().filter(|(_, line)| !line.trim().is_empty()) {
        let number = index + 1;
        let (head, places) = line.split_once(':').unwrap_or((line, ""));
        let words: Vec<&str> = head.split_whitespace().collect();
        match words.as_slice() {
            ["plan", said, "nodes", nodes] => {
                flowtime = Some(natural(number, said)?);
                natural(number, nodes)?;
            }
            ["carrier", carrier, "task", task, "finish", finish] => {
                let path =
                    places.split_whitespace().map(|place| self::place(number, natural(number, place)?));
                let round = Round {
                    task: Task(natural(number, task)? as usize),
                    finish: Some(natural(number, finish)?),
                    path: path.collect::<Result<_, _>>()?,
                };
                given.push((number, natural(number, carrier)?, round));
            }
            ["none" | "spent" | "refused", ..] => {
                return wrong(number, format!("`{}`: this is no plan", line.trim()))
            }
            _ => {
                return wrong(number, "a line is `plan F nodes N` or `carrier C task T finish F: places`");
            }
        }
    }
    // The first line alone is the plan of a dark house.
    if given.is_empty() && flowtime.is_none() {
        return wrong(1, "there is no line `plan F nodes N` and no carrier's line");
    }
    in_order(flowtime, given)
}

fn natural(line: usize, text: &str) -> Result<u64, TextError> {
    match text.parse::<u32>() {
        Ok(value) => Ok(value.into()),
        Err(_) => wrong(line, format!("`{text}` is no number")),
    }
}

fn place(line: usize, value: u64) -> Result<Place, TextError> {
    match u16::try_from(value) {
        Ok(place) => Ok(Place(place)),
        Err(_) => wrong(line, format!("{value} is no place: a place is below 65536")),
    }
}

fn of_json(value: &Json) -> Result<Claim, TextError> {
    if let Some(kind) = value.get("kind").and_then(Json::text).filter(|kind| *kind != "plan") {
        return wrong(WHOLE, format!("kind `{kind}`: this is no plan"));
    }
    let Some(carriers) = value.get("carriers").and_then(Json::list) else {
        return wrong(WHOLE, "the JSON object has no list `carriers`");
    };
    let given = carriers.iter().enumerate().map(|(index, entry)| {
        let field = |name: &str| match entry.get(name).and_then(Json::natural) {
            Some(value) => Ok(value),
            None => wrong(WHOLE, format!("entry {index} of `carriers` has no number `{name}`")),
        };
        let Some(path) = entry.get("path").and_then(Json::list) else {
            return wrong(WHOLE, format!("entry {index} of `carriers` has no list `path`"));
        };
        let places = path.iter().map(|value| match value.natural() {
            Some(value) => place(WHOLE, value),
            None => {
                wrong(WHOLE, format!("`path` of entry {index} of `carriers` has something else than places"))
            }
        });
        let round = Round {
            task: Task(field("task")? as usize),
            finish: entry.get("finish").and_then(Json::natural),
            path: places.collect::<Result<_, _>>()?,
        };
        Ok((WHOLE, field("carrier")?, round))
    });
    in_order(value.get("flowtime").and_then(Json::natural), given.collect::<Result<_, _>>()?)
}

impl Claim {
    /// The plan, or in words why it is none. What the file says of flowtime and finishes must be true as well.
    pub fn check(&self, sheet: &Sheet) -> Result<Plan, String> {
        let (steps, m) = (sheet.horizon() + 1, sheet.m());
        if self.rounds.len() != m {
            let carriers = count(self.rounds.len(), "carrier");
            return Err(match m {
                0 => format!("it has {carriers}, the sheet is a dark house and has none"),
                _ => format!("it has {carriers}, the sheet has {m}"),
            });
        }
        if let Some(carrier) = self.rounds.iter().position(|round| round.path.len() != steps) {
            let count = self.rounds[carrier].path.len();
            return Err(format!(
                "the path of carrier {carrier} has {count} places; with this horizon it has {steps}"
            ));
        }
        let tasks: Vec<Task> = self.rounds.iter().map(|round| round.task).collect();
        let paths: Vec<&[Place]> = self.rounds.iter().map(|round| round.path.as_slice()).collect();
        let plan = sheet.check(&tasks, &paths).map_err(|reason| reason.to_string())?;
        let real = u64::from(plan.flowtime());
        if let Some(said) = self.flowtime.filter(|said| *said != real) {
            return Err(format!("it says flowtime {said}; it is a plan of flowtime {real}"));
        }
        for (carrier, round) in plan.carriers().zip(&self.rounds) {
            let real = plan.finish(carrier).unwrap_or(0);
            if let Some(said) = round.finish.filter(|said| *said != real as u64) {
                return Err(format!("it says that {carrier} finishes at {said}; it does at {real}"));
            }
        }
        Ok(plan)
    }
}
