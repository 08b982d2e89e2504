//! Answers and refusals in words and as JSON.

use carrier_planner::{Answer, GateBoard, GateLine, Plan, Refusal, Sheet};

use crate::json::{numbers, quoted};

/// An answer as JSON, in one line.
pub fn answer_json(sheet: &Sheet, answer: &Answer) -> String {
    format!("{{{}}}\n", answer_fields(sheet, answer))
}

/// The answer as JSON with the lines of the gate board, in one line. Without a plan the list of lines is empty.
pub fn board_json(sheet: &Sheet, board: &GateBoard) -> String {
    let lines: Vec<String> = board
        .lines()
        .iter()
        .map(|&GateLine { goal, carrier, task, finish }| {
            let (carrier, task) = (carrier.0, task.0);
            format!("{{\"gate\":{goal},\"carrier\":{carrier},\"task\":{task},\"finish\":{finish}}}")
        })
        .collect();
    format!("{{{},\"lines\":[{}]}}\n", answer_fields(sheet, board.answer()), lines.join(","))
}

/// The fields of an answer, without braces.
fn answer_fields(sheet: &Sheet, answer: &Answer) -> String {
    let (nodes, bound) = (answer.nodes(), answer.bound());
    let head = |kind: &str| {
        format!(
            "\"kind\":\"{kind}\",\"nodes\":{nodes},\"bound\":{bound},\"width\":{},\"height\":{},\"horizon\":{}",
            sheet.width(),
            sheet.height(),
            sheet.horizon()
        )
    };
    match answer {
        Answer::Plan { plan, .. } => format!("{},{}", head("plan"), plan_fields(sheet, plan)),
        Answer::NoPlan { .. } => head("none"),
        Answer::Spent { .. } => head("spent"),
    }
}

/// The fields of a plan: flowtime and carriers.
pub fn plan_fields(sheet: &Sheet, plan: &Plan) -> String {
    let carriers: Vec<String> = plan
        .carriers()
        .zip(plan.tasks())
        .map(|(carrier, &task)| {
            format!(
                "{{\"carrier\":{},\"task\":{},\"finish\":{},\"goals\":{},\"path\":{}}}",
                carrier.0,
                task.0,
                plan.finish(carrier).unwrap_or(0),
                numbers(sheet.goals(task)),
                numbers(plan.path(carrier))
            )
        })
        .collect();
    format!("\"flowtime\":{},\"carriers\":[{}]", plan.flowtime(), carriers.join(","))
}

pub fn refusal_json(refusal: &Refusal) -> String {
    let mut fields = vec![
        "\"kind\":\"refused\"".to_string(),
        format!("\"cause\":{}", refusal.cause.number()),
        format!("\"words\":{}", quoted(refusal.cause.words())),
    ];
    if let Some(fault) = &refusal.fault {
        fields.push(format!("\"where\":{}", quoted(&fault.to_string())));
        fields.extend(fault.byte().map(|byte| format!("\"byte\":{byte}")));
    }
    format!("{{{}}}\n", fields.join(","))
}

/// "1 carrier", "2 carriers".
pub fn count(number: usize, one: &str) -> String {
    let many = if number == 1 { "" } else { "s" };
    format!("{number} {one}{many}")
}

/// What an accepted sheet holds.
pub fn summary(sheet: &Sheet) -> String {
    if sheet.is_dark() {
        return "accepted: a dark house, a round without carriers; the sheet has no bytes; the empty plan is its only \
                plan; a search asks for no workspace\n"
            .to_string();
    }
    let blocked = sheet.places().filter(|place| !sheet.is_free(*place)).count();
    let lanes = match sheet.places().filter(|place| sheet.lane(*place).is_some()).count() {
        0 => String::new(),
        number => format!(", {}", count(number, "lane")),
    };
    let words = sheet.workspace();
    format!(
        "accepted: a floor of {} by {}, {blocked} of its {} places blocked{lanes}; {} and as many tasks; horizon {}; \
         node limit {}; a search asks for {words} words of workspace ({} KiB)\n",
        sheet.width(),
        sheet.height(),
        sheet.area(),
        count(sheet.m(), "carrier"),
        sheet.horizon(),
        sheet.node_limit(),
        words.div_ceil(256)
    )
}

/// The same as JSON.
pub fn summary_json(sheet: &Sheet) -> String {
    let goals: Vec<String> = sheet.tasks().map(|task| numbers(sheet.goals(task))).collect();
    let blocked = sheet.places().filter(|place| !sheet.is_free(*place));
    let lanes: Vec<String> = sheet
        .places()
        .filter_map(|place| Some(format!("{{\"place\":{place},\"leads\":\"{}\"}}", sheet.lane(place)?)))
        .collect();
    format!(
        "{{\"kind\":\"accepted\",\"width\":{},\"height\":{},\"horizon\":{},\"node_limit\":{},\"workspace\":{},\
         \"blocked\":{},\"lanes\":[{}],\"starts\":{},\"tasks\":[{}]}}\n",
        sheet.width(),
        sheet.height(),
        sheet.horizon(),
        sheet.node_limit(),
        sheet.workspace(),
        numbers(blocked),
        lanes.join(","),
        numbers(sheet.carriers().filter_map(|carrier| sheet.start(carrier))),
        goals.join(",")
    )
}

fn dark_words() -> (String, String) {
    (
        "Dark house: no carriers, nothing to drive".to_string(),
        "The sheet has no bytes: a day without a performance. The empty plan, of flowtime 0, is its only plan, and the \
         search made no node."
            .to_string(),
    )
}

fn plan_words(sheet: &Sheet, plan: &Plan, nodes: &str) -> (String, String) {
    let last = plan.carriers().filter_map(|carrier| plan.finish(carrier)).max().unwrap_or(0);
    (
        format!("Plan of flowtime {}", plan.flowtime()),
        format!(
            "The finishes add up to {}, and no plan for this sheet has less. The last carrier finishes at time {last}; \
             the horizon is {}. The search made {nodes}.",
            plan.flowtime(),
            sheet.horizon()
        ),
    )
}

/// A heading and a sentence on what the search said.
pub fn answer_words(sheet: &Sheet, answer: &Answer) -> (String, String) {
    let nodes = count(answer.nodes() as usize, "node");
    match answer {
        Answer::Plan { .. } if sheet.is_dark() => dark_words(),
        Answer::Plan { plan, .. } => plan_words(sheet, plan, &nodes),
        Answer::NoPlan { nodes: 0 } => (
            "No plan".to_string(),
            format!(
                "However the tasks are given out, some carrier cannot do its task by time {}, even if the others \
                 were not in its way. So the search made no node.",
                sheet.horizon()
            ),
        ),
        Answer::NoPlan { .. } => (
            "No plan".to_string(),
            format!(
                "However the tasks are given out, the carriers cannot all do theirs by time {} without a \
                 collision. The search made {nodes}.",
                sheet.horizon()
            ),
        ),
        Answer::Spent { bound, .. } => (
            "Not decided: the node limit is spent".to_string(),
            format!(
                "The search made {nodes}, as many as the sheet allows, and found no plan so far. There may be \
                 one; none has a flowtime below {bound}. A higher node limit lets the search go on."
            ),
        ),
    }
}
