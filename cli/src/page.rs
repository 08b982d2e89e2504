//! `view`: one page, complete in itself, that shows a sheet and its plan step by step.

use std::fmt::Write;

use carrier_planner::{Answer, Carrier, GateBoard, GateLine, Plan, Refusal, Sheet};

use crate::floor::{self, escaped, point, short, CELL, RULER};
use crate::json::numbers;
use crate::report::{answer_words, count};
use crate::text::{carrier_letter, task_letter};

/// What is shown.
pub enum Shown<'a> {
    Answered(&'a Sheet, &'a GateBoard),
    Refused(&'a Refusal, &'a [u8]),
}

const STYLE: &str = include_str!("page.css");
const SCRIPT: &str = include_str!("page.js");

pub fn page(name: &str, shown: &Shown) -> String {
    let (heading, body) = match shown {
        Shown::Answered(sheet, board) => {
            let (heading, sentence) = answer_words(sheet, board.answer());
            (heading, answered(sheet, board, &sentence))
        }
        Shown::Refused(refusal, bytes) => (
            format!("Refused: cause {}", refusal.cause.number()),
            format!("<p class=\"words\">{}</p>\n{}", escaped(&refusal_words(refusal)), dump(bytes, refusal)),
        ),
    };
    let kind = match shown {
        Shown::Answered(sheet, _) if sheet.is_dark() => "dark",
        Shown::Answered(_, board) => match board.answer() {
            Answer::Plan { .. } => "plan",
            Answer::NoPlan { .. } => "none",
            Answer::Spent { .. } => "spent",
        },
        Shown::Refused(..) => "refused",
    };
    let name = escaped(name);
    format!(
        "<!DOCTYPE html>\n<html lang=\"en\">\n<head>\n<meta charset=\"utf-8\">\n\
         <meta name=\"viewport\" content=\"width=device-width, initial-scale=1\">\n\
         <title>{heading} - {name}</title>\n<style>\n{STYLE}</style>\n</head>\n<body class=\"{kind}\">\n\
         <header><h1>{heading}</h1><p class=\"name\">{name}</p>\
         <button id=\"theme\" type=\"button\" hidden>Dark or light</button></header>\n{body}</body>\n</html>\n"
    )
}

/// The words of a refusal, as sentences.
pub fn refusal_words(refusal: &Refusal) -> String {
    let cause = refusal.cause.words();
    match &refusal.fault {
        Some(fault) => format!("The planner does not take this sheet: {cause}. In this sheet, {fault}."),
        None => format!("The planner does not take this sheet: {cause}."),
    }
}

fn answered(sheet: &Sheet, board: &GateBoard, sentence: &str) -> String {
    let sentence = format!("<p class=\"words\">{}</p>\n", escaped(sentence));
    // No floor, no carriers, no times: the words are all there is to show.
    if sheet.is_dark() {
        return format!("<main>\n{sentence}</main>\n");
    }
    let floor = floor_svg(sheet, board.plan());
    match board.plan() {
        // Beside the floor, so that a large floor has the window's height.
        Some(plan) => format!(
            "<main>\n<section class=\"left\">\n{floor}{}</section>\n<section class=\"right\">\n{sentence}{}{}{}{}</section>\n</main>\n\
             <script type=\"application/json\" id=\"data\">{}</script>\n<script>\n{SCRIPT}</script>\n",
            controls(sheet),
            gate_board(sheet, board),
            rounds(sheet, plan),
            keys(plan),
            legend(sheet),
            data(sheet, plan)
        ),
        None => format!(
            "{sentence}<main>\n<section class=\"left\">\n{floor}</section>\n<section class=\"right\">\n{}{}</section>\n</main>\n",
            unplanned(sheet),
            legend(sheet)
        ),
    }
}

/// The floor at time 0; the script moves what stands on it.
fn floor_svg(sheet: &Sheet, plan: Option<&Plan>) -> String {
    let (w, h) = (sheet.width() as f64 * CELL, sheet.height() as f64 * CELL);
    let (across, down) = (w + RULER + 8.0, h + RULER + 4.0);
    // Small floors are drawn larger, but never so that a single place fills the window; of large ones no place is drawn smaller
    // than about 17 pixels for want of height.
    let (most, tall) = (across * (900.0 / across.max(down)).clamp(1.0, 2.4), down * 0.55);
    let mut svg = format!(
        "<svg id=\"floor\" role=\"img\" aria-label=\"The floor with its carriers\" viewBox=\"-{RULER} -20 {across} {down}\" \
         style=\"max-width:{}px;--tall:{}px\">\n{}{}<g id=\"trails\">\n",
        short(most),
        short(tall),
        floor::HATCH,
        floor::ground(sheet)
    );
    if let Some(plan) = plan {
        svg.extend(plan.carriers().map(|carrier| trail(sheet, plan, carrier)));
    }
    let tokens: String = sheet.carriers().map(|carrier| floor::token(sheet, carrier)).collect();
    let tokens = format!("<g id=\"tokens\">\n{tokens}</g>\n");
    svg.push_str("</g>\n");
    // Carriers that move pass over the goals; those that stand leave them in sight.
    if plan.is_none() {
        svg.push_str(&tokens);
    }
    let mut slots = floor::Slots::of(sheet, plan.is_none());
    let owners = floor::owners(sheet, plan);
    let group = |owner: floor::Owner, inside: String| match owner.carrier {
        Some(carrier) => format!("<g data-carrier=\"{}\">{inside}</g>\n", carrier.0),
        None => inside,
    };
    svg.push_str("<g id=\"gates\">\n");
    svg.extend(owners.iter().map(|&owner| group(owner, floor::gate(sheet, owner, &slots))));
    svg.push_str("</g>\n<g id=\"stops\">\n");
    svg.extend(owners.iter().map(|&owner| group(owner, floor::stops(sheet, owner, &mut slots))));
    svg.push_str("</g>\n");
    if plan.is_some() {
        svg.push_str(&tokens);
    }
    svg.push_str("</svg>\n");
    svg
}

fn keys(plan: &Plan) -> String {
    format!(
        "<p class=\"keys\"><b>Keys.</b> Space plays and pauses, \u{2190} and \u{2192} step, Home goes to time 0, End to the \
         last finish ({}), a number picks that carrier, C the next one, Esc none.</p>\n",
        last_finish(plan)
    )
}

fn legend(sheet: &Sheet) -> String {
    let lanes = if floor::has_lanes(sheet) {
        "; an arrow is a lane, which a carrier leaves only that way"
    } else {
        ""
    };
    format!(
        "<p class=\"legend\"><b>Signs.</b> A disc is a carrier, a diamond a stop with its place in the task's order, a \
         square frame a gate; hatched places are blocked{lanes}. A place is named column,row, both from 0 at the upper \
         left. Letters are those of the sheet's text.</p>\n"
    )
}

fn trail(sheet: &Sheet, plan: &Plan, carrier: Carrier) -> String {
    let line = floor::line(sheet, plan, carrier);
    let (points, colour) = (floor::points(&line), floor::colour(carrier));
    let (x, y) = line.first().copied().unwrap_or_default();
    format!(
        "<g data-carrier=\"{}\"><polyline class=\"edge\" points=\"{points}\"/><polyline points=\"{points}\" stroke=\"{colour}\"/>\
         <circle cx=\"{}\" cy=\"{}\" r=\"4.5\" fill=\"{colour}\"/></g>\n",
        carrier.0,
        short(x),
        short(y)
    )
}

fn controls(sheet: &Sheet) -> String {
    format!(
        "<div class=\"controls\" id=\"controls\" hidden>\n\
         <div class=\"buttons\"><button id=\"first\" type=\"button\">Start</button><button id=\"back\" type=\"button\">Back</button>\
         <button id=\"play\" type=\"button\">Play</button><button id=\"step\" type=\"button\">Step</button>\
         <button id=\"last\" type=\"button\">End</button>\
         <label title=\"Steps in a second\">Speed <select id=\"speed\"><option value=\"1\">1/s</option><option value=\"2\" selected>2/s</option>\
         <option value=\"5\">5/s</option><option value=\"15\">15/s</option></select></label>\
         <label><input type=\"checkbox\" id=\"paths\"> All paths</label></div>\n\
         <div class=\"slide\"><input type=\"range\" id=\"time\" min=\"0\" max=\"{horizon}\" value=\"0\" step=\"1\" aria-label=\"Time\">\
         <output id=\"now\" for=\"time\">time 0 of {horizon}</output></div>\n\
         </div>\n\
         <noscript><p>Without scripts the page shows time 0.</p></noscript>\n",
        horizon = sheet.horizon()
    )
}

fn last_finish(plan: &Plan) -> usize {
    plan.carriers().filter_map(|carrier| plan.finish(carrier)).max().unwrap_or(0)
}

/// A carrier's number on its colour, then its letter.
fn named(carrier: Carrier) -> String {
    format!("<span class=\"dot\">{}</span> {}", carrier.0, carrier_letter(carrier))
}

/// The colours of [`named`], for the style of an element around it.
fn colours(carrier: Carrier) -> String {
    let colour = floor::colour(carrier);
    format!("--c:{colour};--i:{}", floor::ink(colour))
}

/// The gate board at time 0, in the order in which the cars arrive; the script says which have arrived.
fn gate_board(sheet: &Sheet, board: &GateBoard) -> String {
    let rows: String = board.lines().iter().map(|line| gate_line(sheet, line)).collect();
    format!(
        "<table id=\"board\"><caption>Gate board</caption>\n<thead><tr><th scope=\"col\">Gate</th><th scope=\"col\">Carrier</th>\
         <th scope=\"col\">Task</th><th scope=\"col\">Arrival</th><th scope=\"col\">Now</th></tr></thead>\n<tbody>\n{rows}</tbody></table>\n"
    )
}

fn gate_line(sheet: &Sheet, line: &GateLine) -> String {
    let &GateLine { goal, carrier, task, finish } = line;
    let (class, now) = match finish {
        0 => (" class=\"arrived\"", "arrived".to_string()),
        _ => ("", format!("in {}", count(finish as usize, "step"))),
    };
    format!(
        "<tr data-carrier=\"{}\" data-finish=\"{finish}\"{class}><th scope=\"row\">{}</th><td style=\"{}\">{}</td>\
         <td>{} {}</td><td class=\"number\">{finish}</td><td class=\"arrival\">{now}</td></tr>\n",
        carrier.0,
        point(sheet, goal),
        colours(carrier),
        named(carrier),
        task.0,
        task_letter(task)
    )
}

/// The table of the carriers of a plan.
fn rounds(sheet: &Sheet, plan: &Plan) -> String {
    let mut rows = String::new();
    for (carrier, &task) in plan.carriers().zip(plan.tasks()) {
        let goals = sheet.goals(task);
        let visits = floor::visits(sheet, plan, carrier);
        let finish = plan.finish(carrier).unwrap_or(0);
        let start = sheet.start(carrier).map(|place| point(sheet, place)).unwrap_or_default();
        let mut stops = format!("<li class=\"start\">{start}</li>");
        for (index, place) in goals.iter().enumerate() {
            let gate = index + 1 == goals.len();
            let (class, time) = if gate { ("gate", finish) } else { ("stop", visits[index]) };
            let _ = write!(
                stops,
                "<li class=\"{class}\" data-goal=\"{index}\">{} <span>at {time}</span></li>",
                point(sheet, *place)
            );
        }
        let _ = writeln!(
            rows,
            "<tr data-carrier=\"{i}\"><th scope=\"row\"><button type=\"button\" class=\"pick\" aria-pressed=\"false\" \
             style=\"{colours}\">{named}</button></th>\
             <td>{task} {task_letter}</td><td><ol>{stops}</ol></td><td class=\"number\">{finish}</td>\
             <td class=\"state\">{start}</td></tr>",
            i = carrier.0,
            colours = colours(carrier),
            named = named(carrier),
            task = task.0,
            task_letter = task_letter(task),
        );
    }
    format!(
        "<table id=\"rounds\"><caption>Carriers</caption>\n<thead><tr><th scope=\"col\">Carrier</th><th scope=\"col\">Task</th>\
         <th scope=\"col\">Start, stops, <b>gate</b></th><th scope=\"col\">Finish</th><th scope=\"col\">Now</th></tr></thead>\n\
         <tbody>\n{rows}</tbody>\n<tfoot><tr><th scope=\"row\" colspan=\"3\">Flowtime</th><td class=\"number\">{}</td><td></td></tr></tfoot></table>\n",
        plan.flowtime()
    )
}

/// The tables of a sheet without a plan.
fn unplanned(sheet: &Sheet) -> String {
    let mut rows = String::new();
    for (carrier, task) in sheet.carriers().zip(sheet.tasks()) {
        let start = sheet.start(carrier).map(|place| point(sheet, place)).unwrap_or_default();
        let goals: Vec<String> = sheet.goals(task).iter().map(|place| point(sheet, *place)).collect();
        let _ = writeln!(
            rows,
            "<tr><td>{} {}</td><td>{start}</td><td class=\"apart\">{} {}</td><td>{}</td></tr>",
            carrier.0,
            carrier_letter(carrier),
            task.0,
            task_letter(task),
            goals.join(", ").replace(", ", " \u{2192} ")
        );
    }
    format!(
        "<table><thead><tr><th scope=\"col\">Carrier</th><th scope=\"col\">Start</th><th scope=\"col\" class=\"apart\">Task</th>\
         <th scope=\"col\">Stops, then gate</th></tr></thead>\n<tbody>\n{rows}</tbody></table>\n\
         <p class=\"facts\">Horizon {}, node limit {}.</p>\n",
        sheet.horizon(),
        sheet.node_limit()
    )
}

/// What the script needs.
fn data(sheet: &Sheet, plan: &Plan) -> String {
    let carriers: Vec<String> = plan
        .carriers()
        .map(|carrier| {
            format!(
                "{{\"path\":{},\"finish\":{},\"visits\":{}}}",
                numbers(plan.path(carrier)),
                plan.finish(carrier).unwrap_or(0),
                numbers(floor::visits(sheet, plan, carrier))
            )
        })
        .collect();
    format!(
        "{{\"width\":{},\"horizon\":{},\"last\":{},\"cell\":{CELL},\"carriers\":[{}]}}",
        sheet.width(),
        sheet.horizon(),
        last_finish(plan),
        carriers.join(",")
    )
}

/// Bytes that a page shows of a refused sheet, at most.
const SHOWN: usize = 2048;

/// The bytes of a refused sheet, the one at fault marked.
fn dump(bytes: &[u8], refusal: &Refusal) -> String {
    let fault = refusal.fault.as_ref().and_then(|fault| fault.byte());
    let mut rows = String::new();
    for (index, sixteen) in bytes[..bytes.len().min(SHOWN)].chunks(16).enumerate() {
        let _ = write!(rows, "<tr><th scope=\"row\">{}</th>", index * 16);
        for (column, byte) in sixteen.iter().enumerate() {
            let class = if Some(index * 16 + column) == fault { " class=\"fault\"" } else { "" };
            let _ = write!(rows, "<td{class}>{byte}</td>");
        }
        rows.push_str("</tr>\n");
    }
    let head: String = (0..16).map(|column| format!("<th scope=\"col\">+{column}</th>")).collect();
    let more = if bytes.len() > SHOWN { format!("<p>The first {SHOWN} bytes.</p>") } else { String::new() };
    format!(
        "<main><section><h2>The sheet's {} bytes, decimal</h2>\n<div class=\"scroll\"><table class=\"bytes\"><thead><tr><th>Byte</th>{head}</tr></thead>\n\
         <tbody>\n{rows}</tbody></table></div>{more}</section></main>\n",
        bytes.len()
    )
}
