//! `picture`: a plan as one SVG for print. Lines differ in dashes as well as in colour, and carriers have their numbers.

use std::fmt::Write;

use carrier_planner::{Answer, Carrier, Plan, Sheet};

use crate::floor::{self, corner, escaped, point, short, CELL, RULER};
use crate::page::{refusal_words, Shown};
use crate::report::answer_words;
use crate::text::{carrier_letter, task_letter};

const STYLE: &str = "text{font-family:Helvetica,Arial,sans-serif}.title{font-size:17px;font-weight:700}.words,.entry{font-size:12px}\
.ground{fill:#fff}.blocked{fill:#c4c4c4}.hatch{fill:url(#hatch)}.stripe{stroke:#777;stroke-width:4}\
.lines{fill:none;stroke:#bbb;stroke-width:1}.lane .shaft{fill:none;stroke:#999;stroke-width:3}.lane .head{fill:#999}.ruler{font-size:11px;fill:#444;text-anchor:middle}\
.goal text,.token text{text-anchor:middle;font-weight:700}.gate text{fill:#111;paint-order:stroke;stroke:#fff;stroke-width:3px}.gate .edge{fill:none;stroke:#111;stroke-width:5}.gate .frame{fill-opacity:0;stroke-width:3}\
.stop path{stroke:#111;stroke-width:1}.token .halo{fill:#111}.way{fill:none;stroke-linejoin:round;stroke-width:2.6}\
.under{fill:none;stroke:#111;stroke-linejoin:round;stroke-width:3.8}.arrow{stroke:#111;stroke-width:.6}.wait{fill:#fff;stroke:#111;stroke-width:.8}\
.waits{font-size:8px;text-anchor:middle}";

/// Dashes of the carriers' lines, over and over.
const DASHES: [&str; 4] = ["none", "8 3", "2.5 2.5", "10 3 2.5 3"];

/// The narrowest picture, so that words have room.
const NARROW: f64 = 460.0;

/// How much larger than the page's units a floor of this width is drawn.
fn scale(across: f64) -> f64 {
    (640.0 / across).clamp(1.0, 1.8)
}

/// Letters in a line of words, by the picture's width.
fn letters(width: f64) -> usize {
    (width / 6.1) as usize
}

pub fn picture(name: &str, shown: &Shown) -> String {
    let (heading, sentence) = match shown {
        Shown::Answered(sheet, board) => answer_words(sheet, board.answer()),
        Shown::Refused(refusal, _) => {
            (format!("Refused: cause {}", refusal.cause.number()), refusal_words(refusal))
        }
    };
    // A refused sheet and a dark house have no floor.
    let drawn = match shown {
        Shown::Answered(sheet, board) if !sheet.is_dark() => Some((sheet, board.answer())),
        _ => None,
    };
    let width = drawn.map_or(NARROW, |(sheet, _)| floor_size(sheet).0.max(NARROW));
    let mut body = String::new();
    let mut y = 20.0;
    let title = format!("{heading} - {name}");
    for line in wrapped(&title, letters(width) * 2 / 3) {
        let _ = writeln!(body, "<text class=\"title\" x=\"0\" y=\"{y}\">{}</text>", escaped(&line));
        y += 22.0;
    }
    for line in wrapped(&sentence, letters(width)) {
        let _ = writeln!(body, "<text class=\"words\" x=\"0\" y=\"{y}\">{}</text>", escaped(&line));
        y += 16.0;
    }
    if let Some((sheet, answer)) = drawn {
        y = floor_and_entries(&mut body, sheet, answer, width, y);
    }
    format!(
        "<svg xmlns=\"http://www.w3.org/2000/svg\" viewBox=\"-10 -4 {w} {h}\" width=\"{w}\" height=\"{h}\">\n\
         <title>{}</title>\n<style>{STYLE}</style>\n<rect x=\"-10\" y=\"-4\" width=\"{w}\" height=\"{h}\" fill=\"#fff\"/>\n{}{body}</svg>\n",
        escaped(&title),
        floor::HATCH,
        w = short(width + 20.0),
        h = short(y + 4.0)
    )
}

/// Width and height of the floor as it is drawn.
fn floor_size(sheet: &Sheet) -> (f64, f64) {
    let (across, down) = (sheet.width() as f64 * CELL + RULER, sheet.height() as f64 * CELL + RULER);
    (across * scale(across) + 8.0, down * scale(across) + 10.0)
}

/// Adds the floor from y on and the lines below it, and gives where they end.
fn floor_and_entries(body: &mut String, sheet: &Sheet, answer: &Answer, width: f64, mut y: f64) -> f64 {
    let larger = scale(sheet.width() as f64 * CELL + RULER);
    let (right, down) = (short(RULER * larger), short(y + 14.0 * larger));
    let _ = writeln!(body, "<g transform=\"translate({right} {down}) scale({})\">", short(larger));
    body.push_str(&floor_part(sheet, answer));
    body.push_str("</g>\n");
    y += floor_size(sheet).1 + 10.0;
    for (mark, line) in entries(sheet, answer, letters(width - 34.0)) {
        if let Some(carrier) = mark {
            let _ = writeln!(body, "{}", sample(carrier, y - 4.0));
        }
        let _ = writeln!(body, "<text class=\"entry\" x=\"34\" y=\"{}\">{}</text>", short(y), escaped(&line));
        y += 16.0;
    }
    y
}

/// Words in lines of at most so many letters.
fn wrapped(text: &str, most: usize) -> Vec<String> {
    let mut lines = vec![String::new()];
    for word in text.split(' ') {
        let full = lines
            .last()
            .is_some_and(|line| !line.is_empty() && line.chars().count() + word.chars().count() >= most);
        if full {
            lines.push(String::new());
        }
        if let Some(line) = lines.last_mut() {
            if !line.is_empty() {
                line.push(' ');
            }
            line.push_str(word);
        }
    }
    lines
}

fn floor_part(sheet: &Sheet, answer: &Answer) -> String {
    let plan = answer.plan();
    let mut svg = floor::ground(sheet);
    let mut slots = floor::Slots::of(sheet, plan.is_none());
    if let Some(plan) = plan {
        for carrier in plan.carriers() {
            svg.push_str(&way(sheet, plan, carrier));
        }
    }
    let tokens: String = sheet.carriers().map(|carrier| floor::token(sheet, carrier)).collect();
    if plan.is_none() {
        svg.push_str(&tokens);
    }
    let owners = floor::owners(sheet, plan);
    svg.extend(owners.iter().map(|&owner| floor::gate(sheet, owner, &slots)));
    svg.extend(owners.iter().map(|&owner| floor::stops(sheet, owner, &mut slots)));
    if plan.is_some() {
        svg.push_str(&tokens);
    }
    if let Some(plan) = plan {
        for carrier in plan.carriers() {
            svg.push_str(&waits(sheet, plan, carrier));
        }
    }
    svg
}

fn dash(carrier: Carrier) -> &'static str {
    DASHES[carrier.0 % DASHES.len()]
}

/// A carrier's line with arrows.
fn way(sheet: &Sheet, plan: &Plan, carrier: Carrier) -> String {
    let line = floor::line(sheet, plan, carrier);
    let (points, colour) = (floor::points(&line), floor::colour(carrier));
    let mut svg = format!(
        "<polyline class=\"under\" stroke-dasharray=\"{d}\" points=\"{points}\"/><polyline class=\"way\" stroke=\"{colour}\" stroke-dasharray=\"{d}\" points=\"{points}\"/>\n",
        d = dash(carrier)
    );
    let mut since = 0;
    let mut before = None;
    for two in line.windows(2) {
        let ((x, y), (to_x, to_y)) = (two[0], two[1]);
        let way = ((to_x - x) / CELL, (to_y - y) / CELL);
        // One where the direction changes, and one in every four steps straight on.
        since = if before == Some(way) { (since + 1) % 4 } else { 0 };
        before = Some(way);
        if since == 0 {
            let (mid_x, mid_y, dx, dy) = ((x + to_x) / 2.0, (y + to_y) / 2.0, way.0 * 4.5, way.1 * 4.5);
            let _ = writeln!(
                svg,
                "<path class=\"arrow\" fill=\"{colour}\" d=\"M{} {}L{} {}L{} {}z\"/>",
                short(mid_x + dx),
                short(mid_y + dy),
                short(mid_x - dx - dy),
                short(mid_y - dy + dx),
                short(mid_x - dx + dy),
                short(mid_y - dy - dx)
            );
        }
    }
    svg
}

/// Where a carrier waits before its finish, and for how many steps.
fn waits(sheet: &Sheet, plan: &Plan, carrier: Carrier) -> String {
    let path = plan.path(carrier);
    let finish = plan.finish(carrier).unwrap_or(0);
    let mut svg = String::new();
    let mut time = 0;
    while time < finish {
        let stays = path.iter().skip(time).take_while(|place| **place == path[time]).count();
        if stays > 1 {
            let (x, y) = corner(sheet, path[time]);
            // Each carrier has its own place at the lower edge.
            let at = x + 4.0 + 24.0 * (carrier.0 as f64 + 0.5) / sheet.m() as f64;
            let _ = writeln!(
                svg,
                "<circle class=\"wait\" cx=\"{at}\" cy=\"{}\" r=\"4.6\" style=\"stroke:{};stroke-width:1.6\"/><text class=\"waits\" x=\"{at}\" y=\"{}\">{}</text>",
                y + 26.0,
                floor::colour(carrier),
                y + 28.9,
                stays - 1,
                at = short(at)
            );
        }
        time += stays;
    }
    svg
}

fn sample(carrier: Carrier, y: f64) -> String {
    let (colour, y) = (floor::colour(carrier), short(y));
    format!(
        "<path class=\"under\" stroke-dasharray=\"{d}\" d=\"M0 {y}h28\"/><path class=\"way\" stroke=\"{colour}\" stroke-dasharray=\"{d}\" d=\"M0 {y}h28\"/>",
        d = dash(carrier)
    )
}

/// The lines below the floor; the first of each carrier with its mark.
fn entries(sheet: &Sheet, answer: &Answer, most: usize) -> Vec<(Option<Carrier>, String)> {
    let mut entries = Vec::new();
    let mut add = |mark: Option<Carrier>, text: String| {
        for (index, line) in wrapped(&text, most).into_iter().enumerate() {
            entries.push((mark.filter(|_| index == 0), line));
        }
    };
    if floor::has_lanes(sheet) {
        add(None, "In grey an arrow is a lane, which a carrier leaves only that way.".to_string());
    }
    let Some(plan) = answer.plan() else {
        for carrier in sheet.carriers() {
            let start = sheet.start(carrier).map(|place| point(sheet, place)).unwrap_or_default();
            add(None, format!("carrier {} ({}) starts on {start}", carrier.0, carrier_letter(carrier)));
        }
        for task in sheet.tasks() {
            let goals: Vec<String> = sheet.goals(task).iter().map(|place| point(sheet, *place)).collect();
            add(None, format!("task {} ({}): {}", task.0, task_letter(task), goals.join(" then ")));
        }
        return entries;
    };
    for (carrier, &task) in plan.carriers().zip(plan.tasks()) {
        let visits = floor::visits(sheet, plan, carrier);
        let goals = sheet.goals(task);
        let finish = plan.finish(carrier).unwrap_or(0);
        let mut text = format!(
            "carrier {} ({}), task {} ({}):",
            carrier.0,
            carrier_letter(carrier),
            task.0,
            task_letter(task)
        );
        for (place, time) in goals.iter().zip(&visits).take(goals.len().saturating_sub(1)) {
            let _ = write!(text, " stop {} at {time},", point(sheet, *place));
        }
        if let Some(gate) = goals.last() {
            let _ = write!(text, " gate {}, finish {finish}", point(sheet, *gate));
        }
        add(Some(carrier), text);
    }
    if plan.carriers().any(|carrier| !waits(sheet, plan, carrier).is_empty()) {
        add(None, "A small ring says how many steps a carrier waits there.".to_string());
    }
    entries
}
