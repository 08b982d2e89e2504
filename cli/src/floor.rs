//! What the page and the picture draw alike: the floor, goals, carriers, colours. A place is 32 units wide.

use std::collections::{BTreeMap, BTreeSet};
use std::fmt::Write;

use carrier_planner::{Carrier, Direction, Place, Plan, Sheet, Task};

use crate::text::{carrier_letter, task_letter};

pub const CELL: f64 = 32.0;
/// Room for the numbers of columns and rows.
pub const RULER: f64 = 24.0;

/// Twelve colours, the first ones farthest apart. Any two differ by 25 or more (CIE 1976) for normal sight and as people without red,
/// green or blue cones see them; the test below has the reckoning. Numbers and shapes say the same as the colours do.
const COLOURS: [&str; 12] = [
    "#2233ff", "#cc6655", "#aaff22", "#770077", "#aa66ff", "#dddd99", "#bb9900", "#88aadd", "#554400",
    "#ee1188", "#33ffdd", "#5511aa",
];

/// The colour of goals that no carrier has.
const PLAIN: &str = "#8a8a8a";

pub fn colour(carrier: Carrier) -> &'static str {
    COLOURS[carrier.0 % COLOURS.len()]
}

/// Red, green and blue as amounts of light, 0 to 1.
fn light(colour: &str) -> [f64; 3] {
    [1, 3, 5].map(|at| {
        let value = colour.get(at..at + 2).and_then(|two| u8::from_str_radix(two, 16).ok()).unwrap_or(0);
        let value = f64::from(value) / 255.0;
        if value <= 0.04045 {
            value / 12.92
        } else {
            ((value + 0.055) / 1.055).powf(2.4)
        }
    })
}

/// Black or white, whichever stands out more on the colour.
pub fn ink(colour: &str) -> &'static str {
    let [red, green, blue] = light(colour);
    let light = 0.2126 * red + 0.7152 * green + 0.0722 * blue;
    if (light + 0.05) / 0.05 > 1.05 / (light + 0.05) {
        "#000"
    } else {
        "#fff"
    }
}

/// Text that may stand in HTML and SVG, also within quotes. Letters that XML does not have are replaced.
pub fn escaped(text: &str) -> String {
    let mut out = String::new();
    for letter in text.chars() {
        match letter {
            '&' => out.push_str("&amp;"),
            '<' => out.push_str("&lt;"),
            '>' => out.push_str("&gt;"),
            '"' => out.push_str("&quot;"),
            letter if letter.is_control() || matches!(letter, '\u{fffe}' | '\u{ffff}') => {
                out.push('\u{fffd}')
            }
            letter => out.push(letter),
        }
    }
    out
}

/// The upper left corner of a place.
pub fn corner(sheet: &Sheet, place: Place) -> (f64, f64) {
    let (x, y) = sheet.column_and_row(place);
    (x as f64 * CELL, y as f64 * CELL)
}

/// "3,1"
pub fn point(sheet: &Sheet, place: Place) -> String {
    let (x, y) = sheet.column_and_row(place);
    format!("{x},{y}")
}

/// A number with at most two digits after the point, without needless zeros.
pub fn short(value: f64) -> String {
    let text = format!("{value:.2}");
    text.trim_end_matches('0').trim_end_matches('.').to_string()
}

/// The floor with its lanes and rulers. Styles come by class: `ground`, `blocked`, `lines`, `lane`, `ruler`.
pub fn ground(sheet: &Sheet) -> String {
    let (w, h) = (sheet.width() as f64 * CELL, sheet.height() as f64 * CELL);
    let mut svg = format!("<rect class=\"ground\" width=\"{w}\" height=\"{h}\"/>\n");
    let mut blocked = String::new();
    for place in sheet.places().filter(|place| !sheet.is_free(*place)) {
        let (x, y) = corner(sheet, place);
        let _ = write!(blocked, "M{x} {y}h{CELL}v{CELL}h-{CELL}z");
    }
    if !blocked.is_empty() {
        let _ = writeln!(svg, "<path class=\"blocked\" d=\"{blocked}\"/>");
        let _ = writeln!(svg, "<path class=\"hatch\" d=\"{blocked}\"/>");
    }
    let mut lines = String::new();
    for x in 0..=sheet.width() {
        let _ = write!(lines, "M{} 0v{h}", x as f64 * CELL);
    }
    for y in 0..=sheet.height() {
        let _ = write!(lines, "M0 {}h{w}", y as f64 * CELL);
    }
    let _ = writeln!(svg, "<path class=\"lines\" d=\"{lines}\"/>");
    svg.push_str(&lanes(sheet));
    for x in 0..sheet.width() {
        let at = (x as f64 + 0.5) * CELL;
        let _ = writeln!(svg, "<text class=\"ruler\" x=\"{at}\" y=\"-7\">{x}</text>");
    }
    for y in 0..sheet.height() {
        let at = (y as f64 + 0.5) * CELL + 4.0;
        let _ = writeln!(svg, "<text class=\"ruler\" x=\"-12\" y=\"{at}\">{y}</text>");
    }
    svg
}

/// Whether the floor has lanes, so that their sign has to be explained.
pub fn has_lanes(sheet: &Sheet) -> bool {
    sheet.places().any(|place| sheet.lane(place).is_some())
}

/// The lanes: an arrow to the side by which each is left, with a title in words. Where a carrier starts or a task has a goal, which
/// cover the middle of a place, a small head stands in a corner too.
fn lanes(sheet: &Sheet) -> String {
    let starts = sheet.carriers().filter_map(|carrier| sheet.start(carrier));
    let covered: BTreeSet<Place> = starts.chain(sheet.tasks().flat_map(|task| sheet.goals(task))).collect();
    let mut svg = String::new();
    for (place, direction) in sheet.places().filter_map(|place| Some((place, sheet.lane(place)?))) {
        let (x, y) = corner(sheet, place);
        let turn = match direction {
            Direction::North => 0,
            Direction::East => 90,
            Direction::South => 180,
            Direction::West => 270,
        };
        let small =
            if covered.contains(&place) { "<path class=\"head\" d=\"M4 .6L7.2 6.2H.8z\"/>" } else { "" };
        let _ = writeln!(
            svg,
            "<g class=\"lane\" data-lane=\"{direction}\" transform=\"translate({x} {y}) rotate({turn} 16 16)\"><title>lane at {}: \
             left only to the {direction}</title><path class=\"shaft\" d=\"M16 29V8\"/><path class=\"head\" d=\"M16 1.5L24 10.5H8z\"/>{small}</g>",
            point(sheet, place)
        );
    }
    svg
}

/// The pattern of blocked places, so that they do not rest on a colour.
pub const HATCH: &str =
    "<defs><pattern id=\"hatch\" width=\"8\" height=\"8\" patternUnits=\"userSpaceOnUse\" \
    patternTransform=\"rotate(45)\"><path class=\"stripe\" d=\"M0 0v8\"/></pattern></defs>\n";

/// A task as it is drawn: with the carrier that has it, if there is a plan.
#[derive(Clone, Copy)]
pub struct Owner {
    pub task: Task,
    pub carrier: Option<Carrier>,
}

impl Owner {
    pub fn colour(self) -> &'static str {
        self.carrier.map_or(PLAIN, colour)
    }

    /// Says whose goals they are: the carrier's number, or the task's letter.
    fn tag(self) -> String {
        self.carrier.map_or_else(|| task_letter(self.task).to_string(), |carrier| carrier.0.to_string())
    }

    pub fn words(self) -> String {
        let task = format!("task {} ({})", self.task.0, task_letter(self.task));
        match self.carrier {
            Some(carrier) => format!("carrier {} ({}), {task}", carrier.0, carrier_letter(carrier)),
            None => task,
        }
    }
}

/// Tasks in the order of their carriers, or by number where there is no plan.
pub fn owners(sheet: &Sheet, plan: Option<&Plan>) -> Vec<Owner> {
    match plan {
        Some(plan) => {
            let both = plan.carriers().zip(plan.tasks());
            both.map(|(carrier, &task)| Owner { task, carrier: Some(carrier) }).collect()
        }
        None => sheet.tasks().map(|task| Owner { task, carrier: None }).collect(),
    }
}

/// Where a stop is drawn within its place: middle and size. Several stops on one place share it.
pub struct Slots {
    counts: BTreeMap<Place, usize>,
    used: BTreeMap<Place, usize>,
    /// Places on which a carrier stays: there goals are drawn in the corners.
    taken: Vec<Place>,
}

impl Slots {
    /// `standing` if the carriers stay on their starts.
    pub fn of(sheet: &Sheet, standing: bool) -> Slots {
        let mut counts = BTreeMap::new();
        for task in sheet.tasks() {
            let goals = sheet.goals(task);
            for &stop in goals.iter().take(goals.len().saturating_sub(1)) {
                *counts.entry(stop).or_insert(0) += 1;
            }
        }
        let taken = if standing {
            sheet.carriers().filter_map(|carrier| sheet.start(carrier)).collect()
        } else {
            Vec::new()
        };
        Slots { counts, used: BTreeMap::new(), taken }
    }

    fn next(&mut self, sheet: &Sheet, place: Place) -> (f64, f64, f64) {
        let count = self.counts.get(&place).copied().unwrap_or(1).max(1);
        let used = self.used.entry(place).or_insert(0);
        let side = (1..).find(|side| side * side >= count).unwrap_or(1);
        let (column, row) = (*used % side, *used / side);
        *used += 1;
        let rows = count.div_ceil(side);
        let corner_only = self.taken.contains(&place);
        let room = if corner_only { 15.0 } else { 26.0 } / side as f64;
        let left = if corner_only { 17.0 } else { (CELL - room * side as f64) / 2.0 };
        let top = if corner_only { 17.0 } else { (CELL - room * rows as f64) / 2.0 };
        let (x, y) = corner(sheet, place);
        (x + left + (column as f64 + 0.5) * room, y + top + (row as f64 + 0.5) * room, room)
    }
}

/// The gate of a task: a frame, with a title in words.
pub fn gate(sheet: &Sheet, owner: Owner, slots: &Slots) -> String {
    let goals = sheet.goals(owner.task);
    let Some(&place) = goals.last() else { return String::new() };
    let (x, y) = corner(sheet, place);
    let (right, down, size) = if slots.taken.contains(&place) { (7.5, 11.0, 11) } else { (16.0, 20.5, 13) };
    let frame = format!("x=\"{}\" y=\"{}\" width=\"27\" height=\"27\" rx=\"4\"", x + 2.5, y + 2.5);
    format!(
        "<g class=\"goal gate\" data-goal=\"{}\"><title>gate at {}: {}</title><rect class=\"edge\" {frame}/>\
         <rect class=\"frame\" {frame} stroke=\"{fill}\" fill=\"{fill}\"/>\
         <text x=\"{}\" y=\"{}\" font-size=\"{size}\">{}</text></g>\n",
        goals.len() - 1,
        point(sheet, place),
        owner.words(),
        x + right,
        y + down,
        owner.tag(),
        fill = owner.colour()
    )
}

/// The stops of a task: diamonds with their order, each with a title in words.
pub fn stops(sheet: &Sheet, owner: Owner, slots: &mut Slots) -> String {
    let goals = sheet.goals(owner.task);
    let (fill, words) = (owner.colour(), owner.words());
    let mut svg = String::new();
    for (index, &place) in goals.iter().enumerate().take(goals.len().saturating_sub(1)) {
        let (x, y, room) = slots.next(sheet, place);
        let (half, stop) = (room * 0.48, index + 1);
        let label = if owner.carrier.is_some() { stop.to_string() } else { format!("{}{stop}", owner.tag()) };
        let _ = writeln!(
            svg,
            "<g class=\"goal stop\" data-goal=\"{index}\"><title>stop {stop} at {}: {words}</title>\
             <path d=\"M{} {}l{h} {h}l-{h} {h}l-{h} -{h}z\" fill=\"{fill}\"/>\
             <text x=\"{}\" y=\"{}\" font-size=\"{}\" fill=\"{}\">{label}</text></g>",
            point(sheet, place),
            short(x),
            short(y - half),
            short(x),
            short(y + room * 0.17),
            short(room * 0.48),
            ink(fill),
            h = short(half)
        );
    }
    svg
}

/// A carrier at its start, to be moved by its group's transform.
pub fn token(sheet: &Sheet, carrier: Carrier) -> String {
    let fill = colour(carrier);
    let (x, y) = sheet.start(carrier).map_or((0.0, 0.0), |place| corner(sheet, place));
    let size = if carrier.0 > 9 { 11 } else { 13 };
    format!(
        "<g class=\"token\" data-carrier=\"{number}\" transform=\"translate({x} {y})\"><title>carrier {number} ({letter})</title>\
         <circle class=\"halo\" cx=\"16\" cy=\"16\" r=\"12.5\"/><circle class=\"body\" cx=\"16\" cy=\"16\" r=\"10.5\" fill=\"{fill}\"/>\
         <text x=\"16\" y=\"20.5\" font-size=\"{size}\" fill=\"{ink}\">{number}</text></g>\n",
        number = carrier.0,
        letter = carrier_letter(carrier),
        ink = ink(fill)
    )
}

/// How far a carrier's line is beside the middle of its places, so that lines on one way lie beside each other.
fn shift(sheet: &Sheet, carrier: Carrier) -> f64 {
    let m = sheet.m() as f64;
    (carrier.0 as f64 - (m - 1.0) / 2.0) * (16.0 / m).min(4.0)
}

/// The corners of a carrier's line: its places without waits.
pub fn line(sheet: &Sheet, plan: &Plan, carrier: Carrier) -> Vec<(f64, f64)> {
    let shift = shift(sheet, carrier) + CELL / 2.0;
    let mut path = plan.path(carrier).to_vec();
    path.dedup();
    path.iter()
        .map(|&place| {
            let (x, y) = corner(sheet, place);
            (x + shift, y + shift)
        })
        .collect()
}

pub fn points(line: &[(f64, f64)]) -> String {
    let points: Vec<String> = line.iter().map(|(x, y)| format!("{},{}", short(*x), short(*y))).collect();
    points.join(" ")
}

/// The times at which a path is on the goals of its task, each as early as the one before lets it.
pub fn visits(sheet: &Sheet, plan: &Plan, carrier: Carrier) -> Vec<usize> {
    let path = plan.path(carrier);
    let goals = plan.task(carrier).map(|task| sheet.goals(task)).unwrap_or_default();
    let mut time = 0;
    goals
        .iter()
        .map(|goal| {
            time += path.iter().skip(time).position(|place| place == goal).unwrap_or(0);
            time
        })
        .collect()
}

#[cfg(test)]
mod tests {
    use super::*;

    /// What normal sight, and sight without red, green or blue cones, makes of red, green and blue (Machado and others, 2009).
    const SIGHTS: [[[f64; 3]; 3]; 4] = [
        [[1.0, 0.0, 0.0], [0.0, 1.0, 0.0], [0.0, 0.0, 1.0]],
        [[0.152286, 1.052583, -0.204868], [0.114503, 0.786281, 0.099216], [-0.003882, -0.048116, 1.051998]],
        [[0.367322, 0.860646, -0.227968], [0.280085, 0.672501, 0.047413], [-0.011820, 0.042940, 0.968881]],
        [[1.255528, -0.076749, -0.178779], [-0.078411, 0.930809, 0.147602], [0.004733, 0.691367, 0.303900]],
    ];

    fn product(rows: &[[f64; 3]; 3], values: [f64; 3]) -> [f64; 3] {
        rows.map(|row| row.iter().zip(values).map(|(a, b)| a * b).sum())
    }

    /// Lightness and the two colour axes of CIE 1976.
    fn lab(light: [f64; 3]) -> [f64; 3] {
        let rows = [[0.4124, 0.3576, 0.1805], [0.2126, 0.7152, 0.0722], [0.0193, 0.1192, 0.9505]];
        let [x, y, z] = product(&rows, light.map(|value| value.clamp(0.0, 1.0)));
        let [x, y, z] = [x / 0.95047, y, z / 1.08883].map(|value| {
            if value > 0.008856 {
                value.cbrt()
            } else {
                7.787 * value + 16.0 / 116.0
            }
        });
        [116.0 * y - 16.0, 500.0 * (x - y), 200.0 * (y - z)]
    }

    #[test]
    fn colours_can_be_told_apart() {
        for sight in &SIGHTS {
            let seen = COLOURS.map(|colour| lab(product(sight, light(colour))));
            for (i, one) in seen.iter().enumerate() {
                for (j, other) in seen.iter().enumerate().skip(i + 1) {
                    let apart: f64 = one.iter().zip(other).map(|(a, b)| (a - b) * (a - b)).sum();
                    assert!(apart.sqrt() >= 25.0, "{} and {}: {}", COLOURS[i], COLOURS[j], apart.sqrt());
                }
            }
        }
    }

    #[test]
    fn numbers_stand_out_on_their_colours() {
        for colour in COLOURS {
            let [red, green, blue] = light(colour);
            let light = 0.2126 * red + 0.7152 * green + 0.0722 * blue;
            let contrast = if ink(colour) == "#000" { (light + 0.05) / 0.05 } else { 1.05 / (light + 0.05) };
            assert!(contrast >= 4.5, "{colour}: {contrast}");
        }
    }
}
