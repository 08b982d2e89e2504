//! Job sheets as text that a person can type; docs/TEXT.md describes it.

use std::collections::BTreeMap;
use std::fmt;

use carrier_planner::{
    Carrier, Direction, Fault, Place, Refusal, Sheet, SheetBuilder, Task, Unfit, MOST_CARRIERS,
};

/// In place of a line's number: the fault is of the whole.
pub const WHOLE: usize = 0;

/// What is wrong with a text, and in which line, from 1.
#[derive(Clone, PartialEq, Eq, Debug)]
pub struct TextError {
    pub line: usize,
    pub message: String,
}

impl fmt::Display for TextError {
    fn fmt(&self, f: &mut fmt::Formatter<'_>) -> fmt::Result {
        if self.line != WHOLE {
            write!(f, "line {}: ", self.line)?;
        }
        f.write_str(&self.message)
    }
}

impl std::error::Error for TextError {}

fn wrong<T>(line: usize, message: impl Into<String>) -> Result<T, TextError> {
    Err(TextError { line, message: message.into() })
}

/// The letter of a carrier: A for carrier 0.
pub fn carrier_letter(carrier: Carrier) -> char {
    char::from(b'A' + carrier.0.min(MOST_CARRIERS) as u8)
}

/// The letter of a task: a for task 0.
pub fn task_letter(task: Task) -> char {
    char::from(b'a' + task.0.min(MOST_CARRIERS) as u8)
}

/// The sign of a lane on the floor.
pub fn lane_sign(direction: Direction) -> char {
    match direction {
        Direction::North => '↑',
        Direction::East => '→',
        Direction::South => '↓',
        Direction::West => '←',
    }
}

fn lane_of_sign(sign: char) -> Option<Direction> {
    Direction::ALL.into_iter().find(|direction| lane_sign(*direction) == sign)
}

/// A value and the line that it stands in.
type At<T> = (usize, T);

/// The lines of a text, before places are looked up.
#[derive(Default)]
struct Lines {
    horizon: Option<At<u8>>,
    nodes: Option<At<u16>>,
    /// The line of the word `floor`.
    floor: Option<usize>,
    rows: Vec<At<Vec<char>>>,
    carriers: BTreeMap<usize, At<String>>,
    tasks: BTreeMap<usize, At<Vec<String>>>,
    /// A direction may have several lines.
    lanes: Vec<At<(Direction, Vec<String>)>>,
    dark: Option<At<()>>,
    /// The first line that is not `dark`.
    other: Option<usize>,
    last: usize,
}

const MOST_SIDE: usize = 32;
const MOST_GOALS: usize = 8;
/// The node limit of a text without one.
const NODES: u16 = 4096;

/// Makes a sheet of a text.
pub fn sheet_of_text(text: &str) -> Result<Sheet, TextError> {
    let lines = read_lines(text)?;
    match (lines.dark, lines.other) {
        (Some(_), None) => return Ok(Sheet::dark()),
        (Some((line, ())), Some(other)) => {
            return wrong(line, format!("`dark` must be the only line of its text; line {other} is another"));
        }
        (None, _) => {}
    }
    let Some(floor) = lines.floor else {
        return wrong(
            lines.last,
            "there is no floor: a line `floor`, then the rows, one line each; or `dark` alone, a round without carriers",
        );
    };
    // Before the horizon: a line that follows the floor without an empty line before it is taken as a row.
    let width = check_rows(floor, &lines.rows)?;
    let marks = find_marks(&lines.rows)?;
    let Some((_, horizon)) = lines.horizon else {
        return wrong(lines.last, "there is no horizon: a line such as `horizon 30`");
    };
    let floor = Floor { width, height: lines.rows.len(), marks };
    let mut builder = Sheet::builder(floor.width as u8, floor.height as u8)
        .horizon(horizon)
        .node_limit(lines.nodes.map_or(NODES, |(_, nodes)| nodes));
    builder = mark_floor(builder, &lines, &floor)?;
    let starts = find_starts(&lines, &floor)?;
    let tasks = find_tasks(&lines, &floor, starts.len())?;
    for (_, (x, y)) in &starts {
        builder = builder.carrier(*x, *y);
    }
    for (_, goals) in &tasks {
        builder = builder.task(goals.iter().copied());
    }
    builder.build().map_err(|refusal| refused(&refusal, &starts, &tasks))
}

fn read_lines(text: &str) -> Result<Lines, TextError> {
    let mut lines = Lines { last: 1, ..Lines::default() };
    let mut in_floor = false;
    for (index, whole) in text.lines().enumerate() {
        let (number, line) = (index + 1, whole.trim());
        lines.last = number;
        if in_floor {
            // An empty line ends the floor; those before its first row do not count.
            if !line.is_empty() {
                lines.rows.push((number, line.chars().filter(|cell| !cell.is_whitespace()).collect()));
                continue;
            }
            in_floor = lines.rows.is_empty();
            continue;
        }
        let line = line.split("//").next().unwrap_or_default().trim();
        if line.is_empty() {
            continue;
        }
        let (word, rest) = line.split_once(char::is_whitespace).unwrap_or((line, ""));
        let rest = rest.trim();
        if word.eq_ignore_ascii_case("dark") {
            lines.take_dark(number, word, rest)?;
            continue;
        }
        lines.other.get_or_insert(number);
        if word.eq_ignore_ascii_case("floor") {
            lines.take_floor(number, rest)?;
            in_floor = true;
        } else {
            lines.take(number, word, rest)?;
        }
    }
    Ok(lines)
}

impl Lines {
    fn take_dark(&mut self, line: usize, word: &str, rest: &str) -> Result<(), TextError> {
        if !rest.is_empty() {
            return wrong(line, format!("`{rest}` after `{word}`, which is a line by itself"));
        }
        once(&mut self.dark, line, word, ())
    }

    fn take_floor(&mut self, line: usize, rest: &str) -> Result<(), TextError> {
        if self.floor.is_some() {
            return wrong(line, "a second floor; a text has one");
        }
        if !rest.is_empty() {
            return wrong(line, format!("`{rest}` after `floor`: the rows follow in lines of their own"));
        }
        self.floor = Some(line);
        Ok(())
    }

    fn take(&mut self, line: usize, word: &str, rest: &str) -> Result<(), TextError> {
        match word.to_ascii_lowercase().as_str() {
            "horizon" => once(&mut self.horizon, line, word, number(line, word, rest, 0, 255)? as u8),
            "nodes" => once(&mut self.nodes, line, word, number(line, word, rest, 1, 4096)? as u16),
            "carrier" => {
                let (label, words) = label_and_words(line, word, rest, 'A')?;
                let [place] = words.as_slice() else {
                    return wrong(
                        line,
                        format!("carrier {label} has {} places; it starts on one", words.len()),
                    );
                };
                once_each(&mut self.carriers, label, line, word, place.clone())
            }
            "task" => {
                let (label, words) = label_and_words(line, word, rest, 'a')?;
                if words.is_empty() || words.len() > MOST_GOALS {
                    let count = words.len();
                    return wrong(
                        line,
                        format!("this task has {count} goals; it must have 1 to {MOST_GOALS}"),
                    );
                }
                once_each(&mut self.tasks, label, line, word, words)
            }
            "lane" => {
                let lane = lane_line(line, word, rest)?;
                self.lanes.push((line, lane));
                Ok(())
            }
            _ => wrong(
                line,
                format!(
                    "`{word}` is not known here; a line begins with floor, horizon, nodes, carrier, task, lane or dark"
                ),
            ),
        }
    }
}

fn once<T>(slot: &mut Option<At<T>>, line: usize, word: &str, value: T) -> Result<(), TextError> {
    if let Some((first, _)) = slot {
        return wrong(line, format!("a second `{word}`; the first is in line {first}"));
    }
    *slot = Some((line, value));
    Ok(())
}

fn once_each<T>(
    map: &mut BTreeMap<usize, At<T>>,
    label: usize,
    line: usize,
    word: &str,
    value: T,
) -> Result<(), TextError> {
    if let Some((first, _)) = map.get(&label) {
        return wrong(line, format!("{word} {label} has a line already, line {first}"));
    }
    map.insert(label, (line, value));
    Ok(())
}

fn number(line: usize, word: &str, text: &str, least: u32, most: u32) -> Result<u32, TextError> {
    match text.parse::<u32>() {
        Ok(value) if (least..=most).contains(&value) => Ok(value),
        _ => wrong(line, format!("`{word}` wants a number from {least} to {most}, and has `{text}`")),
    }
}

/// "b: 3,1 q" gives 1 and the words. `first` is the letter of number 0.
fn label_and_words(
    line: usize,
    word: &str,
    rest: &str,
    first: char,
) -> Result<(usize, Vec<String>), TextError> {
    let (label, words) = head_and_words(rest);
    let mut letters = label.chars();
    let by_letter = match (letters.next(), letters.next()) {
        (Some(letter), None) if letter.is_ascii_alphabetic() => {
            Some(usize::from((letter as u8).wrapping_sub(first as u8)))
        }
        _ => None,
    };
    let found = by_letter.or_else(|| label.parse().ok()).filter(|&found: &usize| found < MOST_CARRIERS);
    let Some(found) = found else {
        let last = char::from(first as u8 + MOST_CARRIERS as u8 - 1);
        return wrong(
            line,
            format!("`{word}` wants a letter {first} to {last} or a number 0 to 11 first, and has `{label}`"),
        );
    };
    Ok((found, words))
}

/// What stands before the colon, which may be left out, and the places after it.
fn head_and_words(rest: &str) -> (&str, Vec<String>) {
    let (head, places) = match rest.split_once(':') {
        Some(two) => two,
        None => rest.split_once(char::is_whitespace).unwrap_or((rest, "")),
    };
    // "3, 1" is one place.
    let joined = places.split(',').map(str::trim).collect::<Vec<_>>().join(",");
    (head.trim(), joined.split_whitespace().map(String::from).collect())
}

/// "north: 3,1 q" gives the direction and the words.
fn lane_line(line: usize, word: &str, rest: &str) -> Result<(Direction, Vec<String>), TextError> {
    let (head, words) = head_and_words(rest);
    let found = Direction::ALL.into_iter().find(|direction| head.eq_ignore_ascii_case(direction.word()));
    match found {
        Some(_) if words.is_empty() => wrong(line, format!("`{word} {head}` without a place")),
        Some(direction) => Ok((direction, words)),
        None => wrong(line, format!("`{word}` wants north, east, south or west first, and has `{head}`")),
    }
}

/// The width, of rows that are all as long.
fn check_rows(floor: usize, rows: &[At<Vec<char>>]) -> Result<usize, TextError> {
    let Some((_, first)) = rows.first() else {
        return wrong(floor, "the floor has no rows");
    };
    let width = first.len();
    for (index, (line, row)) in rows.iter().enumerate() {
        if let Some(column) = row.iter().position(|cell| !is_cell(*cell)) {
            let cell = row[column];
            return wrong(*line, format!("`{cell}` in column {column} of the floor; a place is `.` free, `#` blocked, a lane `↑`, `→`, `↓` or `←`, or a letter. An empty line ends the floor"));
        }
        if row.len() != width {
            return wrong(*line, format!("this row has {} places, the first has {width}", row.len()));
        }
        if row.len() > MOST_SIDE {
            return wrong(
                *line,
                format!("this row has {} places; a floor has at most {MOST_SIDE}", row.len()),
            );
        }
        if index >= MOST_SIDE {
            return wrong(*line, format!("row {}; a floor has at most {MOST_SIDE} rows", index + 1));
        }
    }
    Ok(width)
}

fn is_cell(cell: char) -> bool {
    cell == '.' || cell == '#' || cell.is_ascii_alphabetic() || lane_of_sign(cell).is_some()
}

type Point = (u8, u8);

struct Floor {
    width: usize,
    height: usize,
    /// The letters on the floor: line and place.
    marks: BTreeMap<char, At<Point>>,
}

fn find_marks(rows: &[At<Vec<char>>]) -> Result<BTreeMap<char, At<Point>>, TextError> {
    let mut marks = BTreeMap::new();
    for (y, (line, row)) in rows.iter().enumerate() {
        for (x, &cell) in row.iter().enumerate().filter(|(_, cell)| cell.is_ascii_alphabetic()) {
            if let Some((first, _)) = marks.insert(cell, (*line, (x as u8, y as u8))) {
                return wrong(*line, format!("a second {cell} on the floor; the first is in line {first}"));
            }
        }
    }
    Ok(marks)
}

impl Floor {
    /// A letter on the floor, `x,y`, or a place's number.
    fn place(&self, line: usize, text: &str) -> Result<Point, TextError> {
        let mut letters = text.chars();
        if let (Some(letter), None) = (letters.next(), letters.next()) {
            if letter.is_ascii_alphabetic() {
                return match self.marks.get(&letter) {
                    Some((_, place)) => Ok(*place),
                    None => wrong(line, format!("there is no {letter} on the floor")),
                };
            }
        }
        let point = match text.split_once(',') {
            Some((x, y)) => x.parse::<usize>().ok().zip(y.parse::<usize>().ok()),
            None => text.parse::<usize>().ok().map(|place| (place % self.width, place / self.width)),
        };
        match point {
            Some((x, y)) if x < self.width && y < self.height => Ok((x as u8, y as u8)),
            Some(_) => {
                let (width, height) = (self.width, self.height);
                wrong(
                    line,
                    format!(
                        "{text} is off the floor, whose columns are 0 to {} and rows 0 to {}",
                        width - 1,
                        height - 1
                    ),
                )
            }
            None => {
                wrong(line, format!("`{text}` is no place: a letter on the floor, column,row or a number"))
            }
        }
    }
}

/// Blocked places and lanes: the signs on the floor, then the lines.
fn mark_floor(mut builder: SheetBuilder, lines: &Lines, floor: &Floor) -> Result<SheetBuilder, TextError> {
    for (y, (_, row)) in lines.rows.iter().enumerate() {
        for (x, &cell) in row.iter().enumerate() {
            if cell == '#' {
                builder = builder.block(x as u8, y as u8);
            } else if let Some(direction) = lane_of_sign(cell) {
                builder = builder.lane(x as u8, y as u8, direction);
            }
        }
    }
    let mut named = BTreeMap::new();
    for (line, (direction, words)) in &lines.lanes {
        for word in words {
            let (x, y) = floor.place(*line, word)?;
            let (row_line, row) = &lines.rows[usize::from(y)];
            match row[usize::from(x)] {
                '#' => return wrong(*line, format!("{word} is blocked on the floor, in line {row_line}")),
                cell if lane_of_sign(cell).is_some() => {
                    return wrong(
                        *line,
                        format!("{word} is a lane on the floor already, in line {row_line}"),
                    );
                }
                _ => {}
            }
            if let Some(first) = named.insert((x, y), *line) {
                return wrong(*line, format!("{word} is a lane already, by line {first}"));
            }
            builder = builder.lane(x, y, *direction);
        }
    }
    Ok(builder)
}

/// Lines and places of the carriers, without gaps.
fn find_starts(lines: &Lines, floor: &Floor) -> Result<Vec<At<Point>>, TextError> {
    let mut starts = BTreeMap::new();
    for number in 0..MOST_CARRIERS {
        let letter = carrier_letter(Carrier(number));
        match (floor.marks.get(&letter), lines.carriers.get(&number)) {
            (Some((line, _)), Some((second, _))) => {
                return wrong(
                    *second,
                    format!("carrier {letter} has a line, and is on the floor in line {line}"),
                );
            }
            (Some(mark), None) => drop(starts.insert(number, *mark)),
            (None, Some((line, text))) => drop(starts.insert(number, (*line, floor.place(*line, text)?))),
            (None, None) => {}
        }
    }
    for (count, (number, (line, _))) in starts.iter().enumerate() {
        if *number != count {
            let (letter, missing) = (carrier_letter(Carrier(*number)), carrier_letter(Carrier(count)));
            return wrong(
                *line,
                format!("carrier {letter} without carrier {missing}; the letters leave none out"),
            );
        }
    }
    if starts.is_empty() {
        return wrong(
            lines.floor.unwrap_or(1),
            "there is no carrier: a letter A to L on the floor for each; without carriers a text is `dark` alone",
        );
    }
    Ok(starts.into_values().collect())
}

/// Numbers in words.
fn carriers(m: usize) -> String {
    if m == 1 {
        "is 1 carrier".into()
    } else {
        format!("are {m} carriers")
    }
}

/// Lines and goals of the tasks, as many as carriers.
fn find_tasks(lines: &Lines, floor: &Floor, m: usize) -> Result<Vec<At<Vec<Point>>>, TextError> {
    if let Some((number, (line, _))) = lines.tasks.iter().find(|(number, _)| **number >= m) {
        let letter = task_letter(Task(*number));
        return wrong(*line, format!("task {letter} is one too many: there {}", carriers(m)));
    }
    (0..m)
        .map(|number| {
            let letter = task_letter(Task(number));
            match (lines.tasks.get(&number), floor.marks.get(&letter)) {
                (Some((line, words)), _) => {
                    let goals = words.iter().map(|word| floor.place(*line, word)).collect::<Result<_, _>>()?;
                    Ok((*line, goals))
                }
                (None, Some((line, place))) => Ok((*line, vec![*place])),
                (None, None) => wrong(
                    lines.last,
                    format!(
                        "there {}, but no task {letter}: a line `task {letter}: ...`, or {letter} on the floor",
                        carriers(m)
                    ),
                ),
            }
        })
        .collect()
}

/// The line of what the planner refuses.
fn refused(refusal: &Refusal, starts: &[At<Point>], tasks: &[At<Vec<Point>>]) -> TextError {
    let start_line = |carrier: Carrier| starts.get(carrier.0).map_or(1, |start| start.0);
    let task_line = |task: Task| tasks.get(task.0).map_or(1, |task| task.0);
    let said = |unfit: Unfit| match unfit {
        Unfit::Blocked => "is blocked",
        Unfit::OffGrid { .. } => "is off the floor",
    };
    let point = |place: usize, width: usize| format!("{},{}", place % width.max(1), place / width.max(1));
    let (line, message) = match refusal.fault {
        Some(Fault::Start { carrier, place, width, unfit, .. }) => {
            let (letter, place) = (carrier_letter(carrier), point(place, width));
            (start_line(carrier), format!("carrier {letter} starts on {place}, which {}", said(unfit)))
        }
        Some(Fault::SharedStart { carrier, other, place, width, .. }) => {
            let (letter, earlier, line) = (carrier_letter(carrier), carrier_letter(other), start_line(other));
            let place = point(place, width);
            (
                start_line(carrier),
                format!("carrier {letter} starts on {place}, as carrier {earlier} does in line {line}"),
            )
        }
        Some(Fault::Goal { task, goal, place, width, unfit, .. }) => {
            let (letter, place) = (task_letter(task), point(place, width));
            (task_line(task), format!("goal {} of task {letter} is {place}, which {}", goal + 1, said(unfit)))
        }
        Some(Fault::LastGoals { task, other, place, width, .. }) => {
            let (letter, earlier, line) = (task_letter(task), task_letter(other), task_line(other));
            let place = point(place, width);
            (task_line(task), format!("task {letter} ends on {place}, as task {earlier} does in line {line}"))
        }
        _ => (1, refusal.to_string()),
    };
    TextError { line, message: format!("{message} (cause {})", refusal.cause.number()) }
}

/// The text of a sheet: carriers and gates as letters on the floor, further stops too as long as there are letters; lanes as signs on
/// the floor, and where a letter stands by a line. Of the dark house it is one word.
pub fn text_of_sheet(sheet: &Sheet) -> String {
    if sheet.is_dark() {
        return "dark\n".to_string();
    }
    let marks = Marks::of(sheet);
    let mut text = format!("horizon {}\nnodes {}\n\nfloor\n", sheet.horizon(), sheet.node_limit());
    for place in sheet.places() {
        text.push(marks.by_place.get(&place).copied().unwrap_or_else(|| sign(sheet, place)));
        if (usize::from(place.0) + 1) % sheet.width() == 0 {
            text.push('\n');
        }
    }
    let lanes = Direction::ALL.into_iter().filter_map(|direction| marks.lane_line(sheet, direction));
    let tasks = sheet.tasks().filter_map(|task| marks.task_line(sheet, task));
    let lines: Vec<String> = lanes.chain(tasks).collect();
    if !lines.is_empty() {
        text.push('\n');
    }
    text.extend(lines);
    text
}

/// The sign of a place without a letter.
fn sign(sheet: &Sheet, place: Place) -> char {
    match sheet.lane(place) {
        Some(direction) => lane_sign(direction),
        None if sheet.is_free(place) => '.',
        None => '#',
    }
}

/// The letters of a sheet's places.
struct Marks {
    by_place: BTreeMap<Place, char>,
}

impl Marks {
    fn of(sheet: &Sheet) -> Marks {
        let mut by_place = BTreeMap::new();
        for carrier in sheet.carriers() {
            by_place.extend(sheet.start(carrier).map(|place| (place, carrier_letter(carrier))));
        }
        for task in sheet.tasks() {
            if let Some(&gate) = sheet.goals(task).last() {
                by_place.entry(gate).or_insert(task_letter(task));
            }
        }
        // Letters that are neither a carrier's nor a task's.
        let mut spare = ('m'..='z').chain('M'..='Z');
        for stop in sheet.tasks().flat_map(|task| sheet.goals(task)) {
            if !by_place.contains_key(&stop) {
                by_place.extend(spare.next().map(|letter| (stop, letter)));
            }
        }
        Marks { by_place }
    }

    /// The lanes in this direction on whose places letters stand; `None` without any.
    fn lane_line(&self, sheet: &Sheet, direction: Direction) -> Option<String> {
        let places = sheet.places().filter(|&place| sheet.lane(place) == Some(direction));
        let letters: Vec<String> =
            places.filter_map(|place| self.by_place.get(&place)).map(char::to_string).collect();
        (!letters.is_empty()).then(|| format!("lane {direction}: {}\n", letters.join(" ")))
    }

    /// `None` for a task whose only goal is its own letter on the floor.
    fn task_line(&self, sheet: &Sheet, task: Task) -> Option<String> {
        let letter = task_letter(task);
        let words: Vec<String> = sheet
            .goals(task)
            .iter()
            .map(|place| match self.by_place.get(place) {
                Some(letter) => letter.to_string(),
                None => {
                    let (x, y) = sheet.column_and_row(*place);
                    format!("{x},{y}")
                }
            })
            .collect();
        (words != [letter.to_string()]).then(|| format!("task {letter}: {}\n", words.join(" ")))
    }
}
