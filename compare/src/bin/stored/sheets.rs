//! `sheet_test`: the cause, the header, the directory's pairs, the starts, of each task the goals as bytes and as places, the number of
//! free places, the numbers of blocked places and of lanes by direction, and the workspace.

use compare::BEFORE_TASKS;
use other::sheet::{read_sheet, task_goals, Carrier, Sheet, Task};
use other::{naive, RULES};

use crate::case::{spaced, word_at, Cases};

/// The pairs that the reader hands back: those of 12 tasks.
const MOST_PAIRS: usize = BEFORE_TASKS + 12;

pub fn line(cases: &mut Cases) -> String {
    let size = cases.number();
    let bytes = cases.bytes(size);
    let said = match read_sheet(RULES, bytes) {
        Ok(sheet) => accepted(&sheet),
        Err(cause) => {
            let goals = spaced(task_goals(RULES, bytes, Task(0)));
            format!("{}{} /{} /{goals}", cause.number(), spaced([0; 5]), spaced([0; 2 * MOST_PAIRS]))
        }
    };
    said + "\n"
}

fn accepted(sheet: &Sheet) -> String {
    let mut pairs = [0; 2 * MOST_PAIRS];
    if !sheet.is_dark() {
        for (k, word) in pairs.iter_mut().enumerate().take(2 * (BEFORE_TASKS + sheet.m)) {
            *word = word_at(sheet.bytes(), 8 + 2 * k);
        }
    }
    let header = spaced([sheet.w, sheet.h, sheet.m, sheet.horizon, sheet.limit]);
    let starts = spaced((0..sheet.m).map(|i| sheet.start(Carrier(i))));
    let tasks: String = (0..=sheet.m).map(|j| task(sheet, j)).collect();
    let free = (0..sheet.area()).filter(|&place| sheet.is_free(place)).count();
    let grid = naive::read(RULES.changes(), sheet.bytes()).expect("an accepted sheet").grid;
    let marked = spaced((1..=5).map(|mark| grid.iter().filter(|&&byte| byte == mark).count()));
    format!("0{header} /{} /{starts}{tasks} / {free}{marked} {}", spaced(pairs), sheet.workspace_words())
}

/// As bytes and as places, and the last of them once more; 0 where there is none.
fn task(sheet: &Sheet, j: usize) -> String {
    let bytes = task_goals(RULES, sheet.bytes(), Task(j));
    let goals = if j < sheet.m { sheet.goals(Task(j)) } else { Vec::new() };
    let last = goals.last().copied().unwrap_or(0);
    format!(" /{} /{} {last}", spaced(bytes), spaced(goals))
}
