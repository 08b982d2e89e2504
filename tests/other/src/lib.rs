//! The other author's planner as the tests ask it: under as many of document 02's changes as have landed here. `changes.txt` at the
//! top has that number, and nothing else does.

pub use deckref::*;

use deckref::gen::KINDS;
use deckref::rules::Rules;

/// The changes in force.
pub const RULES: Rules = match Rules::after(number(include_bytes!("../../../changes.txt"))) {
    Some(rules) => rules,
    None => panic!("changes.txt has a number from 0 to 14"),
};

/// The most words of workspace that any sheet asks for.
pub const PLENTY: usize = 4_460_544;

/// The number that the text's digits make.
const fn number(text: &[u8]) -> u8 {
    let (mut value, mut k) = (0, 0);
    while k < text.len() {
        if text[k].is_ascii_digit() {
            value = 10 * value + (text[k] - b'0');
        }
        k += 1;
    }
    value
}

/// Every kind of sheet that can be made under these rules.
pub fn kinds() -> impl Iterator<Item = &'static str> {
    let later = [
        ("lanes", RULES.lanes()),
        ("dark", RULES.dark_house()),
        ("closed", RULES.closures()),
        ("hold", RULES.hold()),
    ];
    KINDS.into_iter().chain(later.into_iter().filter_map(|(kind, made)| made.then_some(kind)))
}

/// A sheet of one of these kinds. Of every six pairs of seeds five may use what the changes in force bring, and one uses nothing of
/// it, so that the sheets of document 01 are compared as well; bad sheets, and the kinds of a change, always may.
pub fn generated(kind: &str, seed: u64) -> Vec<u8> {
    if kind != "damaged" && KINDS.contains(&kind) && seed / 2 % 6 == 0 {
        return plain(kind, seed);
    }
    gen_changes::input(RULES, kind, seed).expect("a kind of the generator")
}

/// Whether it is an accepted sheet with a lane.
pub fn has_lanes(bytes: &[u8]) -> bool {
    naive::read(RULES.changes(), bytes).is_ok_and(|plain| plain.grid.iter().any(|&byte| byte > 1))
}

/// A sheet of one of document 01's kinds that uses nothing of document 02, in the form that the changes in force give it.
pub fn plain(kind: &str, seed: u64) -> Vec<u8> {
    let bytes = gen::sheet(kind, seed).expect("a kind of document 01's");
    let read = naive::read(Rules::BASE.changes(), &bytes).expect("an accepted sheet");
    naive::write(RULES.changes(), &read)
}

/// The lines of the gate board, with workspace and output enough: last goal, carrier, task and finish of each task of a plan. Their
/// number comes from the task list, since a line may be all zeros.
pub fn gate_lines(bytes: &[u8]) -> Vec<[u16; 4]> {
    let words = sheet::read_sheet(RULES, bytes).map_or(0, |sheet| sheet.workspace_words());
    let board = board::gate_board(RULES, bytes, &mut vec![0; words], &mut [0; program::OUTPUT]);
    let filled = board.answer.tasks.iter().filter(|&&task| task != 255).count();
    let lines = board.lines.iter().take(filled);
    lines.map(|line| [line.last_goal, line.carrier, line.task, line.finish]).collect()
}
