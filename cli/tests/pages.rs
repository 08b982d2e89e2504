//! Pages and pictures: complete in themselves, well formed, and with the plan that the search gives.

mod common;

use common::{deckplan, file};
use other::program::deckround;
use other::{gate_lines, generated, kinds, PLENTY, RULES};

/// Elements of HTML without an end.
const EMPTY: [&str; 3] = ["meta", "input", "!DOCTYPE"];

/// Every element is closed, in order. Scripts and styles are passed over.
fn well_formed(name: &str, text: &str) {
    let mut open: Vec<&str> = Vec::new();
    let mut rest = text;
    while let Some(at) = rest.find('<') {
        rest = &rest[at + 1..];
        let end = rest.find('>').unwrap_or_else(|| panic!("{name}: a tag does not end"));
        let tag = &rest[..end];
        assert!(!tag.contains('<'), "{name}: <{tag}");
        assert_eq!(tag.matches('"').count() % 2, 0, "{name}: <{tag}>");
        rest = &rest[end + 1..];
        let word = tag.trim_start_matches('/').split_whitespace().next().unwrap_or_default();
        if tag.starts_with('/') {
            assert_eq!(open.pop(), Some(word), "{name}: </{word}>");
        } else if !tag.ends_with('/') && !EMPTY.contains(&word) {
            open.push(word);
            if word == "script" || word == "style" {
                rest = &rest[rest.find(&format!("</{word}>")).expect("an end")..];
            }
        }
    }
    assert!(open.is_empty(), "{name}: {open:?}");
}

/// Nothing is fetched: the only address is the name of SVG.
fn complete(name: &str, text: &str) {
    let bare = text.replace("xmlns=\"http://www.w3.org/2000/svg\"", "");
    for sign in ["http:", "https:", "src=", "href=", "@import", "url(\"", "url('", "//cdn", "fetch("] {
        assert!(!bare.contains(sign), "{name}: {sign}");
    }
}

/// Text without its tags, a space for each.
fn words(text: &str) -> String {
    let apart = text.split('<').map(|part| part.split_once('>').map_or(part, |(_, after)| after));
    apart.collect::<Vec<_>>().join(" ").split_whitespace().collect::<Vec<_>>().join(" ")
}

/// The rows of a page's gate board, as the words that they show.
fn board_rows(page: &str) -> Vec<String> {
    let (_, after) = page.split_once("<table id=\"board\">").expect("a board");
    let (board, _) = after.split_once("</table>").expect("its end");
    let (head, rows) = board.split_once("<tbody>").expect("rows");
    assert_eq!(words(head), "Gate board Gate Carrier Task Arrival Now");
    rows.split_inclusive("</tr>").map(words).filter(|row| !row.is_empty()).collect()
}

/// The same of the other author's board: gate, carrier, task, finish, and what is to come at time 0.
fn expected_rows(sheet: &[u8]) -> Vec<String> {
    let width = u16::from(sheet[0]);
    let letter = |first: char, number: u16| char::from(first as u8 + number as u8);
    let rows = gate_lines(sheet).into_iter().map(|[gate, carrier, task, finish]| {
        let now = match finish {
            0 => "arrived".to_string(),
            1 => "in 1 step".to_string(),
            _ => format!("in {finish} steps"),
        };
        let (column, row) = (gate % width, gate / width);
        let (owner, job) = (letter('A', carrier), letter('a', task));
        format!("{column},{row} {carrier} {owner} {task} {job} {finish} {now}")
    });
    rows.collect()
}

#[test]
fn the_gate_board_of_round_6() {
    let page = deckplan(&["view", "--as-text"], b"horizon 3\nfloor\nAB\n..\n\ntask a: B A\ntask b: A B\n");
    assert_eq!(board_rows(&page.printed()), ["0,0 1 B 0 a 1 in 1 step", "1,0 0 A 1 b 3 in 3 steps"]);
    let there = deckplan(&["view", "--as-text"], b"horizon 0\nfloor\nA\n\ntask a: A\n").printed();
    assert_eq!(board_rows(&there), ["0,0 0 A 0 a 0 arrived"]);
    assert!(there.contains("data-finish=\"0\" class=\"arrived\">"));
}

#[test]
fn pages_and_pictures_of_all_kinds() {
    for kind in kinds() {
        let seeds = if matches!(kind, "max" | "full") { 1 } else { 6 };
        for seed in 0..seeds {
            let name = format!("{kind} {seed}");
            let bytes = generated(kind, seed);
            let listing = deckround(RULES, &bytes, PLENTY);
            let words: Vec<&str> = listing.split_whitespace().collect();
            let (heading, status) = match words[0] {
                _ if bytes.is_empty() => ("Dark house: no carriers, nothing to drive".to_string(), 0),
                "plan" => (format!("Plan of flowtime {}", words[1]), 0),
                "none" => ("No plan".to_string(), 1),
                "spent" => ("Not decided: the node limit is spent".to_string(), 2),
                _ => (format!("Refused: cause {}", words[1]), 3),
            };
            for command in ["view", "picture"] {
                let ran = deckplan(&[command, "--as-sheet"], &bytes);
                let text = ran.printed();
                assert_eq!(ran.status, status, "{name}");
                assert!(text.contains(&heading), "{name}: no {heading}");
                well_formed(&name, &text);
                complete(&name, &text);
                let carriers = bytes.get(2).filter(|_| status != 3).map_or(0, |&m| usize::from(m));
                assert_eq!(text.matches("class=\"token\"").count(), carriers, "{name}");
                let boards = usize::from(command == "view" && heading.starts_with("Plan"));
                assert_eq!(text.matches("id=\"board\"").count(), boards, "{name}");
                if boards == 0 {
                    continue;
                }
                assert_eq!(board_rows(&text), expected_rows(&bytes), "{name}");
                for line in listing.lines().skip(1) {
                    let (head, path) = line.split_once(": ").expect("a carrier's line");
                    let finish = head.rsplit(' ').next().expect("a finish");
                    let data = format!("{{\"path\":[{}],\"finish\":{finish},", path.replace(' ', ","));
                    assert!(text.contains(&data), "{name}: {line}");
                }
            }
        }
    }
}

#[test]
fn lanes_are_drawn_and_said() {
    let sheet = "horizon 3\nfloor\nA→a\n↑↓←\n\nlane west: a\n";
    for command in ["view", "picture"] {
        let text = deckplan(&[command, "--as-text"], sheet.as_bytes()).printed();
        well_formed(command, &text);
        assert_eq!(text.matches("class=\"lane\"").count(), 5, "{command}");
        // One of them lies under a goal, and has a small head in a corner beside.
        assert_eq!(text.matches("class=\"head\"").count(), 6, "{command}");
        for (place, direction, turn) in
            [("1,0", "east", 90), ("2,0", "west", 270), ("0,1", "north", 0), ("1,1", "south", 180)]
        {
            assert!(
                text.contains(&format!("<title>lane at {place}: left only to the {direction}</title>")),
                "{command}: {place}"
            );
            assert!(
                text.contains(&format!("data-lane=\"{direction}\" transform=\"translate(")),
                "{command}: {direction}"
            );
            assert!(text.contains(&format!("rotate({turn} 16 16)")), "{command}: {turn}");
        }
    }
    let said = "an arrow is a lane";
    for command in ["view", "picture"] {
        assert!(deckplan(&[command, "--as-text"], sheet.as_bytes()).printed().contains(said), "{command}");
        let plain = deckplan(&[command, "--as-text"], b"horizon 3\nfloor\nA.a\n").printed();
        assert!(!plain.contains(said) && !plain.contains("class=\"lane\""), "{command}");
    }
}

/// Words alone: no floor of no places, no table without rows, nothing to press, and no script that would look for them.
#[test]
fn a_dark_house_is_said_in_words() {
    let said = [
        "Dark house: no carriers, nothing to drive",
        "The sheet has no bytes: a day without a performance.",
        "The empty plan, of flowtime 0, is its only plan",
    ];
    for (command, input) in ["view", "picture"].into_iter().flat_map(|name| [(name, ""), (name, "Dark\n")]) {
        let ran = deckplan(&[command, "-q"], input.as_bytes());
        let text = ran.printed();
        assert_eq!((ran.status, ran.error.as_str()), (0, ""), "{command} {input:?}");
        well_formed(command, &text);
        complete(command, &text);
        let shown = words(&text);
        assert!(said.iter().all(|words| shown.contains(words)), "{command} {input:?}: {shown}");
        for part in
            ["<table", "<script", "<input", "<select", "id=\"floor\"", "class=\"ground\"", "NaN", "inf"]
        {
            assert!(!text.contains(part), "{command} {input:?}: {part}");
        }
    }
    let page = deckplan(&["view", "-q"], b"").printed();
    assert!(page.contains("<body class=\"dark\">") && !page.contains("<svg"));
    // The button for the colours is hidden without a script; there is no other.
    assert_eq!((page.matches("<button").count(), page.matches(" hidden>").count()), (1, 1));
}

#[test]
fn names_are_escaped() {
    let text = "horizon 1\nfloor\nAa\n";
    let path = file("a&b\"<i>'.txt", text.as_bytes());
    for command in ["view", "picture"] {
        let printed = deckplan(&[command, &path], b"").printed();
        assert!(printed.contains("a&amp;b&quot;&lt;i&gt;'.txt"), "{command}");
        assert!(!printed.contains("<i>"), "{command}");
        well_formed(command, &printed);
    }
}

#[test]
fn a_refused_sheet_is_said_in_words() {
    let page = deckplan(&["view"], &[33, 2, 2, 3, 18, 0, 0, 0]);
    assert_eq!(page.status, 3);
    let text = page.printed();
    assert!(text.contains("byte 0, the width, is 33; it must be 1 to 32"));
    assert!(text.contains("<td class=\"fault\">33</td>"));
    let picture = deckplan(&["picture"], &[33, 2, 2, 3, 18, 0, 0, 0]).printed();
    assert!(picture.contains("Refused: cause 2"));
}
