//! Texts and sheets, there and back, by the program.

mod common;

use common::{deckplan, Ran};
use other::gen::Rng;
use other::sheet::read_sheet;
use other::{generated, kinds, RULES};

/// Round 6 of document 01.
const ROUND: &str = "horizon 3\nnodes 18\n\nfloor\nAB\n..\n\ntask a: B A\ntask b: A B\n";

fn sheet_of(text: &str) -> Ran {
    deckplan(&["sheet", "--as-text"], text.as_bytes())
}

#[test]
fn sheets_of_all_kinds_there_and_back() {
    for kind in kinds() {
        let seeds = if matches!(kind, "max" | "full" | "medium") { 10 } else { 40 };
        for seed in 0..seeds {
            let sheet = generated(kind, seed);
            let text = deckplan(&["text", "--as-sheet", "-q"], &sheet);
            if let Err(cause) = read_sheet(RULES, &sheet) {
                assert_eq!((text.status, text.out.as_slice()), (3, &b""[..]), "{kind} {seed}");
                let said = format!("refused, cause {}:", cause.number());
                assert!(text.error.contains(&said), "{kind} {seed}: {}", text.error);
                continue;
            }
            assert_eq!((text.status, text.error.as_str()), (0, ""), "{kind} {seed}");
            let back = deckplan(&["sheet"], &text.out);
            assert_eq!(back.error, "", "{kind} {seed}:\n{}", text.printed());
            assert_eq!(back.out, sheet, "{kind} {seed}:\n{}", text.printed());
            assert_eq!(deckplan(&["text", "-q"], &back.out).out, text.out, "{kind} {seed}");
        }
    }
}

#[test]
fn round_6() {
    let sheet = sheet_of(ROUND);
    let bytes = [
        2, 2, 2, 3, 18, 0, 0, 0, 24, 0, 4, 0, 28, 0, 4, 0, 32, 0, 4, 0, 36, 0, 4, 0, 0, 0, 0, 0, 0, 0, 1, 0,
        1, 0, 0, 0, 0, 0, 1, 0,
    ];
    assert_eq!((sheet.error.as_str(), sheet.out.as_slice()), ("", &bytes[..]));
    assert_eq!(deckplan(&["text"], &sheet.out).printed(), ROUND);
}

#[test]
fn other_ways_to_type_the_same() {
    let same = [
        "floor\n  A B\n  . .\n\nHorizon 3 // steps\nnodes 18\ntask 0: 1,0 0,0\ntask 1: 0 1\n",
        "nodes 18\r\nhorizon 3\r\ntask b A 1, 0\r\ntask a 1 A\r\ncarrier B: 1,0\r\nfloor\r\n\r\nA.\r\n..\r\n",
        "\u{feff}horizon 3\nnodes 18\ncarrier 0: p\ncarrier 1: q\ntask a: q p\ntask b: p q\nfloor\npq\n..",
    ];
    let expected = sheet_of(ROUND).out;
    for text in same {
        let ran = sheet_of(text);
        assert_eq!((ran.error.as_str(), &ran.out), ("", &expected), "{text}");
    }
}

/// A ring of lanes, with letters on some of them.
const RING: &str = "horizon 9\nnodes 50\n\nfloor\nA→↓\n↑#b\na←B\n\nlane north: a\nlane east: A\nlane south: b\nlane west: B\n";

#[test]
fn lanes_by_signs_and_by_lines() {
    let ran = sheet_of(RING);
    assert_eq!((ran.status, ran.error.as_str()), (0, ""));
    let grid = usize::from(ran.out[8])..usize::from(ran.out[8]) + 9;
    assert_eq!(ran.out[grid], [3, 3, 4, 2, 1, 4, 2, 5, 5]);
    assert_eq!(deckplan(&["text"], &ran.out).printed(), RING);
    // Every lane by a line, in any order, with places typed in every way.
    let lines = "horizon 9\nnodes 50\nlane West 2,2 7\nfloor\nA..\n.#b\na.B\n\nlane south: 2,0 b\nLANE north: 3\nlane EAST: A 1, 0\nlane north: a\n";
    let same = sheet_of(lines);
    assert_eq!((same.error.as_str(), &same.out), ("", &ran.out));
    let twice = sheet_of("horizon 1\nfloor\nA→a\n\nlane east: 1\n");
    assert!(twice.error.contains("line 5: 1 is a lane on the floor already, in line 3"), "{}", twice.error);
}

#[test]
fn errors_name_the_line() {
    let floor = "horizon 3\nfloor\nA.b\n.#B\n\n";
    let heads = [
        ("", "line 1: there is no floor: a line `floor`, then the rows, one line each; or `dark` alone"),
        ("\n// dark\n\n", "line 3: there is no floor"),
        ("horizon 3\nnodes 4\n", "line 2: there is no floor"),
        ("floor\nA\n\ntask a: A", "line 4: there is no horizon"),
        ("horizon 3\nfloor\n", "line 2: the floor has no rows"),
        ("floor\nA.a\nhorizon 5\n", "line 3: `5` in column 7 of the floor"),
        ("horizon 3\nfloor\nA.\n", "line 3: there is 1 carrier, but no task a"),
        ("horizon 256\n", "line 1: `horizon` wants a number from 0 to 255, and has `256`"),
        ("nodes 0\n", "line 1: `nodes` wants a number from 1 to 4096, and has `0`"),
        ("horizon 1\nhorizon 2\n", "line 2: a second `horizon`; the first is in line 1"),
        (
            "horizon 3\nflor\n",
            "line 2: `flor` is not known here; a line begins with floor, horizon, nodes, carrier, task, lane or dark",
        ),
        ("horizon 3\nfloor 4\n", "line 2: `4` after `floor`"),
        ("floor\nA\n\nfloor\n", "line 4: a second floor"),
        ("horizon 3\nfloor\nA.\n.\n", "line 4: this row has 1 places, the first has 2"),
        ("horizon 3\nfloor\nA.\n.?\n", "line 4: `?` in column 1 of the floor"),
        ("horizon 3\nfloor\nA.\nA.\n", "line 4: a second A on the floor; the first is in line 3"),
        (
            "horizon 1\nfloor\n..\n",
            "line 2: there is no carrier: a letter A to L on the floor for each; without carriers a text is `dark` alone",
        ),
        ("horizon 1\nfloor\nB.\n", "line 3: carrier B without carrier A"),
        (
            "horizon 1\nfloor\nA.\n\ncarrier a: 0,0\n",
            "line 5: `carrier` wants a letter A to L or a number 0 to 11",
        ),
        (
            "horizon 1\nfloor\nA.\n\ncarrier A: 0,0\n",
            "line 5: carrier A has a line, and is on the floor in line 3",
        ),
    ];
    for (text, expected) in heads {
        let ran = sheet_of(text);
        assert_eq!(ran.status, 3, "{text}");
        assert!(ran.error.contains(expected), "{text}: {} for {expected}", ran.error);
    }
    let tasks = [
        ("task a: q\n", "line 6: there is no q on the floor"),
        ("task a: 3,0\n", "line 6: 3,0 is off the floor, whose columns are 0 to 2 and rows 0 to 1"),
        ("task a: 6\n", "line 6: 6 is off the floor"),
        ("task a: x1\n", "line 6: `x1` is no place"),
        ("task a:\n", "line 6: this task has 0 goals"),
        ("task a: A A A A A A A A A\n", "line 6: this task has 9 goals"),
        ("task c: A\n", "line 6: task c is one too many: there are 2 carriers"),
        ("task b: A\n", "line 6: there are 2 carriers, but no task a"),
        ("task a: A\ntask a: B\n", "line 7: task 0 has a line already, line 6"),
        ("lane up: A\n", "line 6: `lane` wants north, east, south or west first, and has `up`"),
        ("lane north:\n", "line 6: `lane north` without a place"),
        ("lane north: 3,0\n", "line 6: 3,0 is off the floor"),
        ("lane north: 1,1\n", "line 6: 1,1 is blocked on the floor, in line 4"),
        ("lane north: A\nlane east: 1,0 A\n", "line 7: A is a lane already, by line 6"),
        ("task a: 1,1\n", "line 6: goal 1 of task a is 1,1, which is blocked (cause 6)"),
        ("task a: b\n", "line 3: task b ends on 2,0, as task a does in line 6 (cause 7)"),
        (
            "task a: A\ncarrier C: 1,1\ntask c: B",
            "line 7: carrier C starts on 1,1, which is blocked (cause 5)",
        ),
        (
            "task a: A\ncarrier C: B\ntask c: B",
            "line 7: carrier C starts on 2,1, as carrier B does in line 4 (cause 5)",
        ),
    ];
    for (more, expected) in tasks {
        let ran = sheet_of(&format!("{floor}{more}"));
        assert_eq!(ran.status, 3, "{more}: {}", ran.error);
        assert!(ran.error.contains(expected), "{more}: {} for {expected}", ran.error);
    }
}

/// The lines of an example, without their indent.
fn example(text: &str, first: &str, last: &str) -> String {
    let lines = text.lines().map(str::trim).skip_while(|line| *line != first);
    let mut taken = Vec::new();
    for line in lines {
        taken.push(line);
        if line == last {
            return taken.join("\n");
        }
    }
    panic!("no example from {first} to {last}");
}

#[test]
fn examples_are_planned() {
    let help = deckplan(&["--help"], b"").printed();
    let top = concat!(env!("CARGO_MANIFEST_DIR"), "/..");
    let read = |name: &str| std::fs::read_to_string(format!("{top}/{name}")).expect(name);
    let texts = [
        example(&help, "horizon 12", "task a: p a"),
        example(&read("docs/TEXT.md"), "horizon 12", "task a: p a"),
        read("examples/sheets/crossing.txt"),
        read("examples/sheets/lanes.txt"),
        read("examples/sheets/evening.txt"),
        read("examples/sheets/matinee.txt"),
        read("examples/sheets/dark.txt"),
    ];
    for text in texts {
        let ran = deckplan(&["plan"], text.as_bytes());
        assert_eq!((ran.status, ran.error.as_str()), (0, ""), "{text}");
        assert!(ran.printed().starts_with("plan "), "{text}");
    }
}

#[test]
fn example_sheets_are_those_of_their_texts() {
    for name in ["evening", "matinee", "dark"] {
        let path = format!(concat!(env!("CARGO_MANIFEST_DIR"), "/../examples/sheets/{}"), name);
        let sheet = std::fs::read(format!("{path}.sheet")).expect(name);
        let made = deckplan(&["sheet", &format!("{path}.txt")], b"");
        assert_eq!((made.status, made.out), (0, sheet), "{name}");
    }
}

#[test]
fn no_text_panics() {
    let mut rng = Rng::new(20);
    let pieces = [
        "floor\n",
        "horizon ",
        "nodes ",
        "task ",
        "carrier ",
        "a",
        "A",
        "b:",
        "B: ",
        "0,0",
        "1,",
        ",1",
        "3",
        " ",
        "\n",
        "\n\n",
        "..\n",
        "#.\n",
        "AB\n",
        "ab\n",
        "//",
        "99999999999999999999",
        "é",
        "-1",
        ":",
        "task a: A\n",
        "lane ",
        "north: ",
        "→",
        "↓↑\n",
        "dark",
        "DARK\n",
    ];
    for case in 0..1500 {
        let text: String = (0..rng.range(0, 25)).map(|_| rng.pick(&pieces)).collect();
        let ran = deckplan(&["plan", "--as-text"], text.as_bytes());
        assert!(ran.status <= 3, "case {case}, status {}: {text:?}: {}", ran.status, ran.error);
        assert!(ran.status < 3 || ran.error.contains("line "), "case {case}: {}", ran.error);
    }
}
