//! `plan`, `board`, `check` and `explain` beside the other author's planner, and the command line.

mod common;

use common::{deckplan, file};
use other::gen::Rng;
use other::program::deckround;
use other::{gate_lines, generated, kinds, PLENTY, RULES};

#[test]
fn listings_json_and_checks_of_all_kinds() {
    for kind in kinds() {
        let seeds = if matches!(kind, "max" | "full") { 1 } else { 12 };
        for seed in 0..seeds {
            let name = format!("{kind} {seed}");
            let bytes = generated(kind, seed);
            let expected = deckround(RULES, &bytes, PLENTY);
            let ran = deckplan(&["plan", "--as-sheet"], &bytes);
            assert_eq!(ran.printed(), expected, "{name}");
            let kinds = ["plan", "none", "spent", "refused"];
            let status = kinds.iter().position(|kind| expected.starts_with(kind)).expect("a kind");
            assert_eq!(ran.status, status as i32, "{name}");
            let json = deckplan(&["plan", "--json", "--as-sheet", "-q"], &bytes);
            assert_eq!(json.status, ran.status, "{name}");
            assert!(json.printed().starts_with(&format!("{{\"kind\":\"{}\"", kinds[status])), "{name}");
            let explained = deckplan(&["explain", "--as-sheet"], &bytes);
            if status == 3 {
                assert!(ran.error.contains("cause "), "{name}: {}", ran.error);
                assert_eq!(explained.status, 3, "{name}");
                assert!(explained.printed().starts_with("refused: cause "), "{name}");
                continue;
            }
            let what = if bytes.is_empty() { "accepted: a dark house, " } else { "accepted: a floor of " };
            assert!(explained.printed().starts_with(what), "{name}");
            if status == 0 {
                let sheet = file(&format!("{kind}-{seed}.sheet"), &bytes);
                let flowtime = expected.split_whitespace().nth(1).expect("a flowtime");
                for plan in [&ran.out, &json.out] {
                    let checked = deckplan(&["check", &sheet], plan);
                    assert_eq!(checked.printed(), format!("yes, a plan of flowtime {flowtime}\n"), "{name}");
                    assert_eq!(checked.status, 0, "{name}");
                }
            }
        }
    }
}

#[test]
fn boards_of_all_kinds() {
    for kind in kinds() {
        let seeds = if matches!(kind, "max" | "full") { 1 } else { 12 };
        for seed in 0..seeds {
            let name = format!("{kind} {seed}");
            let bytes = generated(kind, seed);
            let [plan, board] = ["plan", "board"].map(|name| deckplan(&[name, "-q", "--as-sheet"], &bytes));
            // What a refused sheet is told, and the status, are those of `plan`.
            assert_eq!((board.status, &board.error), (plan.status, &plan.error), "{name}");
            let listing = deckround(RULES, &bytes, PLENTY);
            let head = listing.lines().next().expect("a first line");
            let lines = gate_lines(&bytes);
            let text: String = lines.iter().map(|line| format!("{}\n", line_text(line))).collect();
            assert_eq!(board.printed(), format!("{head}\n{text}"), "{name}");
            let json = deckplan(&["board", "--json", "--as-sheet"], &bytes);
            assert_eq!(json.status, plan.status, "{name}");
            let plan_json = deckplan(&["plan", "--json", "--as-sheet"], &bytes).printed();
            let expected = match plan.status {
                3 => plan_json,
                _ => plan_json.replace("}\n", &format!(",\"lines\":[{}]}}\n", lines_json(&lines))),
            };
            assert_eq!(json.printed(), expected, "{name}");
        }
    }
}

fn line_text([gate, carrier, task, finish]: &[u16; 4]) -> String {
    format!("gate {gate} carrier {carrier} task {task} finish {finish}")
}

fn lines_json(lines: &[[u16; 4]]) -> String {
    let lines = lines.iter().map(|[gate, carrier, task, finish]| {
        format!("{{\"gate\":{gate},\"carrier\":{carrier},\"task\":{task},\"finish\":{finish}}}")
    });
    lines.collect::<Vec<_>>().join(",")
}

#[test]
fn boards() {
    let text = SHEET.as_bytes();
    let printed = "plan 4 nodes 18\ngate 0 carrier 1 task 0 finish 1\ngate 1 carrier 0 task 1 finish 3\n";
    let board = deckplan(&["board"], text);
    assert_eq!((board.status, board.printed().as_str(), board.error.as_str()), (0, printed, ""));
    // One carrier on its gate: a line of zeros is a line.
    let there = deckplan(&["board"], b"horizon 0\nfloor\nA\n\ntask a: A\n");
    assert_eq!(there.printed(), "plan 0 nodes 1\ngate 0 carrier 0 task 0 finish 0\n");
    let spent = deckplan(&["board", "--nodes", "17", "-q"], text);
    assert_eq!((spent.status, spent.printed().as_str()), (2, "spent 4 nodes 17\n"));
    let spent = deckplan(&["board", "--nodes=17", "--json"], text);
    let empty =
        "{\"kind\":\"spent\",\"nodes\":17,\"bound\":4,\"width\":2,\"height\":2,\"horizon\":3,\"lines\":[]}\n";
    assert_eq!((spent.status, spent.printed().as_str()), (2, empty));
    let none = deckplan(&["board"], b"horizon 0\nfloor\nAa\n");
    assert_eq!((none.status, none.printed().as_str()), (1, "none nodes 0\n"));
    let refused = deckplan(&["board"], &[0; 7]);
    assert_eq!((refused.status, refused.printed().as_str()), (3, "refused 1\n"));
    assert!(refused.error.contains("standard input: cause 1: one to seven bytes"), "{}", refused.error);
    let path = file("board.txt", b"");
    assert_eq!(deckplan(&["board", "-o", &path], text).out, b"");
    assert_eq!(std::fs::read_to_string(&path).expect("written"), printed);
    // The JSON has the plan too, and so can be checked; the text has no paths.
    let sheet = file("round6c.txt", text);
    let json = deckplan(&["board", "--json"], text);
    let lines = "\"lines\":[{\"gate\":0,\"carrier\":1,\"task\":0,\"finish\":1},{\"gate\":1,\"carrier\":0,\"task\":1,\"finish\":3}]}\n";
    assert!(json.printed().ends_with(lines), "{}", json.printed());
    assert_eq!(deckplan(&["check", &sheet, "-"], &json.out).printed(), "yes, a plan of flowtime 4\n");
    assert_eq!(deckplan(&["check", &sheet, &path], b"").status, 3);
    assert!(deckplan(&["--help"], b"").printed().contains("\n  deckplan board FILE "));
}

const SHEET: &str = "horizon 3\nnodes 18\n\nfloor\nAB\n..\n\ntask a: B A\ntask b: A B\n";
const PLAN: &str =
    "plan 4 nodes 18\ncarrier 0 task 1 finish 3: 0 2 3 1\ncarrier 1 task 0 finish 1: 1 0 0 0\n";

#[test]
fn checks_say_why() {
    let sheet = file("round6.txt", SHEET.as_bytes());
    let no = |old: &str, new: &str, expected: &str| {
        let changed = PLAN.replace(old, new);
        assert_ne!(changed, PLAN, "{old}");
        let ran = deckplan(&["check", &sheet, "-"], changed.as_bytes());
        assert_eq!((ran.status, ran.printed()), (1, format!("no: {expected}\n")), "{old}");
        let json = deckplan(&["check", "--json", &sheet, "-"], changed.as_bytes());
        assert!(json.printed().starts_with("{\"plan\":false,\"reason\":\""));
    };
    assert_eq!(deckplan(&["check", &sheet], PLAN.as_bytes()).printed(), "yes, a plan of flowtime 4\n");
    let json = deckplan(&["check", &sheet, "--json"], PLAN.as_bytes());
    assert_eq!(json.printed(), "{\"plan\":true,\"flowtime\":4}\n");
    no("plan 4", "plan 5", "it says flowtime 5; it is a plan of flowtime 4");
    no("finish 3", "finish 2", "it says that carrier 0 finishes at 2; it does at 3");
    no("task 1", "task 0", "carrier 0 and carrier 1 both have task 0");
    no("task 1", "task 7", "carrier 0 has task 7, which the sheet has not");
    no(": 0 2", ": 2 2", "carrier 0 begins on place 2; its start is 0");
    no(
        "2 3 1",
        "3 3 1",
        "carrier 0 goes from place 0 to 3 between times 0 and 1; they are not beside each other",
    );
    no("2 3 1", "2 9 1", "carrier 0 is on place 9 at time 2, which is blocked or off the floor");
    no("2 3 1", "2 3 3", "carrier 0 does not reach goal 1 of task 1 (place 1) in its turn");
    no("2 3 1", "1 3 1", "carrier 0 and carrier 1 change places 0 and 1 between times 0 and 1");
    no("2 3 1", "2 3 1 1", "the path of carrier 0 has 5 places; with this horizon it has 4");
    no("carrier 1 task 0 finish 1: 1 0 0 0\n", "", "it has 1 carrier, the sheet has 2");
    no(&PLAN["plan 4 nodes 18\n".len()..], "", "it has 0 carriers, the sheet has 2");
}

#[test]
fn faulty_plan_files() {
    let sheet = file("round6b.txt", SHEET.as_bytes());
    let cases = [
        ("", "line 1: there is no line `plan F nodes N` and no carrier's line"),
        ("none nodes 6\n", "line 1: `none nodes 6`: this is no plan"),
        ("plan 4 nodes 18\ncarrier 0\n", "line 2: a line is `plan F nodes N` or"),
        ("carrier 0 task 1 finish x: 0\n", "line 1: `x` is no number"),
        ("carrier 0 task 1 finish 0: 70000\n", "line 1: 70000 is no place"),
        (
            "carrier 0 task 1 finish 0: 0\n\ncarrier 0 task 1 finish 0: 0\n",
            "line 3: carrier 0 is there twice",
        ),
        ("carrier 5 task 1 finish 0: 0\n", "line 1: carrier 5, but there are 1 carriers"),
        ("{\n\"carriers\": [\n}", "line 3: a JSON value is missing"),
        ("{\"kind\":\"none\"}", "kind `none`: this is no plan"),
        ("{}", "the JSON object has no list `carriers`"),
        ("{\"carriers\":[{}]}", "entry 0 of `carriers` has no list `path`"),
        ("{\"carriers\":[{\"task\":0,\"path\":[0.5]}]}", "has something else than places"),
        ("{\"a\":1} x", "line 1: something follows the JSON value"),
    ];
    for (plan, expected) in cases {
        let ran = deckplan(&["check", &sheet, "-"], plan.as_bytes());
        assert_eq!(ran.status, 3, "{plan}");
        assert!(ran.error.contains(expected), "{plan}: {} for {expected}", ran.error);
    }
    let deep = format!("{{\"carriers\":{}", "[".repeat(100_000));
    assert_eq!(deckplan(&["check", &sheet, "-"], deep.as_bytes()).status, 3);
    let mut rng = Rng::new(30);
    let pieces = [
        "{",
        "}",
        "[",
        "]",
        "\"carriers\"",
        ":",
        ",",
        "1",
        "-1",
        "1e400",
        "\"\\u12",
        "\"",
        "null",
        "\\",
        "é",
        "path",
    ];
    for _ in 0..800 {
        let text: String = (0..rng.range(1, 20)).map(|_| rng.pick(&pieces)).collect();
        let ran = deckplan(&["check", &sheet, "-"], format!("{{{text}").as_bytes());
        assert_eq!(ran.status, 3, "{text}: {}", ran.printed());
    }
}

#[test]
fn command_line() {
    assert_eq!(deckplan(&["--help"], b"").status, 0);
    assert_eq!(deckplan(&["help"], b"").out, deckplan(&["-h"], b"").out);
    assert!(deckplan(&["--version"], b"").printed().starts_with("deckplan "));
    let text = SHEET.as_bytes();
    assert_eq!(deckplan(&["plan", "--nodes", "17"], text).printed(), "spent 4 nodes 17\n");
    assert_eq!(deckplan(&["plan", "--nodes=17", "-"], text).status, 2);
    let trouble: [(&[&str], &str); 12] = [
        (&[], "no command"),
        (&["plam"], "there is no command `plam`"),
        (&["plan", "--fast"], "there is no option --fast"),
        (&["plan", "--json=yes"], "there is no option --json with a value"),
        (&["plan", "--nodes", "0"], "--nodes wants a number from 1 to 4096"),
        (&["plan", "--nodes"], "--nodes wants a value"),
        (&["plan", "a", "b"], "`b` is one file too many"),
        (&["plan", "/no/such/file"], "/no/such/file: "),
        (&["check"], "check wants two files"),
        (&["check", "-", "-"], "cannot both come from standard input"),
        (&["plan", "-o", "/no/such/folder/x"], "/no/such/folder/x: "),
        (&["plan", "--", "--json"], "--json: "),
    ];
    for (arguments, expected) in trouble {
        let ran = deckplan(arguments, text);
        assert_eq!(ran.status, 4, "{arguments:?}");
        assert!(ran.error.contains(expected), "{arguments:?}: {}", ran.error);
    }
    let path = file("out.txt", b"");
    assert_eq!(deckplan(&["plan", "-o", &path], text).out, b"");
    assert_eq!(std::fs::read_to_string(&path).expect("written"), PLAN);
}

#[test]
fn damaged_sheets_are_explained() {
    let sheet = deckplan(&["sheet"], SHEET.as_bytes()).out;
    let cases: [(usize, u8, &str); 8] = [
        (0, 33, "cause 2: header byte outside its range: byte 0, the width, is 33; it must be 1 to 32"),
        (5, 17, "byte 4, the node limit, is 4370; it must be 1 to 4096"),
        (12, 29, "byte 12, the offset of pair 1 (the starts), is 29; it must be 28"),
        (18, 5, "byte 18, the length of pair 2 (task 0), is 5; it must be even, 2 to 16"),
        (25, 6, "byte 25, place 1 (column 1, row 0), is 6; it must be 0 to 5"),
        (30, 0, "byte 30, the start of carrier 1: carrier 0 starts on place 0 (column 0, row 0) too"),
        (36, 9, "byte 36, goal 0 of task 1: place 9 is off the grid, which has 4 places"),
        (38, 0, "byte 38, the last goal of task 1: task 0 ends on place 0 (column 0, row 0) too"),
    ];
    for (byte, value, expected) in cases {
        let mut changed = sheet.clone();
        changed[byte] = value;
        let ran = deckplan(&["explain"], &changed);
        assert!(ran.printed().contains(expected), "{}", ran.printed());
        let json = deckplan(&["explain", "--json"], &changed).printed();
        assert!(json.starts_with("{\"kind\":\"refused\",\"cause\":"), "{json}");
    }
    let json = "{\"kind\":\"accepted\",\"width\":2,\"height\":2,\"horizon\":3,\"node_limit\":18,\"workspace\":13360,\
                \"blocked\":[],\"lanes\":[],\"starts\":[0,1],\"tasks\":[[1,0],[0,1]]}\n";
    assert_eq!(deckplan(&["explain", "--json"], &sheet).printed(), json);
    let cut = deckplan(&["explain"], &sheet[..30]);
    assert!(cut.printed().contains("the last pair ends at byte 40, but the sheet has 30 bytes"));
}

#[test]
fn lanes_in_words_and_json() {
    let text = b"horizon 4\nfloor\nA\xe2\x86\x92a\n...\n\nlane south: A\n";
    let said = deckplan(&["explain", "--as-text"], text).printed();
    assert!(said.contains("0 of its 6 places blocked, 2 lanes;"), "{said}");
    let json = deckplan(&["explain", "--json", "--as-text"], text).printed();
    let lanes = "\"lanes\":[{\"place\":0,\"leads\":\"south\"},{\"place\":1,\"leads\":\"east\"}]";
    assert!(json.contains(lanes), "{json}");
    let sheet = file("lanes.txt", text);
    let plan = deckplan(&["plan", &sheet], b"").printed();
    assert_eq!(plan, "plan 4 nodes 1\ncarrier 0 task 0 finish 4: 0 3 4 1 2\n");
    let wrong = deckplan(&["check", &sheet], b"plan 2 nodes 1\ncarrier 0 task 0 finish 2: 0 1 2 2 2\n");
    assert_eq!(
        (wrong.status, wrong.printed().as_str()),
        (1, "no: carrier 0 goes from place 0 to 1 between times 0 and 1; place 0 is a lane that may be left only to the south\n")
    );
}
