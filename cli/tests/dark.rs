//! The dark house: a file of no bytes, and the text `dark`, with every command.

mod common;

use common::{deckplan, file, Ran};

/// What is said on standard error of a file of no bytes.
const SAID: &str = "it has no bytes and is taken as a dark house, a round without carriers\n";

const LISTING: &str = "plan 0 nodes 0\n";

fn answer(ran: &Ran) -> (i32, String, &str) {
    (ran.status, ran.printed(), ran.error.as_str())
}

/// Runs it on the text `dark`, and sees that a file of no bytes gives the same but for what is said, and that `-q` leaves that out.
fn run(arguments: &[&str]) -> (i32, String) {
    let by_text = deckplan(arguments, b"dark\n");
    assert_eq!(by_text.error, "", "{arguments:?}");
    let (status, printed) = (by_text.status, by_text.printed());
    let said = format!("deckplan: standard input: {SAID}");
    assert_eq!(answer(&deckplan(arguments, b"")), (status, printed.clone(), said.as_str()), "{arguments:?}");
    let quiet = [arguments, &["-q"]].concat();
    assert_eq!(answer(&deckplan(&quiet, b"")), (status, printed.clone(), ""), "{quiet:?}");
    (status, printed)
}

#[test]
fn every_command() {
    for command in ["plan", "board"] {
        assert_eq!(run(&[command]), (0, LISTING.to_string()));
        assert_eq!(run(&[command, "--nodes", "7"]), (0, LISTING.to_string()));
    }
    let explained = "accepted: a dark house, a round without carriers; the sheet has no bytes; the empty plan is its only \
                     plan; a search asks for no workspace\n";
    assert_eq!(run(&["explain"]), (0, explained.to_string()));
    assert_eq!(run(&["explain", "--nodes=4096"]), (0, explained.to_string()));
    assert_eq!(run(&["text"]), (0, "dark\n".to_string()));
    assert_eq!(run(&["sheet"]), (0, String::new()));
    assert_eq!(run(&["sheet", "--nodes", "1"]), (0, String::new()));
}

#[test]
fn json() {
    let head = "{\"kind\":\"plan\",\"nodes\":0,\"bound\":0,\"width\":0,\"height\":0,\"horizon\":0,\"flowtime\":0,\"carriers\":[]";
    assert_eq!(run(&["plan", "--json"]), (0, format!("{head}}}\n")));
    assert_eq!(run(&["board", "--json"]), (0, format!("{head},\"lines\":[]}}\n")));
    let accepted =
        "{\"kind\":\"accepted\",\"width\":0,\"height\":0,\"horizon\":0,\"node_limit\":0,\"workspace\":0,\
                    \"blocked\":[],\"lanes\":[],\"starts\":[],\"tasks\":[]}\n";
    assert_eq!(run(&["explain", "--json"]), (0, accepted.to_string()));
}

#[test]
fn files() {
    let (sheet, text) = (file("dark.sheet", b""), file("dark.txt", b"// closed\n\ndark\n"));
    let said = format!("deckplan: {sheet}: {SAID}");
    assert_eq!(answer(&deckplan(&["plan", &sheet], b"")), (0, LISTING.to_string(), said.as_str()));
    assert_eq!(
        answer(&deckplan(&["plan", "--as-sheet", &sheet], b"")),
        (0, LISTING.to_string(), said.as_str())
    );
    assert_eq!(answer(&deckplan(&["plan", &text], b"")), (0, LISTING.to_string(), ""));
    // What stood in the file before is gone.
    let out = file("made.sheet", b"old");
    assert_eq!(answer(&deckplan(&["sheet", &text, "-o", &out], b"")), (0, String::new(), ""));
    assert_eq!(std::fs::read(&out).expect("written"), b"");
    let out = file("made.txt", b"old");
    assert_eq!(deckplan(&["text", "--quiet", &sheet, "-o", &out], b"").status, 0);
    assert_eq!(std::fs::read(&out).expect("written"), b"dark\n");
}

#[test]
fn ways_to_type_it() {
    for text in ["dark", "DARK\r\n", "\n\n  Dark  // no performance\n// closed\n\n", "\u{feff}dark\n"] {
        assert_eq!(answer(&deckplan(&["plan"], text.as_bytes())), (0, LISTING.to_string(), ""), "{text:?}");
    }
    // Four letters in a row of the floor are places by name.
    let row = deckplan(&["plan"], b"horizon 9\nfloor\nA...\ndark\n");
    assert_eq!((row.status, row.error.as_str()), (0, ""));
}

#[test]
fn errors_name_the_line() {
    let alone = "`dark` must be the only line of its text; line";
    let cases = [
        ("dark\nhorizon 3\n", format!("line 1: {alone} 2 is another")),
        ("nodes 3\n\ndark\n", format!("line 3: {alone} 1 is another")),
        ("// closed\nfloor\nA.a\n\nhorizon 3\nDark\n", format!("line 6: {alone} 2 is another")),
        ("dark\n\nfloor\nA.a\n", format!("line 1: {alone} 3 is another")),
        ("dark\ntask a: 0\n", format!("line 1: {alone} 2 is another")),
        ("dark\ncarrier A: 0\n", format!("line 1: {alone} 2 is another")),
        ("dark\nlane north: 0\n", format!("line 1: {alone} 2 is another")),
        ("dark\n\ndark\n", "line 3: a second `dark`; the first is in line 1".to_string()),
        ("dark house\n", "line 1: `house` after `dark`, which is a line by itself".to_string()),
        ("dark\nlight\n", "line 2: `light` is not known here".to_string()),
    ];
    for (text, expected) in cases {
        let ran = deckplan(&["plan"], text.as_bytes());
        assert_eq!((ran.status, ran.out.as_slice()), (3, &b""[..]), "{text:?}");
        assert!(ran.error.contains(&expected), "{text:?}: {} for {expected}", ran.error);
    }
    // Without bytes it is no text, and as a text it has no floor.
    let empty = deckplan(&["plan", "--as-text"], b"");
    assert_eq!((empty.status, empty.out.as_slice()), (3, &b""[..]));
    assert!(
        empty.error.contains("line 1: there is no floor") && empty.error.contains("`dark`"),
        "{}",
        empty.error
    );
    // A line break is a byte, and one byte is no sheet.
    assert_eq!(deckplan(&["plan"], b"\n").status, 3);
    assert_eq!(deckplan(&["plan"], &[0]).printed(), "refused 1\n");
    let one = deckplan(&["explain"], &[0]).printed();
    assert_eq!(one, "refused: cause 1: one to seven bytes: the sheet has 1 byte, its header alone has 8\n");
}

#[test]
fn checks() {
    let (sheet, text) = (file("checked.sheet", b""), file("checked.txt", b"dark\n"));
    let json = deckplan(&["plan", "--json", &text], b"").printed();
    let board = deckplan(&["board", "--json", &text], b"").printed();
    for plan in [LISTING, "\nplan 0 nodes 0\n\n", &json, &board, "{\"carriers\":[]}"] {
        let checked = deckplan(&["check", &text], plan.as_bytes());
        assert_eq!(answer(&checked), (0, "yes, a plan of flowtime 0\n".to_string(), ""), "{plan}");
        let checked = deckplan(&["check", "--json", "-q", &sheet], plan.as_bytes());
        assert_eq!(answer(&checked), (0, "{\"plan\":true,\"flowtime\":0}\n".to_string(), ""), "{plan}");
    }
    let one = "carrier 0 task 0 finish 0: 0\n";
    let two = "plan 2 nodes 1\ncarrier 0 task 0 finish 1: 0 1\ncarrier 1 task 1 finish 1: 1 2\n";
    let json_one = "{\"carriers\":[{\"carrier\":0,\"task\":255,\"path\":[]}]}";
    for (plan, expected) in [
        (one, "it has 1 carrier, the sheet is a dark house and has none"),
        (two, "it has 2 carriers, the sheet is a dark house and has none"),
        (json_one, "it has 1 carrier, the sheet is a dark house and has none"),
        ("plan 3 nodes 0\n", "it says flowtime 3; it is a plan of flowtime 0"),
    ] {
        let checked = deckplan(&["check", &text], plan.as_bytes());
        assert_eq!(answer(&checked), (1, format!("no: {expected}\n"), ""), "{plan}");
        let checked = deckplan(&["check", "--json", &text], plan.as_bytes());
        assert_eq!(checked.printed(), format!("{{\"plan\":false,\"reason\":\"{expected}\"}}\n"), "{plan}");
    }
    // No bytes are a sheet, but no listing.
    let empty = deckplan(&["check", &text], b"");
    assert_eq!((empty.status, empty.out.as_slice()), (3, &b""[..]));
}

#[test]
fn help() {
    let help = deckplan(&["--help"], b"").printed();
    for words in [
        "A FILE of no\nbytes is the sheet of a dark house",
        "The text of a dark house is the one line `dark`.",
    ] {
        assert!(help.contains(words), "{words}");
    }
}
