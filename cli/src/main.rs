//! `deckplan`: writes, plans, checks and shows carrier rounds.

mod claim;
mod floor;
mod json;
mod options;
mod page;
mod picture;
mod progress;
mod report;
mod text;

use std::fs;
use std::io::{self, IsTerminal, Read, Write};
use std::process::ExitCode;

use carrier_planner::{Answer, Cause, Planner, Refusal, Sheet};

use options::{Command, Form, Options};
use page::Shown;

/// Exit statuses, as `--help` lists them.
const NO: u8 = 1;
const SPENT: u8 = 2;
const REFUSED: u8 = 3;
const TROUBLE: u8 = 4;

/// An end without result: the status, and what is said on standard error.
struct Stop(u8, String);

fn main() -> ExitCode {
    let arguments: Vec<String> =
        std::env::args_os().skip(1).map(|argument| argument.to_string_lossy().into_owned()).collect();
    let done =
        Options::read(&arguments).map_err(|problem| Stop(TROUBLE, problem)).and_then(|options| run(&options));
    let status = done.unwrap_or_else(|Stop(status, message)| {
        eprintln!("deckplan: {message}");
        status
    });
    ExitCode::from(status)
}

fn run(options: &Options) -> Result<u8, Stop> {
    match options.command {
        Command::Help => say(options, options::HELP.as_bytes()).map(|()| 0),
        Command::Version => {
            say(options, concat!("deckplan ", env!("CARGO_PKG_VERSION"), "\n").as_bytes()).map(|()| 0)
        }
        Command::Sheet => write_sheet(options),
        Command::Text => write_text(options),
        Command::Explain => explain(options),
        Command::Plan => plan(options),
        Command::Board => board(options),
        Command::Check => check(options),
        Command::View => show(options, page::page),
        Command::Picture => show(options, picture::picture),
    }
}

/// Writes to the file of `-o`, or to standard output. A reader that has gone away is no error.
fn say(options: &Options, bytes: &[u8]) -> Result<(), Stop> {
    let written = match &options.output {
        Some(path) => fs::write(path, bytes).map_err(|error| format!("{path}: {error}")),
        None => {
            let mut out = io::stdout().lock();
            match out.write_all(bytes).and_then(|()| out.flush()) {
                Err(error) if error.kind() != io::ErrorKind::BrokenPipe => {
                    Err(format!("standard output: {error}"))
                }
                _ => Ok(()),
            }
        }
    };
    written.map_err(|message| Stop(TROUBLE, message))
}

fn load(path: &str) -> Result<Vec<u8>, Stop> {
    let mut bytes = Vec::new();
    let read = match path {
        "-" => io::stdin().lock().read_to_end(&mut bytes).map(|_| ()),
        path => fs::read(path).map(|read| bytes = read),
    };
    read.map(|()| bytes).map_err(|error| Stop(TROUBLE, format!("{}: {error}", named(path))))
}

fn named(path: &str) -> &str {
    if path == "-" {
        "standard input"
    } else {
        path
    }
}

/// A text is not empty, and has no control characters but tabs and line ends; an accepted sheet is empty, or has zero bytes.
fn is_text(bytes: &[u8]) -> bool {
    let plain = |c: char| !c.is_control() || matches!(c, '\n' | '\r' | '\t');
    !bytes.is_empty() && std::str::from_utf8(bytes).is_ok_and(|text| text.chars().all(plain))
}

/// The sheet of the first file, which may be a sheet or a text; of a refused sheet also its bytes.
fn sheet(options: &Options) -> Result<Result<Sheet, (Refusal, Vec<u8>)>, Stop> {
    let path = options.file(0);
    let bytes = load(path)?;
    let as_text = match options.form {
        Form::Guess => is_text(&bytes),
        Form::Text => true,
        Form::Sheet => false,
    };
    if bytes.is_empty() && !as_text && !options.quiet {
        // It may be empty by mistake.
        let said = "it has no bytes and is taken as a dark house, a round without carriers";
        let _ = writeln!(io::stderr(), "deckplan: {}: {said}", named(path));
    }
    let sheet = if as_text {
        let text = String::from_utf8_lossy(&bytes);
        let text = text.strip_prefix('\u{feff}').unwrap_or(&text);
        text::sheet_of_text(text).map_err(|error| Stop(REFUSED, format!("{}: {error}", named(path))))?
    } else {
        match Sheet::new(bytes.as_slice()) {
            Ok(sheet) => sheet,
            Err(refusal) => return Ok(Err((refusal, bytes))),
        }
    };
    match options.nodes {
        Some(nodes) => {
            let raised = sheet.with_node_limit(nodes);
            raised.map(Ok).map_err(|refusal| Stop(TROUBLE, format!("--nodes {nodes}: {refusal}")))
        }
        None => Ok(Ok(sheet)),
    }
}

/// The sheet, or a stop that says why it is refused.
fn accepted(options: &Options) -> Result<Sheet, Stop> {
    sheet(options)?.map_err(|(refusal, _)| {
        Stop(REFUSED, format!("{}: the sheet is refused, {refusal}", named(options.file(0))))
    })
}

fn write_sheet(options: &Options) -> Result<u8, Stop> {
    let sheet = accepted(options)?;
    if options.output.is_none() && io::stdout().is_terminal() {
        return Err(Stop(TROUBLE, "a sheet is bytes, not text: name a file with -o".to_string()));
    }
    say(options, sheet.bytes()).map(|()| 0)
}

fn write_text(options: &Options) -> Result<u8, Stop> {
    say(options, text::text_of_sheet(&accepted(options)?).as_bytes()).map(|()| 0)
}

fn explain(options: &Options) -> Result<u8, Stop> {
    match sheet(options)? {
        Ok(sheet) => {
            let printed = if options.json { report::summary_json(&sheet) } else { report::summary(&sheet) };
            say(options, printed.as_bytes()).map(|()| 0)
        }
        Err((refusal, _)) => {
            let printed =
                if options.json { report::refusal_json(&refusal) } else { format!("refused: {refusal}\n") };
            say(options, printed.as_bytes()).map(|()| REFUSED)
        }
    }
}

/// Runs a call that searches, and says so if it takes long.
fn search<T>(
    options: &Options,
    sheet: &Sheet,
    call: impl FnOnce(&mut Planner<'static>, &Sheet) -> Result<T, Cause>,
) -> Result<T, Stop> {
    let what = format!("searching, at most {} nodes", sheet.node_limit());
    progress::with_progress(options.quiet, &what, || call(&mut Planner::new(), sheet))
        .map_err(|cause| Stop(TROUBLE, cause.to_string()))
}

fn status(answer: &Answer) -> u8 {
    match answer {
        Answer::Plan { .. } => 0,
        Answer::NoPlan { .. } => NO,
        Answer::Spent { .. } => SPENT,
    }
}

/// The sheet; `None` of a refused one, whose cause is then printed in place of an answer.
fn sheet_or_cause(options: &Options) -> Result<Option<Sheet>, Stop> {
    let refusal = match sheet(options)? {
        Ok(sheet) => return Ok(Some(sheet)),
        Err((refusal, _)) => refusal,
    };
    let printed = if options.json {
        report::refusal_json(&refusal)
    } else {
        eprintln!("deckplan: {}: {refusal}", named(options.file(0)));
        format!("refused {}\n", refusal.cause.number())
    };
    say(options, printed.as_bytes()).map(|()| None)
}

fn plan(options: &Options) -> Result<u8, Stop> {
    let Some(sheet) = sheet_or_cause(options)? else { return Ok(REFUSED) };
    let answer = search(options, &sheet, Planner::search)?;
    let printed = if options.json { report::answer_json(&sheet, &answer) } else { answer.to_string() };
    say(options, printed.as_bytes()).map(|()| status(&answer))
}

fn board(options: &Options) -> Result<u8, Stop> {
    let Some(sheet) = sheet_or_cause(options)? else { return Ok(REFUSED) };
    let board = search(options, &sheet, Planner::gate_board)?;
    let printed = if options.json { report::board_json(&sheet, &board) } else { board.to_string() };
    say(options, printed.as_bytes()).map(|()| status(board.answer()))
}

fn check(options: &Options) -> Result<u8, Stop> {
    let sheet = accepted(options)?;
    let path = options.file(1);
    let bytes = load(path)?;
    let claim = claim::read(&String::from_utf8_lossy(&bytes))
        .map_err(|error| Stop(REFUSED, format!("{}: {error}", named(path))))?;
    let (status, printed) = match (claim.check(&sheet), options.json) {
        (Ok(plan), false) => (0, format!("yes, a plan of flowtime {}\n", plan.flowtime())),
        (Ok(plan), true) => (0, format!("{{\"plan\":true,\"flowtime\":{}}}\n", plan.flowtime())),
        (Err(reason), false) => (NO, format!("no: {reason}\n")),
        (Err(reason), true) => (NO, format!("{{\"plan\":false,\"reason\":{}}}\n", json::quoted(&reason))),
    };
    say(options, printed.as_bytes()).map(|()| status)
}

/// A page or a picture. A refused sheet has one too, with the cause in words.
fn show(options: &Options, draw: fn(&str, &Shown) -> String) -> Result<u8, Stop> {
    let path = options.file(0);
    let name = if path == "-" { "Job sheet" } else { path.rsplit('/').next().unwrap_or(path) };
    match sheet(options)? {
        Ok(sheet) => {
            let board = search(options, &sheet, Planner::gate_board)?;
            let drawn = draw(name, &Shown::Answered(&sheet, &board));
            say(options, drawn.as_bytes()).map(|()| status(board.answer()))
        }
        Err((refusal, bytes)) => {
            say(options, draw(name, &Shown::Refused(&refusal, &bytes)).as_bytes()).map(|()| REFUSED)
        }
    }
}
