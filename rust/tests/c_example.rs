//! The example in C: it compiles without a warning, and prints what the other author's listing program prints, then the other
//! author's gate board.

use std::io::Write;
use std::path::{Path, PathBuf};
use std::process::{Command, Stdio};

use other::program::deckround;
use other::{gate_lines, generated, kinds, PLENTY, RULES};

fn top() -> PathBuf {
    Path::new(env!("CARGO_MANIFEST_DIR")).join("..")
}

/// Compiles the example, with these arguments more.
fn compile(program: &Path, more: &[&str]) {
    let archives =
        std::env::var_os("PLANNER_LIB_DIR").map_or_else(|| top().join("target/staticlib"), PathBuf::from);
    let done = Command::new(std::env::var("CC").unwrap_or_else(|_| "cc".into()))
        .args(more)
        .args(["-std=c99", "-O2", "-Wall", "-Wextra", "-pedantic", "-Werror", "-I"])
        .arg(top().join("include"))
        .arg(top().join("examples/c/round.c"))
        .arg(archives.join("libplanner.a"))
        .arg("-o")
        .arg(program)
        .output()
        .expect("a C compiler");
    assert!(done.status.success(), "{}", String::from_utf8_lossy(&done.stderr));
}

fn run(program: &Path, sheet: &[u8]) -> (Option<i32>, String) {
    let mut child =
        Command::new(program).stdin(Stdio::piped()).stdout(Stdio::piped()).spawn().expect("it starts");
    // A refused sheet may be left unread.
    let _ = child.stdin.take().map(|mut input| input.write_all(sheet));
    let done = child.wait_with_output().expect("it ends");
    (done.status.code(), String::from_utf8_lossy(&done.stdout).into_owned())
}

/// A file in the tests' folder.
fn file(name: &str) -> PathBuf {
    Path::new(env!("CARGO_TARGET_TMPDIR")).join(name)
}

#[test]
fn prints_the_listing_and_the_board() {
    let program = file("round");
    compile(&program, &[]);
    for kind in kinds() {
        let seeds = if matches!(kind, "max" | "full") { 1 } else { 15 };
        for seed in 0..seeds {
            let sheet = generated(kind, seed);
            let board = gate_lines(&sheet).into_iter().map(|[gate, carrier, task, finish]| {
                format!("gate {gate} carrier {carrier} task {task} finish {finish}\n")
            });
            let expected = deckround(RULES, &sheet, PLENTY) + &board.collect::<String>();
            let status =
                ["plan", "none", "spent", "refused"].iter().position(|kind| expected.starts_with(kind));
            let (code, printed) = run(&program, &sheet);
            assert_eq!(printed, expected, "{kind} {seed}");
            assert_eq!(code, status.map(|status| status as i32), "{kind} {seed}");
        }
    }
    let (code, printed) = run(&program, &[1; 2000]);
    assert_eq!((code, printed.as_str()), (Some(3), "refused 2\n"));
}

/// What C allows and most machines do not show: malloc(0) is a null pointer, and past the bytes that were read anything stands.
const HARSH: &str = "#include <stdio.h>
#include <stdlib.h>
#include <string.h>
static void *harsh_malloc(size_t bytes) { return bytes == 0 ? NULL : malloc(bytes); }
static size_t harsh_fread(void *to, size_t size, size_t count, FILE *from)
{
    memset(to, 12, size * count);
    return fread(to, size, count, from);
}
#define malloc harsh_malloc
#define fread harsh_fread
";

#[test]
fn a_dark_house() {
    let (program, harsh) = (file("dark"), file("harsh.h"));
    std::fs::write(&harsh, HARSH).expect("the tests' folder can be written");
    for more in [&[][..], &["-include", harsh.to_str().expect("a plain name")]] {
        compile(&program, more);
        assert_eq!(run(&program, &[]), (Some(0), "plan 0 nodes 0\n".to_string()), "{more:?}");
        assert_eq!(run(&program, &[0]), (Some(3), "refused 1\n".to_string()), "{more:?}");
    }
}
