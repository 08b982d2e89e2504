//! Runs the program.

#![allow(dead_code)]

use std::io::Write;
use std::path::PathBuf;
use std::process::{Command, Stdio};

pub struct Ran {
    pub status: i32,
    pub out: Vec<u8>,
    pub error: String,
}

impl Ran {
    pub fn printed(&self) -> String {
        String::from_utf8_lossy(&self.out).into_owned()
    }
}

/// Runs `deckplan` with this on its standard input.
pub fn deckplan(arguments: &[&str], input: &[u8]) -> Ran {
    let mut child = Command::new(env!("CARGO_BIN_EXE_deckplan"))
        .args(arguments)
        .stdin(Stdio::piped())
        .stdout(Stdio::piped())
        .stderr(Stdio::piped())
        .spawn()
        .expect("it starts");
    // It may end without reading.
    let _ = child.stdin.take().map(|mut stdin| stdin.write_all(input));
    let done = child.wait_with_output().expect("it ends");
    Ran {
        status: done.status.code().expect("no signal"),
        out: done.stdout,
        error: String::from_utf8_lossy(&done.stderr).into_owned(),
    }
}

/// A file in the tests' folder.
pub fn file(name: &str, bytes: &[u8]) -> String {
    let path = PathBuf::from(env!("CARGO_TARGET_TMPDIR")).join(name);
    std::fs::write(&path, bytes).expect("the tests' folder can be written");
    path.to_str().expect("a plain name").to_string()
}
