//! Says on standard error that a long run goes on; the planner's call itself does not report.

use std::io::{self, IsTerminal, Write};
use std::sync::mpsc::{self, Receiver, RecvTimeoutError};
use std::thread;
use std::time::{Duration, Instant};

/// Runs `work`; after a second, and then as time goes on, a line says how long it has run.
pub fn with_progress<T>(quiet: bool, what: &str, work: impl FnOnce() -> T) -> T {
    if quiet {
        return work();
    }
    thread::scope(|scope| {
        let (done, waits) = mpsc::channel::<()>();
        let over = io::stderr().is_terminal();
        scope.spawn(move || watch(what, &waits, Duration::from_secs(1), over, &mut io::stderr()));
        let result = work();
        drop(done);
        result
    })
}

/// Writes until the other end of the channel is dropped. On a terminal one line is written over with every tick; elsewhere lines
/// come at 1, 2, 4, 8 ticks and so on.
fn watch(what: &str, waits: &Receiver<()>, tick: Duration, over: bool, out: &mut impl Write) {
    let began = Instant::now();
    let (mut next, mut said) = (1u32, false);
    while let Err(RecvTimeoutError::Timeout) =
        waits.recv_timeout(tick.saturating_mul(next).saturating_sub(began.elapsed()))
    {
        let seconds = began.elapsed().as_secs();
        let _ = if over {
            write!(out, "\rdeckplan: {what}, {seconds} s ")
        } else {
            writeln!(out, "deckplan: {what}, {seconds} s")
        };
        let _ = out.flush();
        said = true;
        next = if over { next.saturating_add(1) } else { next.saturating_mul(2) };
    }
    if said && over {
        let _ = writeln!(out);
    }
}

#[cfg(test)]
mod tests {
    use super::*;

    const TICK: Duration = Duration::from_millis(20);

    /// What is written in some twenty ticks. A busy machine may leave the watching thread no time at all, so it is tried again.
    fn written(over: bool) -> String {
        for _ in 0..20 {
            let (done, waits) = mpsc::channel::<()>();
            let watching = thread::spawn(move || {
                let mut out = Vec::new();
                watch("searching", &waits, TICK, over, &mut out);
                out
            });
            thread::sleep(TICK * 20);
            drop(done);
            let out = watching.join().expect("no panic");
            if !out.is_empty() {
                return String::from_utf8(out).expect("text");
            }
        }
        String::new()
    }

    #[test]
    fn a_run_that_is_over_is_not_told() {
        let (done, waits) = mpsc::channel::<()>();
        drop(done);
        let mut out = Vec::new();
        watch("searching", &waits, TICK, false, &mut out);
        watch("searching", &waits, TICK, true, &mut out);
        assert!(out.is_empty());
    }

    #[test]
    fn a_long_run_is_told() {
        let lines = written(false);
        assert!(
            lines.lines().all(|line| line.starts_with("deckplan: searching, ")) && !lines.is_empty(),
            "{lines}"
        );
        let line = written(true);
        assert!(line.starts_with("\rdeckplan: searching, ") && line.ends_with(" s \n"), "{line}");
        assert_eq!(line.matches('\n').count(), 1);
    }
}
