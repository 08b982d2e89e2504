//! What the programs share: the planner's exported calls, inputs for them, and the other planner's answers as numbers.

pub mod inputs;
pub mod theirs;

use std::process::ExitCode;

pub use carrier_planner::calls::*;

/// A sheet's pairs before the tasks': grid, starts, and from change 4 on closures.
pub const BEFORE_TASKS: usize = 2 + other::RULES.closures() as usize;

/// Prints the last line; the exit status is 0 only if nothing failed.
pub fn ended(passed: u64, failed: u64) -> ExitCode {
    println!("{passed} passed, {failed} failed");
    if failed == 0 {
        ExitCode::SUCCESS
    } else {
        ExitCode::FAILURE
    }
}
