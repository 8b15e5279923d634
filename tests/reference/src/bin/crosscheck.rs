//! Holds a replay program against the reference, on stored and on generated schedules.
//! Usage: crosscheck PROGRAM SCHEDULES_DIR [COUNT] [SEED]

use reference::suite::{crosscheck, REPLAY};
use std::process::ExitCode;

const DEFAULT_COUNT: u64 = 2_000;

fn main() -> ExitCode {
    crosscheck(&REPLAY, DEFAULT_COUNT)
}
