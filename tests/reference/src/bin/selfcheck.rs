//! Checks the reference alone: stored schedules by their output, these and generated ones by demand 3.
//! Usage: selfcheck SCHEDULES_DIR [COUNT] [SEED]

use reference::suite::{selfcheck, REPLAY};
use std::process::ExitCode;

const DEFAULT_COUNT: u64 = 5_000;

fn main() -> ExitCode {
    selfcheck(&REPLAY, DEFAULT_COUNT)
}
