//! Checks the reference's report alone: stored inputs by their output, these and generated ones by a count from the events.
//! Usage: selfcheck_report REPORTS_DIR [COUNT] [SEED]

use reference::suite::{selfcheck, REPORT};
use std::process::ExitCode;

const DEFAULT_COUNT: u64 = 300;

fn main() -> ExitCode {
    selfcheck(&REPORT, DEFAULT_COUNT)
}
