//! Holds a report program against the reference, on stored and on generated inputs.
//! Usage: crosscheck_report PROGRAM REPORTS_DIR [COUNT] [SEED]

use reference::suite::{crosscheck, REPORT};
use std::process::ExitCode;

const DEFAULT_COUNT: u64 = 300;

fn main() -> ExitCode {
    crosscheck(&REPORT, DEFAULT_COUNT)
}
