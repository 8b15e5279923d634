//! Counts and prints what passed and failed. The very last line is `N passed, M failed`.

use crate::shrink::shrink;
use std::process::ExitCode;

/// Failures printed by name; a wrong program would fill the screen with the rest.
const MAX_NAMED: usize = 40;
/// Failures that a schedule is shrunk for.
const MAX_SHRUNK: usize = 3;
const MAX_SHOWN_LINES: usize = 200;

#[derive(Default)]
pub struct Report {
    passed: usize,
    failed: usize,
    shrunk: usize,
}

impl Report {
    pub fn check(&mut self, name: &str, result: Result<(), String>) {
        let Err(wrong) = result else {
            self.passed += 1;
            return;
        };
        self.failed += 1;
        if self.failed <= MAX_NAMED {
            println!("FAILED {name}: {wrong}");
        }
    }

    /// Checks a schedule and gives what the check found; where it fails, shrinks it to the shortest that still does, and prints that.
    pub fn check_schedule<T>(
        &mut self,
        name: &str,
        input: &[u8],
        check: impl Fn(&[u8]) -> Result<T, String>,
    ) -> Option<T> {
        let (found, result) = match check(input) {
            Ok(found) => (Some(found), Ok(())),
            Err(wrong) => (None, Err(wrong)),
        };
        let failed = result.is_err();
        self.check(name, result);
        if failed && self.shrunk < MAX_SHRUNK {
            self.shrunk += 1;
            let shortest = shrink(input, |shorter| check(shorter).is_err());
            print_schedule(&shortest, check(&shortest).err());
        }
        found
    }

    pub fn finish(self) -> ExitCode {
        println!("{} passed, {} failed", self.passed, self.failed);
        match self.failed {
            0 => ExitCode::SUCCESS,
            _ => ExitCode::FAILURE,
        }
    }
}

/// Where two outputs first differ, by line.
pub fn compare_outputs(output: &[u8], expected: &[u8]) -> Result<(), String> {
    if output == expected {
        return Ok(());
    }
    let mut output = output.split_inclusive(|byte| *byte == b'\n');
    let mut expected = expected.split_inclusive(|byte| *byte == b'\n');
    let mut number = 0;
    loop {
        number += 1;
        let (given, wanted) = (output.next(), expected.next());
        if given != wanted || given.is_none() {
            let show = |line: Option<&[u8]>| match line {
                Some(line) => format!("`{}`", line.escape_ascii()),
                None => "nothing".to_string(),
            };
            let (given, wanted) = (show(given), show(wanted));
            return Err(format!(
                "output line {number} is {given}, expected {wanted}"
            ));
        }
    }
}

/// Prints a shrunk schedule one line each, bytes that are no text escaped.
fn print_schedule(input: &[u8], wrong: Option<String>) {
    let lines: Vec<&[u8]> = input.split_inclusive(|byte| *byte == b'\n').collect();
    println!("  the shortest found has {} lines:", lines.len());
    for line in lines.iter().take(MAX_SHOWN_LINES) {
        println!("  {}", line.escape_ascii());
    }
    if let Some(wrong) = wrong {
        println!("  {wrong}");
    }
}
