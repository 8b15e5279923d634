//! Cases too long to store. What they must print is spelled out here from document 01 and requests L1 and L3, not taken from the engine.

use crate::stored::Case;
use crate::table::{MAX_DEPTH, MAX_LIMIT};
use crate::word::MAX_COUNT;
use std::fmt::Write;

/// Far past any buffer that a reader might have.
const LONG_LINE: usize = 1 << 20;
const FAT: &str = "000101";
/// Sets of unparked threads: nobody, and thread 1.
const NOBODY: &str = "00000000";
const THREAD_1: &str = "00000001";

pub fn cases() -> Vec<Case> {
    vec![
        nest_to_the_limit(),
        long_lines(),
        runs_out_at_the_longest_limit(),
        notified_before_the_last_tick(),
    ]
}

/// Input and expected output side by side.
#[derive(Default)]
struct Script {
    input: String,
    expected: String,
}

impl Script {
    fn line(&mut self, input: &str, expected: &str) {
        writeln!(self.input, "{input}").expect("a string takes any text");
        writeln!(self.expected, "{expected}").expect("a string takes any text");
    }

    /// An accepted event that unparks nobody.
    fn accepted(&mut self, input: &str, expected: &str) {
        self.line(input, &format!("{expected} {NOBODY}"));
    }

    fn header(&mut self, input: &str) {
        writeln!(self.input, "{input}").expect("a string takes any text");
    }

    fn case(self, name: &str) -> Case {
        Case {
            name: name.to_string(),
            input: self.input.into_bytes(),
            expected: self.expected.into_bytes(),
        }
    }
}

/// Thread 1 enters 65,535 times and once too often, waits at that depth, resumes at it, and leaves.
fn nest_to_the_limit() -> Case {
    let mut script = Script::default();
    script.header("L 2 1 0");
    enter_to_the_limit(&mut script);
    enter_too_often(&mut script);
    wait_and_resume(&mut script);
    enter_too_often(&mut script);
    for _ in 1..MAX_DEPTH {
        script.accepted("X 1 1", &format!("0 1 0 {FAT}"));
        script.accepted("S 1", &format!("1 0 0 {FAT}"));
    }
    script.accepted("X 1 1", &format!("0 1 0 {FAT}"));
    script.accepted("S 1", "0 11 0 000000");
    script.accepted("S 1", "1 0 0 000000");
    script.accepted("X 1 1", "0 1 0 000000");
    script.line("S 1", "18");
    script.case("nest-to-65535")
}

fn enter_to_the_limit(script: &mut Script) {
    let flat = |count: u8| format!("{:06x}", 0x100 + 4 * u32::from(count));
    script.accepted("E 1 1", "0 1 0 000000");
    script.accepted("S 1", "1 0 0 000100");
    for count in 1..=MAX_COUNT {
        script.accepted("E 1 1", &format!("0 1 0 {}", flat(count - 1)));
        script.accepted("S 1", &format!("1 0 0 {}", flat(count)));
    }
    let full = flat(MAX_COUNT);
    script.accepted("E 1 1", &format!("0 1 0 {full}"));
    script.accepted("S 1", &format!("0 4 0 {full}"));
    script.accepted("S 1", &format!("0 6 0 {full}"));
    script.accepted("S 1", &format!("1 0 0 {FAT}"));
    let inflated_depth = u16::from(MAX_COUNT) + 2;
    for _ in inflated_depth..MAX_DEPTH {
        script.accepted("E 1 1", &format!("0 1 0 {FAT}"));
        script.accepted("S 1", &format!("0 4 0 {FAT}"));
        script.accepted("S 1", &format!("1 0 0 {FAT}"));
    }
}

fn enter_too_often(script: &mut Script) {
    script.accepted("E 1 1", &format!("0 1 0 {FAT}"));
    script.accepted("S 1", &format!("0 4 0 {FAT}"));
    script.line("S 1", "19");
    script.line("S 1", "15");
}

fn wait_and_resume(script: &mut Script) {
    let steps = [
        ("W 1 1", "0 1 0"),
        ("S 1", "0 13 0"),
        ("S 1", "2 14 0"),
        ("E 2 1", "0 1 0"),
        ("S 2", "0 4 0"),
        ("S 2", "0 6 0"),
        ("S 2", "1 0 0"),
        ("N 2 1", "0 1 0"),
        ("S 2", "1 0 1"),
        ("X 2 1", "0 1 0"),
        ("S 2", "0 11 0"),
    ];
    for (input, expected) in steps {
        script.accepted(input, &format!("{expected} {FAT}"));
    }
    script.line("S 2", &format!("1 0 0 {FAT} {THREAD_1}"));
    script.accepted("S 1", &format!("1 0 0 {FAT}"));
}

/// Lines of a megabyte between good ones, the last without a newline.
fn long_lines() -> Case {
    let mut script = Script::default();
    script.header("L 1 1 1");
    script.line(&"x".repeat(LONG_LINE), "21");
    script.accepted("E 1 1", "0 1 0 000002");
    script.line(&format!("S {}1", "0".repeat(LONG_LINE)), "21");
    script.line(&format!("S 1{}", " ".repeat(LONG_LINE)), "21");
    script.line(&"9".repeat(LONG_LINE), "21");
    script.line(&format!("V 1 1 1{}", "0".repeat(LONG_LINE)), "21");
    script.line(&format!("C{}", " ".repeat(LONG_LINE)), "21");
    script.accepted("S 1", "1 0 0 000106");
    script.line(&format!("S 1{}", "1".repeat(LONG_LINE)), "21");
    script.input.pop();
    script.case("lines-of-a-megabyte")
}

/// Thread 1 owns object 1 and waits there with the longest limit, of which one tick is left.
fn wait_all_but_a_tick(script: &mut Script) {
    script.header("L 2 1 0");
    script.accepted("E 1 1", "0 1 0 000000");
    script.accepted("S 1", "1 0 0 000100");
    script.accepted(&format!("V 1 1 {MAX_LIMIT}"), "0 1 0 000100");
    script.accepted("S 1", "0 4 0 000100");
    script.accepted("S 1", "0 12 0 000100");
    script.accepted("S 1", &format!("0 13 0 {FAT}"));
    script.accepted("S 1", &format!("2 14 0 {FAT}"));
    for _ in 1..MAX_LIMIT {
        script.accepted("C", "0");
    }
    script.line("S 1", "16");
}

/// With the last tick it runs out and, as nobody holds the monitor, is handed it.
fn runs_out_at_the_longest_limit() -> Case {
    let mut script = Script::default();
    wait_all_but_a_tick(&mut script);
    script.line("C", &format!("0 {THREAD_1}"));
    script.accepted("S 1", &format!("1 0 1 {FAT}"));
    script.accepted("X 1 1", &format!("0 1 0 {FAT}"));
    script.accepted("S 1", "0 11 0 000000");
    script.accepted("S 1", "1 0 0 000000");
    script.case("runs-out-after-65535-ticks")
}

/// Thread 2 notifies it before the last tick; that tick and others do not make it run out any more.
fn notified_before_the_last_tick() -> Case {
    let mut script = Script::default();
    wait_all_but_a_tick(&mut script);
    let steps = [
        ("E 2 1", "0 1 0"),
        ("S 2", "0 4 0"),
        ("S 2", "0 6 0"),
        ("S 2", "1 0 0"),
        ("N 2 1", "0 1 0"),
        ("S 2", "1 0 1"),
    ];
    for (input, expected) in steps {
        script.accepted(input, &format!("{expected} {FAT}"));
    }
    script.accepted("C", "0");
    script.accepted("X 2 1", &format!("0 1 0 {FAT}"));
    script.accepted("S 2", &format!("0 11 0 {FAT}"));
    script.accepted("C", "0");
    script.line("S 2", &format!("1 0 0 {FAT} {THREAD_1}"));
    script.accepted("C", "0");
    script.accepted("S 1", &format!("1 0 0 {FAT}"));
    script.case("notified-after-65534-ticks")
}
