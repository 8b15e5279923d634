//! Cases of the report too long to store. What they must print is spelled out here from request L4, not taken from the program.

use crate::enters::MOST_LINES;
use crate::long_cases;
use crate::stored::Case;

/// Thread 1 enters object 1, which is free, and leaves it again.
const ROUND: &str = "E 1 1\nS 1\nX 1 1\nS 1\nS 1\n";
const LINES_OF_ROUND: usize = 5;
/// All rounds that an input may have; each enters by a free word.
const ROUNDS: usize = MOST_LINES / LINES_OF_ROUND;
const REPORT_OF_ROUNDS: &str =
    "1 0 0 12000 0 0 0 0 10000 0 0 0 0 0 0 0\n0 0 0 12000 0 0 0 0 10000 0 0 0 0 0 0 0\n";
const NO_ENTERS: &str = "0 0 0 0 0 0 0 0 0 0 0 0 0 0 0 0\n";
const TOO_MANY_LINES: &str = "24\n";
/// Far past any buffer that a reader might have.
const LONG_LINE: usize = 1 << 20;

pub fn cases() -> Vec<Case> {
    [
        at_the_limit(),
        headers_at_the_limit(),
        past_the_limit(),
        other_lines(),
    ]
    .into_iter()
    .flatten()
    .chain([most_enters(), long_lines()])
    .collect()
}

fn case(name: &str, input: String, expected: &str) -> Case {
    Case {
        name: name.to_string(),
        input: input.into_bytes(),
        expected: expected.as_bytes().to_vec(),
    }
}

/// Just as many lines as may be, in two schedules.
fn full() -> String {
    let half = format!("L 1 1 0\n{}", ROUND.repeat(ROUNDS / 2));
    half.repeat(2)
}

/// The last line, by which an exit finishes, is not needed for any enter, and may be unended or another.
fn at_the_limit() -> Vec<Case> {
    let full = full();
    let unended = full.trim_end().to_string();
    vec![
        case("60000-lines", full, REPORT_OF_ROUNDS),
        case("60000-lines-the-last-unended", unended, REPORT_OF_ROUNDS),
    ]
}

/// Headers do not count, however many there are, good and bad.
fn headers_at_the_limit() -> Vec<Case> {
    let full = full();
    let good = "L 1 1 0\n".repeat(MOST_LINES + 1);
    let bad = "L 33 9 0\n".repeat(MOST_LINES + 1);
    vec![
        case("60001-headers-before", good + &full, REPORT_OF_ROUNDS),
        case(
            "60001-bad-headers-behind",
            full.clone() + &bad,
            REPORT_OF_ROUNDS,
        ),
        case(
            "60000-lines-and-a-header",
            full.clone() + "L 1 1 1\n",
            REPORT_OF_ROUNDS,
        ),
        case(
            "60000-lines-and-an-unended-header",
            full + "L 1 2 1",
            REPORT_OF_ROUNDS,
        ),
        case("60001-bad-headers-alone", bad, NO_ENTERS),
    ]
}

/// One line too many: in the last schedule, before the first, under a bad header, and a piece that is no whole line.
fn past_the_limit() -> Vec<Case> {
    let full = full();
    let excess = [
        ("60001-lines", full.clone() + "S 1\n"),
        ("60001-lines-the-last-empty", full.clone() + "\n"),
        ("60001-lines-the-last-unended", full.clone() + "x"),
        (
            "60001-lines-the-first-under-no-header",
            format!("x\n{full}"),
        ),
        (
            "60001-lines-the-last-under-a-bad-header",
            full.clone() + "Lx\nS 1\n",
        ),
        (
            "60001-lines-the-last-malformed-before-a-header",
            full + " L 1 1 0\nL 1 1 0\n",
        ),
    ];
    let past = |(name, input): (&str, String)| case(name, input, TOO_MANY_LINES);
    excess.map(past).into()
}

/// Lines that count though they are no events, and a schedule of the replay: nesting as deep as an enter is refused takes more lines than there may be.
fn other_lines() -> Vec<Case> {
    let mut cases = vec![
        case("60000-empty-lines", "\n".repeat(MOST_LINES), NO_ENTERS),
        case(
            "60001-empty-lines",
            "\n".repeat(MOST_LINES + 1),
            TOO_MANY_LINES,
        ),
    ];
    for nesting in long_cases::cases()
        .into_iter()
        .filter(|case| case.name == "nest-to-65535")
    {
        cases.push(Case {
            expected: TOO_MANY_LINES.into(),
            ..nesting
        });
    }
    cases
}

/// As many enters as there can be, 30,000: schedule by schedule thread 1 goes from object to object and enters each 64 times, by a free word and then
/// by nesting. Seven times it gets through all objects, the eighth time to the 48th enter of object 21.
fn most_enters() -> Case {
    let mut input = String::new();
    let mut left = MOST_LINES / 2;
    while left > 0 {
        input += "L 1 64 0\n";
        for enter in 0..left.min(64 * 64) {
            input += &format!("E 1 {}\nS 1\n", 1 + enter / 64);
            left -= 1;
        }
    }
    let mut expected = String::new();
    for number in 1..=64 {
        expected += &match number {
            1..=20 => format!("{number} 0 0 8 504 0 0 0 156 9843 0 0 0 128 384 0\n"),
            21 => format!("{number} 0 0 8 488 0 0 0 161 9838 0 0 0 144 352 0\n"),
            _ => format!("{number} 0 0 7 441 0 0 0 156 9843 0 0 0 112 336 0\n"),
        };
    }
    expected += "0 0 0 469 29531 0 0 0 156 9843 0 0 0 10000 20000 0\n";
    case("30000-enters", input, &expected)
}

/// Lines of a megabyte: those that begin with `L` end a schedule, the others do nothing, whatever letters are in them.
fn long_lines() -> Case {
    let enter = "E 1 1\nS 1\n";
    let input = [
        "L 1 1 0\nE 1 1\n",
        &format!("x{}\n", "L".repeat(LONG_LINE)),
        "S 1\n",
        &format!("S 1{}\n", " ".repeat(LONG_LINE)),
        enter,
        &format!("L 1 1 0{}\n", " ".repeat(LONG_LINE)),
        enter,
        "L 1 1 1\n",
        enter,
        &format!("L{}\n", "L 1 1 0".repeat(LONG_LINE / 4)),
        enter,
        &format!("L 1 1 {}1", "0".repeat(LONG_LINE)),
    ];
    let expected =
        "1 1 0 1 1 0 3333 0 3333 3333 0 1 0 1 1 0\n0 1 0 1 1 0 3333 0 3333 3333 0 1 0 1 1 0\n";
    case("report-lines-of-a-megabyte", input.concat(), expected)
}
