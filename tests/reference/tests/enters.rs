//! The report of request L4: each way to finish an enter, input forms, shares, and how many lines an input may have.

mod common;

use common::{held, place, with_monitor, with_word, FAT, FLAT_1, FLAT_1_AT_64, FREE};
use reference::engine::{apply, Event};
use reference::enters::{finished_enter, report, Way, MOST_LINES};
use reference::outcome::Returned;
use reference::report_long_cases;
use reference::table::{Operation, Phase, Table, MAX_DEPTH};

const ANONYMOUS: u32 = 0x000002;
const RESERVED_1: u32 = 0x000106;
/// Thread 1 enters object 1.
const ENTER: &str = "E 1 1\nS 1\n";
const NO_ENTERS: &str = "0 0 0 0 0 0 0 0 0 0 0 0 0 0 0 0\n";
const TOO_MANY_LINES: &str = "24\n";

fn printed(input: &str) -> String {
    String::from_utf8(report(input.as_bytes())).expect("ASCII")
}

/// The figures of each line, without numbers, shares and remainders.
fn figures(input: &str) -> Vec<Vec<u32>> {
    let number = |word: &str| word.parse().expect("a number");
    let line = |line: &str| line.split(' ').skip(1).take(5).map(number).collect();
    printed(input).lines().map(line).collect()
}

/// The figures for one object, which are the same in all.
fn figures_of_one(input: &str) -> Vec<u32> {
    let lines = figures(input);
    assert_eq!(lines.len(), 2, "{input:?}");
    assert_eq!(lines[0], lines[1]);
    lines[0].clone()
}

/// What a step of thread 1 returned, and the enter it finished.
fn step_1(mut table: Table) -> (Returned, Option<(u8, Way)>) {
    let before = table.clone();
    let event = Event::step(1);
    let outcome = apply(&mut table, event);
    (outcome.returned, finished_enter(&before, event, outcome))
}

fn at(mut table: Table, operation: Operation, phase: Phase) -> Table {
    place(&mut table, 1, operation, phase);
    table
}

/// By phase and word before the step: monitors finish enters on free and flat words too.
#[test]
fn ways_by_phase_and_word() {
    let look = |word: u32| at(with_word(1, word), Operation::Enter, Phase::Look);
    let mut store = at(with_word(1, RESERVED_1), Operation::Enter, Phase::Store);
    store.thread_mut(1).kept_word = RESERVED_1;
    let go_in = at(with_monitor(1, 1), Operation::Enter, Phase::GoIn);
    let check = at(with_monitor(1, 0), Operation::Enter, Phase::Check);
    let ways = [
        (look(ANONYMOUS), Way::AnonymousReservation),
        (store, Way::ReservedStore),
        (look(FREE), Way::FreeWord),
        (look(FLAT_1), Way::NestingInAFlatWord),
        (go_in, Way::ThroughTheMonitor),
        (check, Way::ThroughTheMonitor),
        (
            held(FLAT_1_AT_64, Operation::Enter, Phase::Check),
            Way::ThroughTheMonitor,
        ),
        (
            held(FREE, Operation::Enter, Phase::Try),
            Way::ThroughTheMonitor,
        ),
    ];
    for (table, way) in ways {
        let expected = (Returned::Finished, Some((1, way)));
        assert_eq!(step_1(table.clone()), expected, "{table:?}");
    }
}

/// No schedule of 60,000 lines gets as deep as 65,535, so the step that is refused there is tested on a table of its own.
#[test]
fn an_enter_refused_as_too_deep_is_not_finished() {
    let go_in = |depth: u16| at(with_monitor(1, depth), Operation::Enter, Phase::GoIn);
    let finished = Some((1, Way::ThroughTheMonitor));
    assert_eq!(step_1(go_in(MAX_DEPTH - 1)), (Returned::Finished, finished));
    assert_eq!(step_1(go_in(MAX_DEPTH)), (Returned::TooDeep, None));
}

#[test]
fn other_operations_and_steps_that_do_not_finish() {
    let owned = |operation: Operation| at(with_word(1, FLAT_1), operation, Phase::Look);
    for operation in [Operation::Notify, Operation::NotifyAll] {
        assert_eq!(step_1(owned(operation)), (Returned::Finished, None));
    }
    let exit = at(with_word(1, FREE), Operation::Exit, Phase::Test);
    assert_eq!(step_1(exit), (Returned::Finished, None));
    let mut woken = at(with_monitor(1, 0), Operation::Wait, Phase::Resume);
    woken.thread_mut(1).saved_depth = 1;
    assert_eq!(step_1(woken), (Returned::Finished, None));
    let not_owner = at(with_word(1, FREE), Operation::Exit, Phase::Look);
    assert_eq!(step_1(not_owner), (Returned::NotOwner, None));
    let fat = at(with_word(1, FAT), Operation::Enter, Phase::Look);
    assert_eq!(step_1(fat), (Returned::GoneOn, None));
}

#[test]
fn figures_stand_in_the_order_of_the_request() {
    let store = "E 1 1\nS 1\nS 1\n";
    let cancel = "E 2 1\nS 2\nS 2\n";
    let by_free = "L 1 1 0\nE 1 1\nS 1\n";
    let through = format!("{by_free}{}S 1\nS 1\n", ENTER.repeat(64));
    let inputs = [
        (format!("L 1 1 1\n{ENTER}"), [1, 0, 0, 0, 0]),
        (format!("L 1 1 1\n{ENTER}{store}"), [1, 1, 0, 0, 0]),
        (by_free.to_string(), [0, 0, 1, 0, 0]),
        (format!("{by_free}{ENTER}"), [0, 0, 1, 1, 0]),
        (format!("L 2 1 1\n{ENTER}{cancel}{ENTER}"), [1, 0, 0, 1, 0]),
        (through, [0, 0, 1, 63, 1]),
    ];
    for (input, expected) in inputs {
        assert_eq!(figures_of_one(&input), expected, "{input:?}");
    }
}

/// A thread that waited with a limit enters again, in the monitor.
#[test]
fn timed_waits_and_ticks() {
    let waits = format!("L 1 1 0\n{ENTER}V 1 1 2\nS 1\nS 1\nS 1\nS 1\nC\n");
    let enters = format!("S 1\n{ENTER}S 1\n");
    let once = format!("{waits}{enters}");
    let twice = format!("{waits}C\n{enters}");
    assert_eq!(figures_of_one(&once), [0, 0, 1, 0, 0]);
    assert_eq!(figures_of_one(&twice), [0, 0, 1, 0, 1]);
    let refused = format!("L 1 1 0\nV 1 1 0\n{ENTER}");
    assert_eq!(figures_of_one(&refused), [0, 0, 1, 0, 0]);
}

/// Headers that are not good, parted by bars.
const BAD_HEADERS: &str =
    "L|Lx|L |L 1 1|L 1 1 2|L 1 1 0 |L 1 1 0\r|L 01 1 0|LL 1 1 0|L 65536 1 0|L 1 1 0 0|\
    L 0 1 0|L 1 0 0|L 33 1 0|L 1 65 0|L 33 9 0|L 33 65 2|L 65535 65535 1";

#[test]
fn bad_headers_end_the_schedule_before_them() {
    let long = format!("L 1 1 0{}", " ".repeat(5_000));
    for header in BAD_HEADERS.split('|').chain([long.as_str()]) {
        let good = format!("L 1 1 0\n{ENTER}");
        let below = format!("{good}{header}\n{ENTER}");
        assert_eq!(figures_of_one(&below), [0, 0, 1, 0, 0], "{header:?}");
        let middle = format!("{below}{good}");
        assert_eq!(figures_of_one(&middle), [0, 0, 2, 0, 0], "{header:?}");
        let begun = format!("L 1 1 0\nE 1 1\n{header}\nS 1\nL 1 1 0\nS 1\n");
        assert_eq!(figures_of_one(&begun), [0; 5], "{header:?}");
        assert_eq!(printed(&format!("{header}\n{ENTER}")), NO_ENTERS);
    }
}

#[test]
fn lines_that_are_no_headers_end_nothing() {
    for line in [
        "", " L 1 1 0", "l 1 1 0", "xL", "S 1 ", "C 1", "E 1 1 1", "\r",
    ] {
        let input = format!("L 1 1 0\nE 1 1\n{line}\nS 1\n");
        assert_eq!(figures_of_one(&input), [0, 0, 1, 0, 0], "{line:?}");
    }
}

#[test]
fn no_header() {
    for input in ["", "\n", "x", "L", "L 1 1 0", "Lx\n", "E 1 1\nS 1\n"] {
        assert_eq!(printed(input), NO_ENTERS, "{input:?}");
    }
    let before = format!("{ENTER}L 1 1 0\nS 1\n");
    assert_eq!(figures_of_one(&before), [0; 5]);
}

#[test]
fn unended_lines() {
    let good = format!("L 1 1 0\n{ENTER}");
    for unended in ["E 1 1\nS 1", "L 1 2 0", "L", "x"] {
        let input = format!("{good}{unended}");
        assert_eq!(figures_of_one(&input), [0, 0, 1, 0, 0], "{unended:?}");
    }
}

#[test]
fn a_line_for_each_object_of_the_largest_good_header() {
    let input = format!("L 1 2 0\n{ENTER}L 1 1 1\n{ENTER}L 33 9 0\n{ENTER}L 1 3 2\n");
    let expected = "1 1 0 1 0 0 5000 0 5000 0 0 0 0 0 0 0\n2 0 0 0 0 0 0 0 0 0 0 0 0 0 0 0\n\
        0 1 0 1 0 0 5000 0 5000 0 0 0 0 0 0 0\n";
    assert_eq!(printed(&input), expected);
    let largest = figures("L 32 64 0\nE 32 64\nS 32\nL 1 1 0\n");
    assert_eq!(largest.len(), 65);
    assert_eq!(largest[63..], [[0, 0, 1, 0, 0]; 2]);
}

/// Sevenths: 10,000 times 6 and only then divided.
#[test]
fn shares_are_rounded_down_with_their_remainder() {
    let input = format!("L 1 1 0\n{}", ENTER.repeat(7));
    let line = "0 0 1 6 0 0 0 1428 8571 0 0 0 4 3 0";
    assert_eq!(printed(&input), format!("1 {line}\n0 {line}\n"));
}

#[test]
fn lines_are_counted_and_headers_not() {
    for line in ["\n", "S 1\n", "S 2\n", "x\n", "E 1 1\n", "C\n"] {
        let full = format!("L 1 1 0\n{}", line.repeat(MOST_LINES));
        assert_eq!(figures_of_one(&full), [0; 5], "{line:?}");
        let headers = full.clone() + &"L 1 1 0\nLx\n".repeat(3) + "L";
        assert_eq!(figures_of_one(&headers), [0; 5], "{line:?}");
        for behind in [line, "x", "Lx\nS 1\n", "Lx\nS", "L 33 9 0\n\n"] {
            assert_eq!(printed(&format!("{full}{behind}")), TOO_MANY_LINES);
        }
        let before = format!("{line}{full}");
        assert_eq!(printed(&before), TOO_MANY_LINES);
    }
}

#[test]
fn long_cases_print_what_is_spelled_out() {
    for case in report_long_cases::cases() {
        assert!(report(&case.input) == case.expected, "{}", case.name);
    }
}
