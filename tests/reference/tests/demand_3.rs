//! That the check of demand 3, and of what request L2 promises, passes good runs and notices each kind of violation.

mod common;

use common::{fresh, with_word};
use reference::checked::{check_schedule, Checked};
use reference::engine::Event;
use reference::exits::check_parked;
use reference::met::Met;
use reference::outcome::{Outcome, Returned};
use reference::plain::PlainMonitors;
use reference::table::{Chain, Onward, Operation, Phase, Table};

const STEP_1: Event = Event::Step { thread: 1 };

fn begin_1(operation: Operation, limit: u32) -> Event {
    Event::Begin {
        thread: 1,
        operation: operation.number(),
        object: 1,
        limit,
    }
}

/// Plain monitors in which thread 1 has begun an operation on object 1.
fn begun(operation: Operation) -> PlainMonitors {
    let mut plain = PlainMonitors::new(1);
    let outcome = Outcome::of(Returned::GoneOn);
    plain.feed(begin_1(operation, 1), outcome).expect("a begin");
    plain
}

fn finished(woken: u8) -> Outcome {
    Outcome {
        woken,
        ..Outcome::of(Returned::Finished).committing()
    }
}

fn violation(result: Result<(), String>, text: &str) {
    let wrong = result.expect_err("a violation");
    assert!(wrong.contains(text), "{wrong}");
}

#[test]
fn answers() {
    let mut plain = begun(Operation::Exit);
    violation(plain.feed(STEP_1, finished(0)), "NotOwner");
    let mut plain = begun(Operation::Enter);
    violation(plain.feed(STEP_1, finished(1)), "woken: 1");
    let mut plain = begun(Operation::Enter);
    let refused = Outcome::of(Returned::TooDeep).committing();
    violation(plain.feed(STEP_1, refused), "TooDeep");
}

#[test]
fn commits() {
    let mut plain = begun(Operation::Enter);
    let unmarked = Outcome::of(Returned::Finished);
    violation(plain.feed(STEP_1, unmarked), "0 commits");
    let mut plain = begun(Operation::Enter);
    let early = Outcome::of(Returned::GoneOn).committing();
    plain.feed(STEP_1, early).expect("no end yet");
    violation(plain.feed(STEP_1, finished(0)), "2 commits");
    let mut plain = begun(Operation::Enter);
    plain.feed(STEP_1, finished(0)).expect("an enter");
    violation(plain.feed(STEP_1, finished(0)), "without an unfinished");
    violation(
        plain.feed(begin_1(Operation::Exit, 0), early),
        "a begin is marked",
    );
}

#[test]
fn numbers_that_never_occur() {
    for returned in [Returned::NotSound, Returned::NoRule] {
        let mut plain = PlainMonitors::new(1);
        violation(plain.feed(STEP_1, Outcome::of(returned)), "never occurs");
    }
}

#[test]
fn owners() {
    let plain = PlainMonitors::new(2);
    assert_eq!(plain.compare(&fresh()), Ok(()));
    assert_eq!(plain.compare(&with_word(1, 0x000102)), Ok(()));
    violation(plain.compare(&with_word(1, 0x000100)), "owner and depth");
    violation(plain.compare(&with_word(2, 0x000106)), "object 2");
}

/// The event on object 1 that a word stands for: `E1`, `S2`, `V1/3` for a timed wait with limit 3, `C`.
fn event(word: &str) -> Event {
    if word == "C" {
        return Event::Tick;
    }
    let (letter, numbers) = word.split_at(1);
    let (thread, limit) = numbers.split_once('/').unwrap_or((numbers, "0"));
    let thread = thread.parse().expect("a thread");
    match "EXWNAV".find(letter) {
        Some(place) => Event::Begin {
            thread,
            operation: place as u8 + 1,
            object: 1,
            limit: limit.parse().expect("a limit"),
        },
        None => Event::Step { thread },
    }
}

/// Events that all passed the check.
fn run(events: &str) -> Checked {
    let mut run = Checked::new(fresh());
    for word in events.split(' ') {
        run.event(event(word)).expect("no violation");
    }
    run
}

/// The table and plain monitors after events that all passed the check.
fn checked_run(events: &str) -> (Table, PlainMonitors) {
    let run = run(events);
    (run.table, run.plain)
}

const TWO_WAIT: &str = "E1 S1 W1 S1 S1 S1 S1 E2 S2 S2 S2 W2 S2 S2";

#[test]
fn waiting() {
    let (mut table, plain) = checked_run(TWO_WAIT);
    assert_eq!(table.chain(1, Chain::Waiting).collect::<Vec<_>>(), [1, 2]);
    table.object_mut(1).monitor.waiting = 2;
    table.thread_mut(2).next = 1;
    table.thread_mut(1).next = 0;
    violation(plain.compare(&table), "waiting threads");
}

#[test]
fn woken() {
    let (mut table, plain) = checked_run(TWO_WAIT);
    table.thread_mut(2).phase = Phase::Resume;
    violation(plain.compare(&table), "thread 2 is woken");
    let (mut table, plain) = checked_run(&format!("{TWO_WAIT} E3 S3 S3 S3 N3 S3"));
    assert_eq!(table.thread(1).phase, Phase::Queued(Onward::Resume));
    table.thread_mut(1).phase = Phase::Queued(Onward::Inflate);
    violation(plain.compare(&table), "0 woken threads");
}

/// Thread 1 waits with a limit of two ticks, and nobody holds the monitor.
const ONE_WAITS_TIMED: &str = "E1 S1 V1/2 S1 S1 S1 S1";

#[test]
fn answers_of_timed_waits() {
    let (_, mut plain) = checked_run(&format!("{ONE_WAITS_TIMED} C C"));
    violation(plain.clone().feed(STEP_1, finished(0)), "woken: 1");
    assert_eq!(plain.feed(STEP_1, finished(1)), Ok(()));
    let notified = format!("{ONE_WAITS_TIMED} C E2 S2 S2 S2 N2 S2 C C X2 S2 S2 C");
    let (_, mut plain) = checked_run(&notified);
    violation(plain.clone().feed(STEP_1, finished(1)), "woken: 0");
    assert_eq!(plain.feed(STEP_1, finished(0)), Ok(()));
}

#[test]
fn ticks() {
    let (mut table, plain) = checked_run(&format!("{ONE_WAITS_TIMED} C"));
    table.thread_mut(1).ticks = 2;
    violation(plain.compare(&table), "thread 1 has ticks 2");
    // Run out in the plain monitors, and not in the table.
    let (table, mut plain) = checked_run(&format!("{ONE_WAITS_TIMED} C"));
    let accepted = Outcome::of(Returned::GoneOn);
    assert_eq!(plain.feed(Event::Tick, accepted), Ok(()));
    violation(plain.compare(&table), "waiting threads [1]");
    violation(plain.feed(Event::Tick, finished(1)), "a tick was answered");
    violation(
        plain.feed(Event::Tick, accepted.committing()),
        "a tick was answered",
    );
}

#[test]
fn limits_accepted_wrongly() {
    for limit in [0, 65_536] {
        let mut plain = PlainMonitors::new(1);
        let accepted = Outcome::of(Returned::GoneOn);
        let begun = plain.feed(begin_1(Operation::TimedWait, limit), accepted);
        violation(begun, "was accepted");
    }
}

#[test]
fn stranding() {
    let (mut table, mut plain) = checked_run("E1 S1 E2 S2 S2 S2 S2 X1 S1");
    assert_eq!(table.thread(2).phase, Phase::Contending);
    // Thread 1 ends its exit without looking at the flag.
    *table.thread_mut(1) = Default::default();
    let ended = Outcome::of(Returned::Finished);
    plain.feed(STEP_1, ended).expect("an exit");
    violation(plain.compare(&table), "thread 2 is stranded on object 1");
}

#[test]
fn schedules_without_events() {
    for input in ["", "L 1 1 0", "L 33 1 0\nE 1 1\n", "L 1 1 0\n", "x\n"] {
        assert_eq!(check_schedule(input.as_bytes()), Ok(Met::default()));
    }
}

/// Thread 1 is parked inside an exit; thread 2 holds the monitor and inflates with its next step.
const ONE_IS_PARKED: &str = "E1 S1 E2 S2 S2 S2 X1 S1 S1 S1";

#[test]
fn ended_by_another() {
    let (_, mut plain) = checked_run(ONE_IS_PARKED);
    violation(plain.clone().ended_by_another(2), "ended Enter");
    violation(plain.ended_by_another(3), "without an unfinished");
    assert_eq!(plain.ended_by_another(1), Ok(()));
    violation(plain.ended_by_another(1), "without an unfinished");
    let mut plain = begun(Operation::Exit);
    violation(plain.ended_by_another(1), "0 commits");
    let refused = Outcome::of(Returned::GoneOn).committing();
    let mut plain = begun(Operation::Exit);
    plain.feed(STEP_1, refused).expect("no end yet");
    violation(plain.ended_by_another(1), "NotOwner");
}

#[test]
fn unfinished() {
    let (table, mut plain) = checked_run(ONE_IS_PARKED);
    let mut idle = table.clone();
    idle.make_idle(1);
    violation(plain.compare(&idle), "thread 1 is at object 0");
    plain.ended_by_another(1).expect("an exit");
    violation(plain.compare(&table), "thread 1 is at object 1");
}

#[test]
fn let_out_and_begun_again() {
    let mut run = run(ONE_IS_PARKED);
    for (word, returned) in [
        ("S2", Returned::Finished),
        ("S1", Returned::ThreadIdle),
        ("E1", Returned::GoneOn),
    ] {
        let outcome = run.event(event(word)).expect("no violation");
        assert_eq!(outcome.returned, returned);
    }
}

type Change = (fn(&mut Table), &'static str);

#[test]
fn whom_a_parked_exit_waits_for() {
    let (table, _) = checked_run(ONE_IS_PARKED);
    assert_eq!(check_parked(&table), Ok(()));
    let changes: [Change; 7] = [
        (|table| table.object_mut(1).monitor.holder = 0, "is 0"),
        (|table| table.object_mut(1).monitor.holder = 1, "is 1"),
        (|table| table.object_mut(1).monitor.depth = 1, "depth is 1"),
        (
            |table| table.thread_mut(2).phase = Phase::Contending,
            "parked",
        ),
        (|table| table.make_idle(2), "2 is at 0"),
        (|table| table.thread_mut(2).object = 2, "2 is at 2"),
        (|table| table.object_mut(1).word = 0x000101, "fat"),
    ];
    for (change, wrong) in changes {
        let mut changed = table.clone();
        change(&mut changed);
        violation(check_parked(&changed), wrong);
    }
}
