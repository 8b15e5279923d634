//! The run queue that an interpreter keeps from answers and sets alone: who comes in and who goes out, and that the check notices whom it forgets.

mod common;

use common::{each_event, fresh};
use reference::engine::Event;
use reference::exits::let_out;
use reference::generate::schedule;
use reference::met::{Met, Rare};
use reference::outcome::{Outcome, Returned};
use reference::run_queue::{CheckedQueue, RunQueue};
use reference::table::{Operation, Phase};
use reference::thread_set::ThreadSet;

const REFUSALS: [Returned; 10] = [
    Returned::NotSound,
    Returned::NoSuchThread,
    Returned::NoSuchObject,
    Returned::ThreadBusy,
    Returned::ThreadParked,
    Returned::NoSuchOperation,
    Returned::NoRule,
    Returned::MalformedLine,
    Returned::SizesOutOfRange,
    Returned::LimitOutOfRange,
];

fn begin(thread: u8) -> Event {
    Event::begin(thread, Operation::Enter, 1, 0)
}

fn unparking(threads: &[u8]) -> Outcome {
    Outcome::of(Returned::GoneOn).unparking(threads.iter().copied().collect())
}

/// Threads 1 and 2 have begun.
fn two_begun() -> RunQueue {
    let mut queue = RunQueue::default();
    for thread in [1, 2] {
        queue.feed(begin(thread), Outcome::of(Returned::GoneOn));
    }
    queue
}

fn threads(queue: RunQueue) -> Vec<u8> {
    queue.threads().threads().collect()
}

#[test]
fn who_comes_in_and_who_goes_out() {
    assert_eq!(threads(two_begun()), [1, 2]);
    for returned in [
        Returned::Finished,
        Returned::Parked,
        Returned::NotOwner,
        Returned::TooDeep,
        Returned::ThreadIdle,
    ] {
        let mut queue = two_begun();
        queue.feed(Event::step(2), Outcome::of(returned));
        assert_eq!(threads(queue), [1], "{returned:?}");
    }
    let mut queue = two_begun();
    queue.feed(Event::step(2), unparking(&[]));
    assert_eq!(threads(queue), [1, 2]);
    queue.feed(Event::Tick, unparking(&[7, 32]));
    assert_eq!(threads(queue), [1, 2, 7, 32]);
    let parked = Outcome::of(Returned::Parked).unparking([3].into_iter().collect());
    queue.feed(Event::step(1), parked);
    assert_eq!(threads(queue), [2, 3, 7, 32]);
}

#[test]
fn the_other_refusals_change_nothing() {
    for returned in REFUSALS {
        for event in [begin(1), begin(3), Event::step(2), Event::step(3)] {
            let mut queue = two_begun();
            queue.feed(event, Outcome::of(returned));
            assert_eq!(threads(queue), [1, 2], "{event:?} {returned:?}");
        }
    }
}

/// A table of four threads in these phases, and a queue with these threads, of which these were let out.
fn checked(phases: [Phase; 4], queued: u32, let_out: u32) -> Result<(), String> {
    let mut table = fresh();
    for (record, phase) in table.thread_records.iter_mut().zip(phases) {
        record.phase = phase;
        record.operation = (phase != Phase::Idle).then_some(Operation::Enter);
        record.object = u8::from(phase != Phase::Idle);
    }
    let mut queue = CheckedQueue::default();
    let queued = Outcome::of(Returned::GoneOn).unparking(ThreadSet::from_bits(queued));
    queue.feed(Event::Tick, queued, &[], &mut Met::default());
    queue.let_out = ThreadSet::from_bits(let_out);
    queue.check(&table)
}

#[test]
fn the_check_compares_queue_and_table() {
    let phases = [Phase::Look, Phase::Idle, Phase::Try, Phase::Cancel];
    assert_eq!(checked(phases, 0b1101, 0), Ok(()));
    assert_eq!(checked(phases, 0b1111, 0b0010), Ok(()));
    for (queued, let_out) in [
        (0b0101, 0),      // one that goes on is forgotten
        (0b1111, 0),      // an idle one that was not let out
        (0b1101, 0b0010), // one that was let out and is gone
        (0b1101, 0b0001), // one that was let out and goes on
    ] {
        assert!(
            checked(phases, queued, let_out).is_err(),
            "{queued:b} {let_out:b}"
        );
    }
    for parked in [Phase::Contending, Phase::Waiting] {
        let phases = [Phase::Look, Phase::Idle, parked, Phase::Cancel];
        assert_eq!(checked(phases, 0b1001, 0), Ok(()), "{parked:?}");
        assert!(checked(phases, 0b1101, 0).is_err(), "{parked:?}");
    }
}

/// With one thread left out of one set the check fails right behind that event.
#[test]
fn a_thread_left_out_of_a_set_is_missed() {
    let mut left_out = 0;
    for seed in 0..60 {
        let mut queue = CheckedQueue::default();
        each_event(&schedule(seed), |before, after, event, outcome| {
            let exits = let_out(before, after, event);
            for thread in outcome.unparked.threads() {
                let mut fewer = outcome;
                fewer.unparked.remove(thread);
                let mut forgetful = queue;
                forgetful.feed(event, fewer, &exits, &mut Met::default());
                assert!(forgetful.check(after).is_err(), "seed {seed}, {event:?}");
                left_out += 1;
            }
            queue.feed(event, outcome, &exits, &mut Met::default());
            assert_eq!(queue.check(after), Ok(()), "seed {seed}, {event:?}");
        });
    }
    assert!(left_out > 0);
}

/// Thread 1 is parked inside an exit, and thread 2 lets it out.
const LET_OUT: &str = "L 2 1 0\nE 1 1\nS 1\nE 2 1\nS 2\nS 2\nS 2\nX 1 1\nS 1\nS 1\nS 1\nS 2\n";

/// The queue behind these lines too, the exits let out in it, and how often the queue held one and a step took one.
fn queue_behind(more: &str) -> (Vec<u8>, Vec<u8>, [u64; 2]) {
    let mut queue = CheckedQueue::default();
    let mut met = Met::default();
    let input = format!("{LET_OUT}{more}");
    each_event(input.as_bytes(), |before, after, event, outcome| {
        let exits = let_out(before, after, event);
        queue.feed(event, outcome, &exits, &mut met);
        assert_eq!(queue.check(after), Ok(()));
    });
    let let_out = queue.let_out.threads().collect();
    let times = [Rare::LetOutQueued, Rare::LetOutStepped].map(|rare| met.number(rare));
    (threads(queue.queue), let_out, times)
}

#[test]
fn an_exit_let_out_stays_until_it_steps_or_begins() {
    assert_eq!(queue_behind(""), (vec![1], vec![1], [1, 0]));
    // Refused otherwise, it stays.
    let refused = queue_behind("E 1 2\nV 1 1 0\nS 3\nC\n");
    assert_eq!(refused, (vec![1], vec![1], [5, 0]));
    assert_eq!(queue_behind("S 1\n"), (vec![], vec![], [1, 1]));
    assert_eq!(queue_behind("E 1 1\n"), (vec![1], vec![], [1, 0]));
    let parked = queue_behind("E 1 1\nS 1\nS 1\n");
    assert_eq!(parked, (vec![], vec![], [1, 0]));
}
