//! Request L3: which threads each kind of event unparks, how the replay prints them, and that the check of them notices wrong sets.

mod common;

use common::{begin_and_step, each_event, fresh, held, inflating, park, place, with_monitor};
use common::{ENTER_QUEUED, EXIT_QUEUED, FREE};
use reference::engine::{begin, step, tick, Event};
use reference::generate::schedule;
use reference::outcome::{Outcome, Returned};
use reference::replay::replay;
use reference::sound::is_sound;
use reference::table::{Chain, Onward, Operation, Phase, Table};
use reference::thread_set::ThreadSet;
use reference::unparked::{check_unparked, unparked};

const FLAT_4: u32 = 0x000400;
const WAITING: (Operation, Phase) = (Operation::Wait, Phase::Waiting);
const DUE: (Operation, Phase) = (Operation::TimedWait, Phase::Waiting);
const CONTENDING: (Operation, Phase) = (Operation::Enter, Phase::Contending);

/// The same table with so many threads, at least as many as are in use.
fn sized(table: Table, threads: u8) -> Table {
    Table { threads, ..table }
}

/// Takes a step on a sound table; the returned number, and the threads unparked.
fn stepped(table: &mut Table, thread: u8) -> (Returned, Vec<u8>) {
    assert!(is_sound(table));
    let outcome = step(table, thread.into());
    assert!(is_sound(table));
    (outcome.returned, outcome.unparked.threads().collect())
}

fn ticked(table: &mut Table) -> Vec<u8> {
    assert!(is_sound(table));
    tick(table).unparked.threads().collect()
}

/// Steps of thread 1 that hand: from 7, 11 and 13.
fn handing() -> [(Table, Returned); 3] {
    let mut waits = with_monitor(1, 2);
    place(&mut waits, 1, Operation::Wait, Phase::Wait);
    [
        (held(FLAT_4, Operation::Enter, Phase::Try), Returned::Parked),
        (
            held(FREE, Operation::Exit, Phase::Leave),
            Returned::Finished,
        ),
        (waits, Returned::Parked),
    ]
}

#[test]
fn a_hand_names_the_thread_it_went_to() {
    let first = [
        ENTER_QUEUED,
        EXIT_QUEUED,
        (Operation::Wait, Phase::Queued(Onward::Inflate)),
        (Operation::TimedWait, Phase::Queued(Onward::Resume)),
    ];
    for (table, returned) in handing() {
        assert_eq!(stepped(&mut table.clone(), 1), (returned, vec![]));
        for parked in first {
            let mut table = table.clone();
            park(&mut table, 3, parked);
            park(&mut table, 2, ENTER_QUEUED);
            assert_eq!(stepped(&mut table, 1), (returned, vec![3]));
            assert_eq!(table.object(1).monitor.holder, 3);
            assert_eq!(table.chain(1, Chain::Entry).collect::<Vec<_>>(), [2]);
        }
    }
}

#[test]
fn inflating_names_the_exits_let_out() {
    for (table, returned, _) in inflating() {
        let mut table = sized(table, 7);
        for (thread, parked) in [
            (6, EXIT_QUEUED),
            (3, ENTER_QUEUED),
            (2, EXIT_QUEUED),
            (7, CONTENDING),
            (4, EXIT_QUEUED),
        ] {
            park(&mut table, thread, parked);
        }
        assert_eq!(stepped(&mut table, 1), (returned, vec![2, 4, 6]));
        // The entrant and the contender are parked as before.
        assert_eq!(table.chain(1, Chain::Entry).collect::<Vec<_>>(), [3, 7]);
    }
}

#[test]
fn whoever_is_moved_to_another_chain_stays_parked() {
    for (operation, moved) in [(Operation::Notify, 1), (Operation::NotifyAll, 2)] {
        let mut table = with_monitor(1, 1);
        park(&mut table, 3, WAITING);
        park(&mut table, 2, DUE);
        let outcome = begin_and_step(&mut table, 1, operation);
        assert_eq!(outcome.woken, moved);
        assert_eq!(outcome.unparked, ThreadSet::default());
        assert_eq!(table.chain(1, Chain::Entry).count(), moved.into());
    }
    let mut table = held(FREE, Operation::Exit, Phase::Tell);
    park(&mut table, 3, CONTENDING);
    assert_eq!(stepped(&mut table, 1), (Returned::GoneOn, vec![]));
    assert_eq!(table.chain(1, Chain::Entry).count(), 1);
}

#[test]
fn a_tick_names_one_thread_for_each_monitor_handed() {
    let mut table = sized(with_monitor(0, 0), 7);
    table.object_mut(2).word = 0x000201;
    for thread in [5, 2] {
        park(&mut table, thread, DUE);
    }
    park(&mut table, 3, WAITING);
    let mut both = table.clone();
    assert_eq!(ticked(&mut table), [5]);
    assert_eq!(ticked(&mut table), []);
    // At a second object too, where nobody holds the monitor.
    place(&mut both, 7, DUE.0, DUE.1);
    both.thread_mut(7).object = 2;
    both.thread_mut(7).saved_depth = 1;
    both.join(2, Chain::Waiting, 7);
    let mut one_held = both.clone();
    assert_eq!(ticked(&mut both), [5, 7]);
    // Behind a holder, whoever runs out is moved and stays parked.
    one_held.object_mut(1).monitor.holder = 4;
    assert_eq!(ticked(&mut one_held), [7]);
    assert_eq!(one_held.chain(1, Chain::Entry).count(), 2);
}

/// Thread 32, unparked in each way, has the highest bit; thread 1, unparked by a tick, the lowest.
#[test]
fn the_last_thread_has_the_last_bit() {
    let last = ThreadSet::from_bits(0x8000_0000);
    for (table, _) in handing() {
        let mut table = sized(table, 32);
        park(&mut table, 32, ENTER_QUEUED);
        assert_eq!(step(&mut table, 1).unparked, last);
    }
    for (table, _, _) in inflating() {
        let mut table = sized(table, 32);
        park(&mut table, 32, EXIT_QUEUED);
        assert_eq!(step(&mut table, 1).unparked, last);
    }
    let mut table = sized(with_monitor(0, 0), 32);
    park(&mut table, 32, DUE);
    assert_eq!(tick(&mut table).unparked, last);
    let mut table = sized(with_monitor(0, 0), 32);
    park(&mut table, 1, DUE);
    assert_eq!(tick(&mut table).unparked.bits(), 1);
}

/// Object 1's monitor is held by thread 1 at a depth, with a thread in each chain behind it.
fn crowded(depth: u16) -> Table {
    let mut table = with_monitor(1, depth);
    for (thread, parked) in [(2, ENTER_QUEUED), (3, CONTENDING), (4, DUE)] {
        park(&mut table, thread, parked);
    }
    sized(table, 6)
}

#[test]
fn begins_unpark_nobody() {
    for operation in Operation::ALL {
        let mut table = crowded(1);
        let begun = begin(&mut table, 5, operation.number(), 1, 1);
        assert_eq!(begun, Outcome::of(Returned::GoneOn));
    }
}

#[test]
fn refused_events_carry_none() {
    let mut table = crowded(u16::MAX);
    let not_owner = begin_and_step(&mut table, 5, Operation::Exit);
    assert_eq!(not_owner, Outcome::of(Returned::NotOwner).committing());
    begin_and_step(&mut table, 1, Operation::Enter);
    let too_deep = step(&mut table, 1);
    assert_eq!(too_deep, Outcome::of(Returned::TooDeep).committing());
    place(&mut table, 1, Operation::Exit, Phase::Leave);
    for (thread, returned) in [
        (1, Returned::NoRule),
        (2, Returned::ThreadParked),
        (6, Returned::ThreadIdle),
        (7, Returned::NoSuchThread),
    ] {
        assert_eq!(step(&mut table, thread), Outcome::of(returned));
    }
    table.object_mut(2).word = 0x000003;
    assert_eq!(tick(&mut table), Outcome::of(Returned::NotSound));
}

fn last_lines(input: &str, number: usize) -> Vec<String> {
    let printed = String::from_utf8(replay(input.replace("; ", "\n").as_bytes())).expect("ASCII");
    let lines: Vec<&str> = printed.lines().collect();
    let behind = lines.len() - number;
    lines[behind..].iter().map(ToString::to_string).collect()
}

/// Thread 1 waits at depth 1 with one tick, and thread 2, queued behind it, gets the monitor with the step that parks thread 1.
const PARKED_AND_HANDED: &str =
    "L 2 1 0; E 1 1; S 1; V 1 1 1; S 1; S 1; E 2 1; S 2; S 2; S 1; S 1; ";

#[test]
fn printed_behind_the_word_or_behind_a_tick_s_number() {
    assert_eq!(last_lines(PARKED_AND_HANDED, 1), ["2 14 0 000101 00000002"]);
    let handed = format!("{PARKED_AND_HANDED}S 2; C; S 1; X 2 1; S 2; S 2; C; S 3; ");
    let expected = [
        "1 0 0 000101 00000000",
        "0 00000000",
        "16",
        "0 1 0 000101 00000000",
        "0 11 0 000101 00000000",
        "1 0 0 000101 00000001",
        "0 00000000",
        "12",
    ];
    assert_eq!(last_lines(&handed, expected.len()), expected);
}

/// Threads 2 and 4 wait at objects of their own, thread 30 and 32 too: all four are handed a monitor by one tick.
#[test]
fn printed_in_lower_case() {
    let mut input = "L 32 4 1; ".to_string();
    for (thread, object) in [(2, 1), (4, 2), (30, 3), (32, 4)] {
        input += &format!("E {thread} {object}; S {thread}; V {thread} {object} 1; ");
        input += &format!("S {thread}; ").repeat(6);
    }
    assert_eq!(last_lines(&format!("{input}C; "), 1), ["0 a000000a"]);
}

#[test]
fn each_wrong_bit_is_noticed() {
    let (mut accepted, mut refused, mut unparking) = (0, 0, 0);
    let mut notice = |before: &Table, after: &Table, _: Event, outcome: Outcome| {
        assert_eq!(check_unparked(before, after, outcome), Ok(()));
        for place in 0..32 {
            let wrong = ThreadSet::from_bits(outcome.unparked.bits() ^ 1 << place);
            assert!(check_unparked(before, after, outcome.unparking(wrong)).is_err());
        }
        let is_refused = outcome.returned.is_refusal();
        refused += u32::from(is_refused);
        accepted += u32::from(!is_refused);
        unparking += u32::from(!outcome.unparked.is_empty());
    };
    for seed in 0..40 {
        each_event(&schedule(seed), &mut notice);
    }
    assert!(accepted > 0 && refused > 0 && unparking > 0);
}

/// By the tables alone: each phase before with each after.
#[test]
fn a_bit_is_set_for_who_was_parked_and_is_not() {
    let phases = [
        (Phase::Idle, false),
        (Phase::Look, false),
        (Phase::Queued(Onward::Check), true),
        (Phase::Check, false),
        (Phase::Contending, true),
        (Phase::Tell, false),
        (Phase::Waiting, true),
        (Phase::Resume, false),
    ];
    let with_phase = |phase: Phase| {
        let mut table = fresh();
        table.thread_mut(3).phase = phase;
        table
    };
    for (old, was_parked) in phases {
        for (new, is_parked) in phases {
            let bits = unparked(&with_phase(old), &with_phase(new));
            assert_eq!(bits == 0b100, was_parked && !is_parked, "{old:?} {new:?}");
            assert!(bits == 0 || bits == 0b100);
        }
    }
}
