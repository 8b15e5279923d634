//! Request L1: the steps of a timed wait, and what a tick does to the threads that wait.

mod common;

use common::{begin_and_step, fresh, place, step_to, with_monitor, with_word, FAT, FLAT_1, FREE};
use reference::engine::{begin, step, tick};
use reference::outcome::{Outcome, Returned};
use reference::table::{Chain, Onward, Operation, Phase, Table, MAX_LIMIT};

const RESERVED_1: u32 = 0x000106;

/// Puts a thread at the end of an object's waiting chain, at depth 7, with these ticks left; an untimed one where that is 0.
fn wait_on(table: &mut Table, object: u8, thread: u8, ticks: u16) {
    let operation = match ticks {
        0 => Operation::Wait,
        _ => Operation::TimedWait,
    };
    place(table, thread, operation, Phase::Waiting);
    let record = table.thread_mut(thread);
    record.object = object;
    record.saved_depth = 7;
    record.ticks = ticks;
    table.join(object, Chain::Waiting, thread);
}

fn wait(table: &mut Table, thread: u8, ticks: u16) {
    wait_on(table, 1, thread, ticks);
}

/// A tick that is accepted and unparks nobody.
fn accepted_tick(table: &mut Table) {
    tick_unparks(table, &[]);
}

fn tick_unparks(table: &mut Table, threads: &[u8]) {
    let unparked = threads.iter().copied().collect();
    let accepted = Outcome::of(Returned::GoneOn).unparking(unparked);
    assert_eq!(tick(table), accepted);
}

fn chain(table: &Table, chain: Chain) -> Vec<u8> {
    table.chain(1, chain).collect()
}

/// What a timed wait finishes with, as run out or not.
fn finished(run_out: bool) -> Outcome {
    Outcome {
        woken: run_out.into(),
        ..Outcome::of(Returned::Finished).committing()
    }
}

/// The phases that the owner of object 1 with this word comes to until it waits.
fn phases(operation: Operation, word: u32) -> Vec<u8> {
    let mut table = match word {
        FAT => with_monitor(1, 1),
        _ => with_word(1, word),
    };
    begin(&mut table, 1, operation.number(), 1, 9);
    let mut phases = vec![table.thread(1).phase.number()];
    while phases.last() != Some(&14) {
        phases.push(step_to(&mut table, 1).1);
        let timed = operation == Operation::TimedWait;
        assert_eq!(table.thread(1).ticks, if timed { 9 } else { 0 });
    }
    phases
}

#[test]
fn the_steps_are_those_of_a_wait() {
    for operation in [Operation::Wait, Operation::TimedWait] {
        assert_eq!(phases(operation, FLAT_1), [1, 4, 12, 13, 14]);
        assert_eq!(phases(operation, RESERVED_1), [1, 3, 1, 4, 12, 13, 14]);
        assert_eq!(phases(operation, FAT), [1, 13, 14]);
    }
}

#[test]
fn not_the_owner_s() {
    let mut table = with_word(1, FREE);
    let outcome = begin_and_step(&mut table, 2, Operation::TimedWait);
    assert_eq!(outcome, Outcome::of(Returned::NotOwner).committing());
    assert_eq!(table, with_word(1, FREE));
}

#[test]
fn a_tick_on_a_fresh_table() {
    let mut table = fresh();
    accepted_tick(&mut table);
    assert_eq!(table, fresh());
}

#[test]
fn only_waiting_threads_lose_ticks() {
    let others = [
        Phase::Look,
        Phase::Cancel,
        Phase::GoIn,
        Phase::Queued(Onward::Inflate),
        Phase::Queued(Onward::Resume),
        Phase::Inflate,
        Phase::Wait,
        Phase::Resume,
    ];
    for phase in others {
        let mut table = with_monitor(1, 1);
        place(&mut table, 3, Operation::TimedWait, phase);
        table.thread_mut(3).saved_depth = u16::from(phase.uses_saved_depth());
        if phase.is_parked() {
            table.join(1, Chain::Entry, 3);
        }
        let before = table.clone();
        accepted_tick(&mut table);
        assert_eq!(table, before, "{phase:?}");
    }
}

#[test]
fn ticks_fall_one_by_one() {
    let mut table = with_monitor(1, 1);
    wait(&mut table, 3, MAX_LIMIT);
    accepted_tick(&mut table);
    let mut expected = with_monitor(1, 1);
    wait(&mut expected, 3, MAX_LIMIT - 1);
    assert_eq!(table, expected);
}

#[test]
fn handed_where_nobody_holds() {
    let mut table = with_monitor(0, 0);
    wait(&mut table, 3, 1);
    tick_unparks(&mut table, &[3]);
    let mut expected = with_monitor(3, 0);
    place(&mut expected, 3, Operation::TimedWait, Phase::Resume);
    expected.thread_mut(3).saved_depth = 7;
    expected.thread_mut(3).ticks = 0;
    assert_eq!(table, expected);
    assert_eq!(step(&mut table, 3), finished(true));
    assert_eq!(table, with_monitor(3, 7));
}

#[test]
fn queued_behind_others_where_one_holds() {
    // A holder keeps the monitor at any depth, 0 included.
    for depth in [0, 1] {
        let mut table = with_monitor(1, depth);
        let check = Phase::Queued(Onward::Check);
        place(&mut table, 2, Operation::Enter, check);
        table.join(1, Chain::Entry, 2);
        wait(&mut table, 3, 1);
        accepted_tick(&mut table);
        let monitor = table.object(1).monitor;
        assert_eq!((monitor.holder, monitor.depth), (1, depth));
        assert_eq!(chain(&table, Chain::Entry), [2, 3]);
        assert_eq!(chain(&table, Chain::Waiting), []);
        let record = table.thread(3);
        assert_eq!(record.phase, Phase::Queued(Onward::Resume));
        assert_eq!((record.saved_depth, record.ticks), (7, 0));
    }
}

#[test]
fn in_chain_order_and_the_others_stay() {
    let mut table = with_monitor(0, 0);
    for (thread, ticks) in [(3, 1), (1, 0), (4, 1), (2, 2)] {
        wait(&mut table, thread, ticks);
    }
    tick_unparks(&mut table, &[3]);
    assert_eq!(table.object(1).monitor.holder, 3);
    assert_eq!(table.thread(3).phase, Phase::Resume);
    assert_eq!(chain(&table, Chain::Entry), [4]);
    assert_eq!(chain(&table, Chain::Waiting), [1, 2]);
    assert_eq!((table.thread(1).ticks, table.thread(2).ticks), (0, 1));
    // The next tick moves 2 behind 4; the untimed wait of 1 stays, however many come.
    for _ in 0..3 {
        accepted_tick(&mut table);
        assert_eq!(chain(&table, Chain::Entry), [4, 2]);
        assert_eq!(chain(&table, Chain::Waiting), [1]);
    }
}

#[test]
fn every_object_in_one_tick() {
    let mut table = with_monitor(0, 0);
    table.object_mut(2).word = 0x000201;
    wait_on(&mut table, 1, 4, 1);
    wait_on(&mut table, 2, 3, 1);
    tick_unparks(&mut table, &[3, 4]);
    let holders = [1, 2].map(|object| table.object(object).monitor.holder);
    assert_eq!(holders, [4, 3]);
    assert_eq!(step(&mut table, 3), finished(true));
    assert_eq!(step(&mut table, 4), finished(true));
}

#[test]
fn notified_in_time() {
    for operation in [Operation::Notify, Operation::NotifyAll] {
        let mut table = with_monitor(1, 1);
        wait(&mut table, 3, 1);
        assert_eq!(begin_and_step(&mut table, 1, operation).woken, 1);
        accepted_tick(&mut table);
        assert_eq!(table.thread(3).ticks, 1);
        begin_and_step(&mut table, 1, Operation::Exit);
        assert_eq!(step_to(&mut table, 1), (1, 0));
        accepted_tick(&mut table);
        assert_eq!(table.thread(3).phase, Phase::Resume);
        assert_eq!(table.thread(3).ticks, 1);
        assert_eq!(step(&mut table, 3), finished(false));
        assert_eq!(table, with_monitor(3, 7));
    }
}

#[test]
fn run_out_is_not_there_to_be_notified() {
    let mut table = with_monitor(1, 1);
    wait(&mut table, 3, 1);
    wait(&mut table, 2, 2);
    accepted_tick(&mut table);
    // The longest waiter is thread 2 by now.
    assert_eq!(begin_and_step(&mut table, 1, Operation::Notify).woken, 1);
    assert_eq!(chain(&table, Chain::Entry), [3, 2]);
    assert_eq!((table.thread(3).ticks, table.thread(2).ticks), (0, 1));
    assert_eq!(begin_and_step(&mut table, 1, Operation::NotifyAll).woken, 0);
}
