//! Each refusal from 11 to 23, their order, and the table they leave.

mod common;

use common::{begin_and_step, fresh, place, step_to, with_monitor, with_word};
use reference::engine::{begin, step, tick};
use reference::outcome::{Outcome, Returned};
use reference::replay::replay;
use reference::table::{Onward, Operation, Phase, Table, MAX_LIMIT};

fn unchanged(table: &Table, expected: Returned, event: impl FnOnce(&mut Table) -> Outcome) {
    let mut after = table.clone();
    assert_eq!(event(&mut after), Outcome::of(expected));
    assert_eq!(after, *table);
}

/// Thread 1 at work, thread 2 queued on its monitor.
fn two_at_work() -> Table {
    let mut table = with_monitor(1, 1);
    place(&mut table, 1, Operation::Enter, Phase::Look);
    place(
        &mut table,
        2,
        Operation::Enter,
        Phase::Queued(Onward::Check),
    );
    table.object_mut(1).monitor.entry = 2;
    table
}

#[test]
fn not_sound_comes_first() {
    let table = with_word(2, 0x000003);
    unchanged(&table, Returned::NotSound, |table| begin(table, 0, 9, 9, 0));
    unchanged(&table, Returned::NotSound, |table| step(table, 9));
    unchanged(&table, Returned::NotSound, tick);
}

#[test]
fn begins_in_order() {
    let table = two_at_work();
    unchanged(&table, Returned::NoSuchThread, |table| {
        begin(table, 0, 9, 9, 0)
    });
    unchanged(&table, Returned::NoSuchThread, |table| {
        begin(table, 5, 1, 1, 0)
    });
    unchanged(&table, Returned::NoSuchThread, |table| {
        begin(table, 257, 1, 1, 0)
    });
    unchanged(&table, Returned::NoSuchOperation, |table| {
        begin(table, 1, 0, 9, 0)
    });
    unchanged(&table, Returned::NoSuchOperation, |table| {
        begin(table, 3, 7, 1, 0)
    });
    unchanged(&table, Returned::NoSuchObject, |table| {
        begin(table, 1, 1, 0, 0)
    });
    unchanged(&table, Returned::NoSuchObject, |table| {
        begin(table, 3, 5, 3, 0)
    });
    unchanged(&table, Returned::NoSuchObject, |table| {
        begin(table, 3, 5, 257, 0)
    });
    unchanged(&table, Returned::ThreadBusy, |table| {
        begin(table, 1, 5, 2, 0)
    });
    unchanged(&table, Returned::ThreadBusy, |table| {
        begin(table, 2, 1, 1, 0)
    });
}

const TIMED_WAIT: u8 = 6;
/// Limits that no timed wait has; the last two look like short ones to whoever cuts them off at sixteen bits.
const NO_LIMITS: [u32; 5] = [0, 65_536, u32::MAX, 65_536 + 1, 5 << 16 | 7];

#[test]
fn limits_come_last() {
    let table = two_at_work();
    for limit in NO_LIMITS {
        unchanged(&table, Returned::NoSuchThread, |table| {
            begin(table, 5, TIMED_WAIT, 9, limit)
        });
        unchanged(&table, Returned::NoSuchOperation, |table| {
            begin(table, 1, 7, 9, limit)
        });
        unchanged(&table, Returned::NoSuchObject, |table| {
            begin(table, 1, TIMED_WAIT, 9, limit)
        });
        unchanged(&table, Returned::ThreadBusy, |table| {
            begin(table, 2, TIMED_WAIT, 1, limit)
        });
        unchanged(&table, Returned::LimitOutOfRange, |table| {
            begin(table, 3, TIMED_WAIT, 2, limit)
        });
    }
}

#[test]
fn limits_are_for_timed_waits_alone() {
    for operation in Operation::ALL {
        let limit = u32::from(MAX_LIMIT);
        let mut table = fresh();
        let outcome = begin(&mut table, 1, operation.number(), 1, limit);
        assert_eq!(outcome, Outcome::of(Returned::GoneOn));
        let timed = operation == Operation::TimedWait;
        assert_eq!(table.thread(1).ticks, if timed { MAX_LIMIT } else { 0 });
    }
    for limit in NO_LIMITS {
        for operation in 1..TIMED_WAIT {
            let mut table = fresh();
            let outcome = begin(&mut table, 1, operation, 1, limit);
            assert_eq!(outcome, Outcome::of(Returned::GoneOn));
            assert_eq!(table.thread(1).ticks, 0);
        }
    }
}

#[test]
fn steps_in_order() {
    let mut table = two_at_work();
    unchanged(&table, Returned::NoSuchThread, |table| step(table, 0));
    unchanged(&table, Returned::NoSuchThread, |table| step(table, 5));
    unchanged(&table, Returned::ThreadIdle, |table| step(table, 3));
    unchanged(&table, Returned::ThreadParked, |table| step(table, 2));
    place(&mut table, 3, Operation::Wait, Phase::Waiting);
    table.thread_mut(3).saved_depth = 1;
    table.object_mut(1).monitor.waiting = 3;
    unchanged(&table, Returned::ThreadParked, |table| step(table, 3));
    let mut table = with_word(1, 0x000100);
    place(&mut table, 2, Operation::Enter, Phase::Contending);
    table.object_mut(1).monitor.contention = 2;
    unchanged(&table, Returned::ThreadParked, |table| step(table, 2));
}

#[test]
fn not_the_owner() {
    let others = [0x000000, 0x000002, 0x000100, 0x000106, 0x000202];
    let operations = [
        Operation::Exit,
        Operation::Wait,
        Operation::Notify,
        Operation::NotifyAll,
        Operation::TimedWait,
    ];
    for operation in operations {
        for word in others {
            let mut table = with_word(1, word);
            let outcome = begin_and_step(&mut table, 2, operation);
            assert_eq!(outcome, Outcome::of(Returned::NotOwner).committing());
            assert_eq!(table, with_word(1, word));
        }
        // A holder at depth 0 does not own.
        for (holder, depth) in [(1, 7), (2, 0)] {
            let mut table = with_monitor(holder, depth);
            let outcome = begin_and_step(&mut table, 2, operation);
            assert_eq!(outcome.returned, Returned::NotOwner);
            assert_eq!(table, with_monitor(holder, depth));
        }
    }
}

#[test]
fn too_deep() {
    let mut table = with_monitor(2, u16::MAX);
    let begun = begin_and_step(&mut table, 2, Operation::Enter);
    assert_eq!(begun.returned, Returned::GoneOn);
    let outcome = step(&mut table, 2);
    assert_eq!(outcome, Outcome::of(Returned::TooDeep).committing());
    assert_eq!(table, with_monitor(2, u16::MAX));
}

/// A step of thread 2 at a phase has no rule on this table.
fn no_rule(mut table: Table, operation: Operation, phase: Phase) {
    place(&mut table, 2, operation, phase);
    if phase.uses_saved_depth() {
        table.thread_mut(2).saved_depth = 1;
    }
    unchanged(&table, Returned::NoRule, |table| step(table, 2));
}

#[test]
fn no_rule_without_holding() {
    let phases = [
        (Operation::Enter, Phase::Check),
        (Operation::Enter, Phase::Try),
        (Operation::Exit, Phase::Tell),
        (Operation::Exit, Phase::Leave),
        (Operation::Wait, Phase::Inflate),
        (Operation::Wait, Phase::Wait),
        (Operation::Wait, Phase::Resume),
        (Operation::TimedWait, Phase::Inflate),
        (Operation::TimedWait, Phase::Wait),
        (Operation::TimedWait, Phase::Resume),
    ];
    for (operation, phase) in phases {
        no_rule(with_monitor(1, 0), operation, phase);
        no_rule(fresh(), operation, phase);
    }
}

#[test]
fn no_rule_while_holding() {
    let held = |word: u32, depth: u16| {
        let mut table = with_monitor(2, depth);
        table.object_mut(1).word = word;
        table
    };
    let fat = 0x000101;
    // An exit goes in with the flag up alone.
    let mut flagged = held(fat, 1);
    flagged.object_mut(1).contention_flag = true;
    no_rule(flagged, Operation::Exit, Phase::GoIn);
    no_rule(held(fat, 0), Operation::Enter, Phase::GoIn);
    no_rule(held(fat, 1), Operation::Enter, Phase::Check);
    no_rule(held(0x000002, 0), Operation::Enter, Phase::Check);
    no_rule(held(0x000206, 0), Operation::Enter, Phase::Check);
    no_rule(held(fat, 0), Operation::Enter, Phase::Try);
    no_rule(held(0x000200, 0), Operation::Enter, Phase::Try);
    no_rule(held(0x000102, 0), Operation::Enter, Phase::Try);
    no_rule(held(fat, 1), Operation::Exit, Phase::Leave);
    for wait in [Operation::Wait, Operation::TimedWait] {
        no_rule(held(fat, 1), wait, Phase::GoIn);
        no_rule(held(0x000100, 0), wait, Phase::Inflate);
        no_rule(held(0x000000, 0), wait, Phase::Inflate);
        no_rule(held(fat, 0), wait, Phase::Wait);
        no_rule(held(0x000200, 1), wait, Phase::Wait);
        no_rule(held(fat, 1), wait, Phase::Resume);
        no_rule(held(0x000000, 0), wait, Phase::Resume);
    }
}

#[test]
fn program_refusals() {
    assert_eq!(replay(b"L 1 1 0\nS x\n"), b"21\n");
    assert_eq!(replay(b"L 33 1 0\n"), b"22\n");
    assert_eq!(Table::fresh(1, 65, true), Err(Returned::SizesOutOfRange));
}

#[test]
fn accepted_where_no_refusal_applies() {
    let mut table = fresh();
    for (thread, operation) in (1..=4).zip(Operation::ALL) {
        let outcome = begin(&mut table, thread, operation.number(), 2, 1);
        assert_eq!(outcome, Outcome::of(Returned::GoneOn));
        assert_eq!(table.thread(thread as u8).phase, Phase::Look);
    }
    assert_eq!(step_to(&mut table, 1), (1, 0));
}
