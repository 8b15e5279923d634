//! Tables and runs that several tests start from.
#![allow(dead_code)] // each test file uses some of it

use reference::engine::{apply, begin, step, Event};
use reference::outcome::{Outcome, Returned};
use reference::replay::{open_schedule, Line};
use reference::table::{Monitor, Onward, Operation, Phase, Table, ThreadRecord};

pub const THREADS: u8 = 4;
pub const OBJECTS: u8 = 2;
/// Words of object 1: free, thread 1's at depths 1 and 64, and its monitor's.
pub const FREE: u32 = 0x000000;
pub const FLAT_1: u32 = 0x000100;
pub const FLAT_1_AT_64: u32 = 0x0001fc;
pub const FAT: u32 = 0x000101;
pub const EXIT_QUEUED: (Operation, Phase) = (Operation::Exit, Phase::Queued(Onward::Tell));
pub const ENTER_QUEUED: (Operation, Phase) = (Operation::Enter, Phase::Queued(Onward::Check));

pub fn fresh() -> Table {
    Table::fresh(THREADS.into(), OBJECTS.into(), false).expect("sizes in range")
}

/// A table with one word set.
pub fn with_word(object: u8, word: u32) -> Table {
    let mut table = fresh();
    table.object_mut(object).word = word;
    table
}

/// A table whose object 1 is a monitor held by a thread at a depth.
pub fn with_monitor(holder: u8, depth: u16) -> Table {
    let mut table = with_word(1, FAT);
    table.object_mut(1).monitor = Monitor {
        holder,
        depth,
        ..Monitor::default()
    };
    table
}

/// Puts a thread at a phase of an operation on object 1. A timed wait has one tick left.
pub fn place(table: &mut Table, thread: u8, operation: Operation, phase: Phase) {
    let record = table.thread_mut(thread);
    *record = ThreadRecord {
        operation: Some(operation),
        object: 1,
        phase,
        ticks: u16::from(operation == Operation::TimedWait),
        rank: record.rank,
        ..ThreadRecord::default()
    };
}

/// Object 1 has this word, the flag up, and thread 1 as holder, at a phase of an operation.
pub fn held(word: u32, operation: Operation, phase: Phase) -> Table {
    let mut table = with_word(1, word);
    table.object_mut(1).contention_flag = true;
    table.object_mut(1).monitor.holder = 1;
    place(&mut table, 1, operation, phase);
    table
}

/// Puts a thread into the chain of its phase, with a depth of 7 saved where that has one.
pub fn park(table: &mut Table, thread: u8, (operation, phase): (Operation, Phase)) {
    place(table, thread, operation, phase);
    if phase.uses_saved_depth() {
        table.thread_mut(thread).saved_depth = 7;
    }
    table.join(1, phase.chain().expect("a parked phase"), thread);
}

/// The three steps that inflate: the table before, with nobody else there, the returned number, and the depth after.
pub fn inflating() -> [(Table, Returned, u16); 3] {
    [
        (
            held(FLAT_1_AT_64, Operation::Enter, Phase::Check),
            Returned::Finished,
            65,
        ),
        (
            held(FREE, Operation::Enter, Phase::Try),
            Returned::Finished,
            1,
        ),
        (
            held(FLAT_1, Operation::Wait, Phase::Inflate),
            Returned::GoneOn,
            1,
        ),
    ]
}

/// Begins an operation on object 1, a timed wait with the shortest limit, and takes its first step.
pub fn begin_and_step(table: &mut Table, thread: u16, operation: Operation) -> Outcome {
    let begun = begin(table, thread, operation.number(), 1, 1);
    assert_eq!(begun.returned, Returned::GoneOn);
    step(table, thread)
}

/// Steps a thread and gives the returned number and the phase it is left in.
pub fn step_to(table: &mut Table, thread: u8) -> (u8, u8) {
    let outcome = step(table, thread.into());
    (
        outcome.returned.number(),
        table.thread(thread).phase.number(),
    )
}

/// Shows every event of a schedule, with the tables before and after it.
pub fn each_event(input: &[u8], mut show: impl FnMut(&Table, &Table, Event, Outcome)) {
    let Some((mut table, lines)) = open_schedule(input) else {
        return;
    };
    for line in lines {
        if let Some(Line::Event(event)) = line {
            let before = table.clone();
            let outcome = apply(&mut table, event);
            show(&before, &table, event, outcome);
        }
    }
}
