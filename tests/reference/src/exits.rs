//! Request L2's exits: whom one that is parked waits for, and which were let out.

use crate::engine::Event;
use crate::table::{Operation, Phase, Table};
use crate::word::LockWord;

/// A thread parked inside an exit waits only for another unparked thread that holds the monitor at depth 0. That one is at the object too, whose word
/// is not fat.
pub fn check_parked(table: &Table) -> Result<(), String> {
    for thread in 1..=table.threads {
        let record = table.thread(thread);
        let is_exit = record.operation == Some(Operation::Exit);
        if is_exit && record.phase.is_parked() {
            check_awaited(table, thread, record.object)
                .map_err(|wrong| format!("thread {thread} is parked inside an exit: {wrong}"))?;
        }
    }
    Ok(())
}

fn check_awaited(table: &Table, thread: u8, object: u8) -> Result<(), String> {
    let record = table.object(object);
    let (holder, depth) = (record.monitor.holder, record.monitor.depth);
    if holder == 0 || holder == thread {
        return Err(format!("the holder is {holder}"));
    }
    if depth != 0 {
        return Err(format!("the depth is {depth}"));
    }
    let awaited = table.thread(holder);
    if awaited.phase.is_parked() {
        return Err(format!("the holder {holder} is parked"));
    }
    if awaited.object != object {
        return Err(format!("the holder {holder} is at {}", awaited.object));
    }
    match LockWord::decode(record.word) {
        Some(LockWord::Fat { .. }) => Err("the word is fat".to_string()),
        _ => Ok(()),
    }
}

/// The threads that another's event has made idle.
pub fn let_out(before: &Table, after: &Table, event: Event) -> Vec<u8> {
    let own = match event {
        Event::Begin { thread, .. } | Event::Step { thread } => thread,
        Event::Tick => 0,
    };
    let idle = |table: &Table, thread: u8| table.thread(thread).phase == Phase::Idle;
    (1..=after.threads)
        .filter(|&thread| u16::from(thread) != own)
        .filter(|&thread| !idle(before, thread) && idle(after, thread))
        .collect()
}
