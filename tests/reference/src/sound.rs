//! Soundness of a table: one function for each clause of document 01, in its order, one for the ticks of request L1, and two for the ranks of L8.
//! Widths already rule out the rest: a flag is a bool, a depth sixteen bits, ticks too, a phase one of its enum.

use crate::table::{Chain, ObjectRecord, Onward, Operation, Phase, Table, ThreadRecord};
use crate::table::{MAX_OBJECTS, MAX_RANK, MAX_THREADS};
use crate::word::{LockWord, MAX_COUNT};

pub fn is_sound(table: &Table) -> bool {
    sizes_in_range(table)
        && words_valid(table)
        && phases_fit_operations(table)
        && kept_words_fit(table)
        && saved_depths_fit(table)
        && ticks_fit(table)
        && ranks_in_range(table)
        && holders_in_range(table)
        && unheld_monitors_empty(table)
        && chains_end(table)
        && parked_threads_chained(table)
        && entry_chains_fall(table)
        && unused_fields_zero(table)
}

/// The records in use, with their numbers. Counts past the arrays are caught by the first clause.
fn threads(table: &Table) -> impl Iterator<Item = (u8, &ThreadRecord)> {
    let used = usize::from(table.threads);
    (1..).zip(table.thread_records.iter().take(used))
}

fn objects(table: &Table) -> impl Iterator<Item = (u8, &ObjectRecord)> {
    let used = usize::from(table.objects);
    (1..).zip(table.object_records.iter().take(used))
}

pub fn sizes_in_range(table: &Table) -> bool {
    (1..=MAX_THREADS).contains(&usize::from(table.threads))
        && (1..=MAX_OBJECTS).contains(&usize::from(table.objects))
}

pub fn words_valid(table: &Table) -> bool {
    objects(table).all(|(object, record)| match LockWord::decode(record.word) {
        Some(LockWord::Free | LockWord::Anonymous) => true,
        Some(LockWord::Flat { thread, .. } | LockWord::Reserved { thread, .. }) => {
            thread <= u16::from(table.threads)
        }
        Some(LockWord::Fat { monitor }) => monitor == u16::from(object),
        None => false,
    })
}

pub fn phases_fit_operations(table: &Table) -> bool {
    threads(table).all(|(_, record)| {
        record.phase == Phase::Idle
            || (1..=table.objects).contains(&record.object)
                && record
                    .operation
                    .is_some_and(|operation| operation_uses(operation, record.phase))
    })
}

fn operation_uses(operation: Operation, phase: Phase) -> bool {
    match (operation, phase) {
        (Operation::Enter, Phase::Queued(onward)) => onward == Onward::Check,
        (Operation::Exit, Phase::Queued(onward)) => onward == Onward::Tell,
        (Operation::Wait | Operation::TimedWait, Phase::Queued(onward)) => {
            matches!(onward, Onward::Inflate | Onward::Resume)
        }
        (Operation::Enter, phase) => matches!(phase.number(), 1..=8),
        (Operation::Exit, phase) => matches!(phase.number(), 1 | 2 | 4 | 9..=11),
        (Operation::Wait | Operation::TimedWait, phase) => {
            matches!(phase.number(), 1 | 3 | 4 | 12..=15)
        }
        (Operation::Notify | Operation::NotifyAll, phase) => phase == Phase::Look,
    }
}

pub fn kept_words_fit(table: &Table) -> bool {
    threads(table)
        .filter(|(_, record)| record.phase == Phase::Store)
        .all(
            |(number, record)| match LockWord::decode(record.kept_word) {
                Some(LockWord::Reserved { thread, count }) if thread == u16::from(number) => {
                    match record.operation {
                        Some(Operation::Enter) => count < MAX_COUNT,
                        Some(Operation::Exit) => count > 0,
                        _ => false,
                    }
                }
                _ => false,
            },
        )
}

pub fn saved_depths_fit(table: &Table) -> bool {
    threads(table)
        .filter(|(_, record)| record.phase.uses_saved_depth())
        .all(|(_, record)| record.saved_depth > 0)
}

/// A timed wait has ticks left in every phase, but for a woken one that ran out.
pub fn ticks_fit(table: &Table) -> bool {
    threads(table).all(|(_, record)| !record.has_run_out() || record.phase.is_woken())
}

pub fn ranks_in_range(table: &Table) -> bool {
    threads(table).all(|(_, record)| record.rank <= MAX_RANK)
}

pub fn holders_in_range(table: &Table) -> bool {
    objects(table).all(|(_, record)| record.monitor.holder <= table.threads)
}

pub fn unheld_monitors_empty(table: &Table) -> bool {
    objects(table).all(|(_, record)| {
        let monitor = &record.monitor;
        monitor.holder != 0 || (monitor.depth == 0 && monitor.entry == 0)
    })
}

pub fn chains_end(table: &Table) -> bool {
    objects(table).all(|(_, record)| {
        let firsts = Chain::ALL.map(|chain| record.monitor.first(chain));
        firsts.into_iter().all(|first| chain_ends(table, first))
    })
}

fn chain_ends(table: &Table, first: u8) -> bool {
    let mut thread = first;
    for _ in 0..table.threads {
        if thread == 0 {
            return true;
        }
        if thread > table.threads {
            return false;
        }
        thread = table.thread(thread).next;
    }
    thread == 0
}

/// Needs chains that end. A thread met twice stands in two chains.
pub fn parked_threads_chained(table: &Table) -> bool {
    let mut met: u32 = 0;
    for (object, record) in objects(table) {
        if record.monitor.chains_empty() {
            continue;
        }
        for chain in Chain::ALL {
            for number in table.chain(object, chain) {
                let thread = table.thread(number);
                let fits = thread.object == object && thread.phase.chain() == Some(chain);
                if !fits || met & bit_of(number) != 0 {
                    return false;
                }
                met |= bit_of(number);
            }
        }
    }
    threads(table).all(|(number, record)| !record.phase.is_parked() || met & bit_of(number) != 0)
}

/// Needs chains that end. Nobody is queued for entry behind a thread of lower rank; the other two chains have no ranks.
pub fn entry_chains_fall(table: &Table) -> bool {
    objects(table).all(|(object, _)| {
        let ranks = table
            .chain(object, Chain::Entry)
            .map(|thread| table.thread(thread).rank);
        ranks.is_sorted_by(|before, behind| before >= behind)
    })
}

/// A thread's bit in a set of the thirty-two.
fn bit_of(thread: u8) -> u32 {
    1 << (thread - 1)
}

pub fn unused_fields_zero(table: &Table) -> bool {
    let past_threads = &table.thread_records[usize::from(table.threads)..];
    let past_objects = &table.object_records[usize::from(table.objects)..];
    threads(table).all(|(_, record)| thread_unused_zero(record))
        && past_threads
            .iter()
            .all(|record| *record == ThreadRecord::default())
        && past_objects
            .iter()
            .all(|record| *record == ObjectRecord::default())
}

fn thread_unused_zero(record: &ThreadRecord) -> bool {
    let idle = record.phase == Phase::Idle;
    (!idle || (record.operation.is_none() && record.object == 0))
        && (record.phase == Phase::Store || record.kept_word == 0)
        && (record.phase.uses_saved_depth() || record.saved_depth == 0)
        && (record.phase.is_parked() || record.next == 0)
        && (record.operation == Some(Operation::TimedWait) || record.ticks == 0)
}
