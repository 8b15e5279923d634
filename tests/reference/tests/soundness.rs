//! Unsound tables: at least one for each clause, which that clause refuses and every event answers with 11.

mod common;

use common::{fresh, park, place, with_monitor, with_word, ENTER_QUEUED, OBJECTS, THREADS};
use reference::engine::{begin, step, tick};
use reference::outcome::Returned;
use reference::sound;
use reference::table::{Onward, Operation, Phase, Table, ThreadRecord, MAX_THREADS};

type Clause = fn(&Table) -> bool;

/// The clause refuses the table, and so do all three events, leaving it as it was.
fn refused(clause: Clause, table: Table) {
    assert!(!clause(&table), "{table:?}");
    let mut after = table.clone();
    assert_eq!(begin(&mut after, 1, 1, 1, 0).returned, Returned::NotSound);
    assert_eq!(step(&mut after, 0).returned, Returned::NotSound);
    assert_eq!(tick(&mut after).returned, Returned::NotSound);
    assert_eq!(after, table);
}

/// A sound table altered in one way.
fn altered(mut table: Table, alter: impl FnOnce(&mut Table)) -> Table {
    assert!(sound::is_sound(&table), "{table:?}");
    alter(&mut table);
    table
}

/// Thread 1 owns the monitor of object 1, 2 is queued for entry, 3 waits there.
fn crowded() -> Table {
    let mut table = with_monitor(1, 1);
    place(
        &mut table,
        2,
        Operation::Enter,
        Phase::Queued(Onward::Check),
    );
    place(&mut table, 3, Operation::Wait, Phase::Waiting);
    table.thread_mut(3).saved_depth = 5;
    table.object_mut(1).monitor.entry = 2;
    table.object_mut(1).monitor.waiting = 3;
    table
}

fn storing(operation: Operation, kept_word: u32) -> Table {
    let mut table = with_word(1, 0x000206);
    place(&mut table, 2, operation, Phase::Store);
    table.thread_mut(2).kept_word = kept_word;
    table
}

#[test]
fn sizes() {
    refused(
        sound::sizes_in_range,
        altered(fresh(), |table| table.threads = 0),
    );
    refused(
        sound::sizes_in_range,
        altered(fresh(), |table| table.threads = 33),
    );
    refused(
        sound::sizes_in_range,
        altered(fresh(), |table| table.objects = 0),
    );
    refused(
        sound::sizes_in_range,
        altered(fresh(), |table| table.objects = 65),
    );
}

#[test]
fn words() {
    // No lock word, a thread past T flat and reserved, and monitors of another object.
    for word in [0x000003, 0x000004, 0x000500, 0x000506, 0x000201, 0x000001] {
        refused(
            sound::words_valid,
            altered(fresh(), |table| table.object_mut(1).word = word),
        );
    }
}

#[test]
fn operations_and_phases() {
    let wrong = [
        (Operation::Enter, Phase::Test),
        (Operation::Exit, Phase::Cancel),
        (Operation::Exit, Phase::Check),
        (Operation::Wait, Phase::Store),
        (Operation::Wait, Phase::Leave),
        (Operation::TimedWait, Phase::Store),
        (Operation::TimedWait, Phase::Leave),
        (Operation::Notify, Phase::GoIn),
        (Operation::NotifyAll, Phase::Store),
        (Operation::Enter, Phase::Queued(Onward::Tell)),
        (Operation::Exit, Phase::Queued(Onward::Check)),
        (Operation::Wait, Phase::Queued(Onward::Check)),
        (Operation::TimedWait, Phase::Queued(Onward::Check)),
        (Operation::TimedWait, Phase::Queued(Onward::Tell)),
        (Operation::Notify, Phase::Queued(Onward::Resume)),
    ];
    for (operation, phase) in wrong {
        let table = altered(fresh(), |table| place(table, 1, operation, phase));
        refused(sound::phases_fit_operations, table);
    }
    let mut looking = fresh();
    place(&mut looking, 1, Operation::Enter, Phase::Look);
    for object in [0, OBJECTS + 1] {
        let table = altered(looking.clone(), |table| table.thread_mut(1).object = object);
        refused(sound::phases_fit_operations, table);
    }
    let table = altered(looking, |table| table.thread_mut(1).operation = None);
    refused(sound::phases_fit_operations, table);
}

#[test]
fn kept_words() {
    // Free, flat, another's, anonymous, no word.
    for kept_word in [0, 0x000200, 0x000306, 0x000002, 0x000003] {
        refused(sound::kept_words_fit, storing(Operation::Enter, kept_word));
    }
    assert!(sound::is_sound(&storing(Operation::Enter, 0x000202)));
    assert!(sound::is_sound(&storing(Operation::Exit, 0x0002fe)));
    refused(sound::kept_words_fit, storing(Operation::Enter, 0x0002fe));
    refused(sound::kept_words_fit, storing(Operation::Exit, 0x000202));
}

#[test]
fn saved_depths() {
    let zero = |table: &mut Table| table.thread_mut(3).saved_depth = 0;
    refused(sound::saved_depths_fit, altered(crowded(), zero));
    let mut resuming = with_monitor(3, 0);
    place(&mut resuming, 3, Operation::Wait, Phase::Resume);
    refused(sound::saved_depths_fit, resuming);
    let mut queued = with_monitor(1, 1);
    place(
        &mut queued,
        3,
        Operation::Wait,
        Phase::Queued(Onward::Resume),
    );
    queued.object_mut(1).monitor.entry = 3;
    refused(sound::saved_depths_fit, queued);
}

/// Thread 3 is at a phase of a timed wait on object 1, in the chain of that phase, with so many ticks left.
fn timed(phase: Phase, ticks: u16) -> Table {
    let mut table = with_monitor(1, 1);
    place(&mut table, 3, Operation::TimedWait, phase);
    let record = table.thread_mut(3);
    record.ticks = ticks;
    record.saved_depth = u16::from(phase.uses_saved_depth());
    if let Some(chain) = phase.chain() {
        table.join(1, chain, 3);
    }
    table
}

#[test]
fn ticks() {
    let unwoken = [
        Phase::Look,
        Phase::Cancel,
        Phase::GoIn,
        Phase::Queued(Onward::Inflate),
        Phase::Inflate,
        Phase::Wait,
        Phase::Waiting,
    ];
    for phase in unwoken {
        refused(sound::ticks_fit, timed(phase, 0));
    }
    let woken = [Phase::Queued(Onward::Resume), Phase::Resume];
    for phase in woken {
        assert!(sound::is_sound(&timed(phase, 0)));
    }
    for phase in unwoken.into_iter().chain(woken) {
        for ticks in [1, u16::MAX] {
            assert!(sound::is_sound(&timed(phase, ticks)), "{phase:?}");
        }
    }
}

#[test]
fn ranks() {
    for rank in 1..=3 {
        for table in [fresh(), crowded(), storing(Operation::Enter, 0x000202)] {
            let table = altered(table, |table| table.thread_mut(2).rank = rank);
            assert!(sound::is_sound(&table));
        }
    }
    for rank in [4, 5, u8::MAX] {
        for thread in [1, THREADS] {
            let above = |table: &mut Table| table.thread_mut(thread).rank = rank;
            refused(sound::ranks_in_range, altered(fresh(), above));
            refused(sound::ranks_in_range, altered(crowded(), above));
        }
    }
}

/// Threads 2, 3 and 4 are parked in one chain of object 1, in this order, and have these ranks.
fn in_chain(parked: (Operation, Phase), ranks: [u8; 3]) -> Table {
    let mut table = with_monitor(1, 1);
    for thread in 2..=4 {
        park(&mut table, thread, parked);
    }
    for (thread, rank) in (2..).zip(ranks) {
        table.thread_mut(thread).rank = rank;
    }
    table
}

/// Neither at the first link nor at a later one. A wrong program: it asks for rising ranks.
#[test]
fn entry_chains_do_not_rise() {
    for ranks in [[0, 0, 0], [3, 3, 3], [3, 2, 1], [3, 3, 0], [2, 0, 0]] {
        assert!(sound::is_sound(&in_chain(ENTER_QUEUED, ranks)), "{ranks:?}");
    }
    let rising = [
        [0, 1, 0],
        [0, 1, 1],
        [0, 1, 2],
        [1, 1, 2],
        [3, 0, 1],
        [2, 3, 0],
    ];
    let contending = (Operation::Enter, Phase::Contending);
    let waiting = (Operation::Wait, Phase::Waiting);
    for ranks in rising {
        refused(sound::entry_chains_fall, in_chain(ENTER_QUEUED, ranks));
        for unranked in [contending, waiting] {
            assert!(sound::is_sound(&in_chain(unranked, ranks)), "{ranks:?}");
        }
    }
}

/// Those of every object.
#[test]
fn entry_chains_of_later_objects_do_not_rise_either() {
    let mut table = in_chain(ENTER_QUEUED, [0, 1, 0]);
    for thread in 2..=4 {
        table.thread_mut(thread).object = 2;
    }
    table.object_mut(2).monitor = table.object(1).monitor;
    table.object_mut(1).monitor.entry = 0;
    refused(sound::entry_chains_fall, table.clone());
    table.thread_mut(3).rank = 0;
    assert!(sound::is_sound(&table));
}

#[test]
fn holders() {
    let past = |table: &mut Table| table.object_mut(1).monitor.holder = THREADS + 1;
    refused(sound::holders_in_range, altered(fresh(), past));
}

#[test]
fn unheld_monitors() {
    let deep = |table: &mut Table| table.object_mut(2).monitor.depth = 1;
    refused(sound::unheld_monitors_empty, altered(fresh(), deep));
    let unheld = |table: &mut Table| {
        table.object_mut(1).monitor.holder = 0;
        table.object_mut(1).monitor.depth = 0;
    };
    refused(sound::unheld_monitors_empty, altered(crowded(), unheld));
}

#[test]
fn chains() {
    let past = |table: &mut Table| table.thread_mut(2).next = THREADS + 1;
    refused(sound::chains_end, altered(crowded(), past));
    let ring = |table: &mut Table| table.thread_mut(2).next = 2;
    refused(sound::chains_end, altered(crowded(), ring));
    let first_past = |table: &mut Table| table.object_mut(1).monitor.contention = THREADS + 1;
    refused(sound::chains_end, altered(crowded(), first_past));
}

#[test]
fn parked_threads() {
    let clause: Clause = sound::parked_threads_chained;
    // In no chain, in two, in another object's, in one for another phase.
    refused(
        clause,
        altered(crowded(), |table| table.object_mut(1).monitor.waiting = 0),
    );
    refused(
        clause,
        altered(crowded(), |table| table.object_mut(2).monitor.waiting = 3),
    );
    refused(
        clause,
        altered(crowded(), |table| table.thread_mut(3).object = 2),
    );
    refused(
        clause,
        altered(crowded(), |table| table.thread_mut(2).next = 3),
    );
    refused(
        clause,
        altered(crowded(), |table| {
            table.object_mut(1).monitor.contention = 2
        }),
    );
    // An idle thread and a thread at work.
    refused(
        clause,
        altered(crowded(), |table| table.thread_mut(3).next = 4),
    );
    let looking = |table: &mut Table| {
        place(table, 4, Operation::Enter, Phase::Look);
        table.object_mut(1).monitor.contention = 4;
    };
    refused(clause, altered(crowded(), looking));
}

#[test]
fn records_past_the_sizes() {
    let clause: Clause = sound::unused_fields_zero;
    let past_threads = usize::from(THREADS);
    let past_objects = usize::from(OBJECTS);
    refused(
        clause,
        altered(fresh(), |table| table.thread_records[past_threads].next = 1),
    );
    refused(
        clause,
        altered(fresh(), |table| {
            table.thread_records[past_threads].ticks = 1
        }),
    );
    for place in [past_threads, MAX_THREADS - 1] {
        let rank = |table: &mut Table| table.thread_records[place].rank = 1;
        refused(clause, altered(fresh(), rank));
    }
    refused(
        clause,
        altered(fresh(), |table| table.object_records[past_objects].word = 2),
    );
    let last_flag = |table: &mut Table| table.object_records[63].contention_flag = true;
    refused(clause, altered(fresh(), last_flag));
}

#[test]
fn unused_fields() {
    let refuse = |table: Table, alter: fn(&mut ThreadRecord)| {
        let table = altered(table, |table| alter(table.thread_mut(2)));
        refused(sound::unused_fields_zero, table);
    };
    // An idle thread uses nothing.
    refuse(fresh(), |thread| thread.operation = Some(Operation::Enter));
    refuse(fresh(), |thread| thread.object = 1);
    refuse(fresh(), |thread| thread.kept_word = 0x000202);
    refuse(fresh(), |thread| thread.saved_depth = 1);
    refuse(fresh(), |thread| thread.next = 1);
    refuse(fresh(), |thread| thread.ticks = 1);
    // A queued enter has neither a kept word nor a saved depth, a storing one no saved depth and no next.
    refuse(crowded(), |thread| thread.kept_word = 0x000202);
    refuse(crowded(), |thread| thread.saved_depth = 1);
    refuse(crowded(), |thread| thread.ticks = 1);
    refuse(storing(Operation::Enter, 0x000202), |thread| {
        thread.saved_depth = 1
    });
    refuse(storing(Operation::Enter, 0x000202), |thread| {
        thread.next = 1
    });
    // A wait without a limit has no ticks.
    let waiting = altered(crowded(), |table| table.thread_mut(3).ticks = 1);
    refused(sound::unused_fields_zero, waiting);
}

#[test]
fn a_holder_may_be_at_any_depth() {
    assert!(sound::is_sound(&with_monitor(4, 0)));
    assert!(sound::is_sound(&with_monitor(4, u16::MAX)));
    assert!(sound::is_sound(&crowded()));
}
