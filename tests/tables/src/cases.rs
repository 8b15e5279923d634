//! A table and an event for each number that an event returns, so that each comes up in every run. No schedule reaches some of the tables.

use reference::engine::Event;
use reference::table::{Chain, Onward, Operation, Phase, Table, ThreadRecord, MAX_DEPTH};
use reference::word::{LockWord, MAX_COUNT};

pub struct Case {
    pub number: u8,
    pub table: Table,
    pub event: Event,
}

/// The threads of the cases: one that takes the event, and one in its way.
const ONE: u8 = 1;
const OTHER: u8 = 2;
const OBJECT: u8 = 1;
const FAT: LockWord = LockWord::Fat {
    monitor: OBJECT as u16,
};

fn fresh() -> Table {
    Table::fresh(2, 1, false).expect("sizes in range")
}

/// A table with thread one at this operation and phase, in the chain of its phase. A timed wait has one tick left.
fn at(operation: Operation, phase: Phase) -> Table {
    let mut table = fresh();
    *table.thread_mut(ONE) = ThreadRecord {
        operation: Some(operation),
        object: OBJECT,
        phase,
        saved_depth: u16::from(phase.uses_saved_depth()),
        ticks: u16::from(operation == Operation::TimedWait),
        ..ThreadRecord::default()
    };
    if let Some(chain) = phase.chain() {
        table.join(OBJECT, chain, ONE);
    }
    table
}

/// The same with the object's word, and its monitor held at a depth.
fn held(mut table: Table, word: LockWord, holder: u8, depth: u16) -> Table {
    let object = table.object_mut(OBJECT);
    object.word = word.encode();
    object.monitor.holder = holder;
    object.monitor.depth = depth;
    table
}

fn begin(thread: u16, operation: u8, object: u16) -> Event {
    Event::Begin {
        thread,
        operation,
        object,
        limit: 0,
    }
}

fn timed_wait(thread: u16, object: u16, limit: u32) -> Event {
    Event::Begin {
        thread,
        operation: Operation::TimedWait.number(),
        object,
        limit,
    }
}

fn step(thread: u16) -> Event {
    Event::Step { thread }
}

fn unsound() -> Table {
    let mut table = fresh();
    table.threads = 0;
    table
}

pub fn cases() -> Vec<Case> {
    let mut cases = untimed_cases();
    cases.extend(timed_cases());
    cases.extend(inflating_cases());
    cases.extend(going_in_cases());
    cases.extend(ranked_cases());
    cases
        .into_iter()
        .map(|(number, table, event)| Case {
            number,
            table,
            event,
        })
        .collect()
}

fn untimed_cases() -> Vec<(u8, Table, Event)> {
    let flat = LockWord::Flat {
        thread: OTHER.into(),
        count: 0,
    };
    let queued = at(Operation::Enter, Phase::Queued(Onward::Check));
    let deep = held(at(Operation::Enter, Phase::GoIn), FAT, ONE, MAX_DEPTH);
    let trying = held(at(Operation::Enter, Phase::Try), flat, ONE, 0);
    vec![
        (0, fresh(), begin(1, 1, 1)),
        (1, at(Operation::Enter, Phase::Look), step(1)),
        (2, trying, step(1)),
        (11, unsound(), step(1)),
        (11, unsound(), begin(1, 1, 1)),
        (12, fresh(), step(3)),
        (12, fresh(), begin(0, 1, 1)),
        (13, fresh(), begin(1, 1, 2)),
        (14, at(Operation::Exit, Phase::Look), begin(1, 1, 1)),
        (15, fresh(), step(1)),
        (16, held(queued, FAT, OTHER, 1), step(1)),
        (16, at(Operation::Enter, Phase::Contending), step(1)),
        (16, at(Operation::Wait, Phase::Waiting), step(1)),
        (17, fresh(), begin(1, 7, 1)),
        (18, at(Operation::Exit, Phase::Look), step(1)),
        (19, deep, step(1)),
        (20, at(Operation::Enter, Phase::Check), step(1)),
        (20, at(Operation::Exit, Phase::Tell), step(1)),
    ]
}

/// The table with thread one out of ticks.
fn out_of_ticks(mut table: Table) -> Table {
    table.thread_mut(ONE).ticks = 0;
    table
}

fn timed_cases() -> Vec<(u8, Table, Event)> {
    let looking = at(Operation::TimedWait, Phase::Look);
    let waiting = at(Operation::TimedWait, Phase::Waiting);
    let resuming = held(at(Operation::TimedWait, Phase::Resume), FAT, ONE, 0);
    let mut ticking = at(Operation::Wait, Phase::Waiting);
    ticking.thread_mut(ONE).ticks = 1;
    vec![
        (0, fresh(), timed_wait(1, 1, 65_535)),
        (0, fresh(), Event::Tick),
        (0, held(waiting.clone(), FAT, 0, 0), Event::Tick),
        (0, held(waiting.clone(), FAT, OTHER, 1), Event::Tick),
        (1, resuming.clone(), step(1)),
        (1, out_of_ticks(resuming), step(1)),
        (11, unsound(), Event::Tick),
        (11, out_of_ticks(looking.clone()), step(1)),
        (11, out_of_ticks(waiting.clone()), Event::Tick),
        (11, ticking, Event::Tick),
        (14, looking.clone(), timed_wait(1, 1, 0)),
        (16, waiting, step(1)),
        (18, looking, step(1)),
        (23, fresh(), begin(1, 6, 1)),
        (23, fresh(), timed_wait(1, 1, 65_536)),
        (23, fresh(), timed_wait(1, 1, u32::MAX)),
    ]
}

/// The same with the other thread queued inside an exit, and the flag up.
fn with_exit_queued(mut table: Table) -> Table {
    table.object_mut(OBJECT).contention_flag = true;
    *table.thread_mut(OTHER) = *at(Operation::Exit, Phase::Queued(Onward::Tell)).thread(ONE);
    table.join(OBJECT, Chain::Entry, OTHER);
    table
}

/// Thread one inflates with its step, which lets the other out.
fn inflating_cases() -> Vec<(u8, Table, Event)> {
    let own = |count: u8| LockWord::Flat {
        thread: ONE.into(),
        count,
    };
    let cases = [
        (1, Operation::Enter, Phase::Check, own(MAX_COUNT)),
        (1, Operation::Enter, Phase::Try, LockWord::Free),
        (0, Operation::Wait, Phase::Inflate, own(0)),
        (0, Operation::TimedWait, Phase::Inflate, own(2)),
    ];
    cases
        .map(|(number, operation, phase, word)| {
            let table = held(at(operation, phase), word, ONE, 0);
            (number, with_exit_queued(table), step(1))
        })
        .to_vec()
}

/// Thread one is about to go in for an exit: it finishes with the flag down, whoever holds the monitor.
fn going_in_cases() -> Vec<(u8, Table, Event)> {
    let going_in = |word: LockWord, holder: u8| {
        let exit = at(Operation::Exit, Phase::GoIn);
        held(exit, word, holder, 0)
    };
    let mut flagged = going_in(LockWord::Free, OTHER);
    flagged.object_mut(OBJECT).contention_flag = true;
    vec![
        (1, going_in(LockWord::Free, 0), step(1)),
        (1, going_in(FAT, OTHER), step(1)),
        (1, going_in(FAT, ONE), step(1)),
        (2, flagged, step(1)),
    ]
}

/// The same with the ranks of the two threads.
fn ranked(mut table: Table, one: u8, other: u8) -> Table {
    table.thread_mut(ONE).rank = one;
    table.thread_mut(OTHER).rank = other;
    table
}

/// Both threads in one chain, thread one first, whose monitor it holds.
fn both_in(chain: Chain, one: u8, other: u8) -> Table {
    held(ranked(chained(chain), one, other), FAT, ONE, 1)
}

/// Ranks above 3, past the last thread and rising in an entry chain are not sound; in the other chains they may rise. Thread one, which is about to go
/// in, passes the other.
fn ranked_cases() -> Vec<(u8, Table, Event)> {
    let mut past = fresh();
    past.thread_records[usize::from(OTHER)].rank = 1;
    let mut passing = held(both_in(Chain::Entry, 0, 0), FAT, OTHER, 1);
    passing.object_mut(OBJECT).monitor.entry = OTHER;
    *passing.thread_mut(ONE) = *at(Operation::Enter, Phase::GoIn).thread(ONE);
    vec![
        (0, ranked(fresh(), 3, 3), begin(1, 1, 1)),
        (2, ranked(passing, 1, 0), step(1)),
        (11, ranked(fresh(), 4, 0), begin(1, 1, 1)),
        (11, ranked(fresh(), 0, 4), Event::Tick),
        (11, past, Event::Tick),
        (11, both_in(Chain::Entry, 0, 1), step(1)),
        (16, both_in(Chain::Entry, 1, 0), step(1)),
        (16, both_in(Chain::Contention, 0, 1), step(1)),
        (16, both_in(Chain::Waiting, 0, 1), step(1)),
    ]
}

/// Tables to be asked about: ranks, a thread behind another in each chain, a timed wait, a monitor at a depth that nobody holds, which is no owner's, and
/// words that few made tables have.
pub fn asked_about() -> Vec<Table> {
    let mut tables: Vec<Table> = Chain::ALL.into_iter().map(chained).collect();
    tables.push(ranked(fresh(), 2, 3));
    tables.push(at(Operation::TimedWait, Phase::Waiting));
    tables.push(held(fresh(), FAT, 0, 5));
    // The other thread holds the monitor of an object that the queued one owns itself, and of one that nobody owns.
    let own = LockWord::Flat {
        thread: ONE.into(),
        count: 0,
    };
    let queued = at(Operation::Wait, Phase::Queued(Onward::Inflate));
    tables.push(held(queued.clone(), own, OTHER, 0));
    tables.push(held(queued, LockWord::Free, OTHER, 0));
    // Reserved for a thread that does not own it; and a fat word that names no object, which is no lock word, whatever its monitor says.
    let unowned = LockWord::Reserved {
        thread: ONE.into(),
        count: 0,
    };
    tables.push(held(fresh(), unowned, 0, 0));
    tables.push(held(fresh(), LockWord::Fat { monitor: 0 }, ONE, 1));
    tables
}

fn chained(chain: Chain) -> Table {
    let (operation, phase) = match chain {
        Chain::Entry => (Operation::Enter, Phase::Queued(Onward::Check)),
        Chain::Contention => (Operation::Enter, Phase::Contending),
        Chain::Waiting => (Operation::Wait, Phase::Waiting),
    };
    let mut table = at(operation, phase);
    *table.thread_mut(OTHER) = ThreadRecord {
        next: 0,
        ..*table.thread(ONE)
    };
    table.join(OBJECT, chain, OTHER);
    table
}
