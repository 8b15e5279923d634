//! Request L8 on the proved engine, through its library: which ranks are sound, fresh tables with ranks, and the queue behind each way to join it. What
//! is expected is written here, and not asked of the second engine.

use duskclamp::{raw, Answer, Chain, Operation as Wanted, Refusal, Table as Engine, TABLE_SIZE};
use reference::table::{Monitor, Onward, Operation, Phase, Table, ThreadRecord};
use tables::layout::{encode, THREADS_START, THREAD_SIZE};

const QUEUED: (Operation, Phase) = (Operation::Enter, Phase::Queued(Onward::Check));
const LEAVING: (Operation, Phase) = (Operation::Exit, Phase::Queued(Onward::Tell));
const CONTENDING: (Operation, Phase) = (Operation::Enter, Phase::Contending);
const WAITING: (Operation, Phase) = (Operation::Wait, Phase::Waiting);
/// With one tick left.
const DUE: (Operation, Phase) = (Operation::TimedWait, Phase::Waiting);
const FAT: u32 = 0x000101;

/// What stands in the way of thread 1: the threads of object 1's chains, each in its order.
struct Crowd {
    entry: Vec<(u8, (Operation, Phase))>,
    contention: Vec<u8>,
    waiting: (Vec<u8>, (Operation, Phase)),
}

fn crowd(entry: &[u8], contention: &[u8], waiting: &[u8]) -> Crowd {
    Crowd {
        entry: entry.iter().map(|thread| (*thread, QUEUED)).collect(),
        contention: contention.to_vec(),
        waiting: (waiting.to_vec(), WAITING),
    }
}

fn record((operation, phase): (Operation, Phase), rank: u8, next: u8) -> ThreadRecord {
    ThreadRecord {
        operation: Some(operation),
        object: 1,
        phase,
        saved_depth: u16::from(phase.uses_saved_depth()),
        next,
        ticks: u16::from(operation == Operation::TimedWait),
        rank,
        ..ThreadRecord::default()
    }
}

/// Gives these threads their records, one behind the other, and names the first.
fn link(table: &mut Table, threads: &[(u8, (Operation, Phase))]) -> u8 {
    let mut next = 0;
    for (thread, parked) in threads.iter().rev() {
        let rank = table.thread(*thread).rank;
        *table.thread_mut(*thread) = record(*parked, rank, next);
        next = *thread;
    }
    next
}

/// All threads are idle, and have these ranks.
fn idle(ranks: &[u8]) -> Table {
    let mut table = Table::fresh(ranks.len() as u16, 1, false).expect("sizes in range");
    for (thread, rank) in (1..).zip(ranks) {
        table.thread_mut(thread).rank = *rank;
    }
    table
}

/// Object 1 has this word, the flag up, and this holder and depth; the threads have these ranks, and the chains these threads, as they are written.
fn table(ranks: &[u8], word: u32, (holder, depth): (u8, u16), crowd: &Crowd) -> Table {
    let mut table = idle(ranks);
    let all = |threads: &[u8], parked| -> Vec<_> {
        threads.iter().map(|thread| (*thread, parked)).collect()
    };
    let entry = link(&mut table, &crowd.entry);
    let contention = link(&mut table, &all(&crowd.contention, CONTENDING));
    let waiting = link(&mut table, &all(&crowd.waiting.0, crowd.waiting.1));
    let object = table.object_mut(1);
    (object.word, object.contention_flag) = (word, true);
    object.monitor = Monitor {
        holder,
        depth,
        entry,
        contention,
        waiting,
    };
    table
}

/// The same with thread 1 at a phase.
fn acting(mut table: Table, operation: Operation, phase: Phase) -> Engine {
    let rank = table.thread(1).rank;
    *table.thread_mut(1) = record((operation, phase), rank, 0);
    engine(&table)
}

fn engine(table: &Table) -> Engine {
    Engine::from_bytes(encode(table).try_into().expect("a table's size"))
}

/// A step of thread 0 is 11 on a table that is not sound, and 12 on one that is.
fn is_sound(table: &Table) -> bool {
    match engine(table).step(0).result {
        Err(Refusal::NotSound) => false,
        Err(Refusal::NoSuchThread) => true,
        other => panic!("{other:?}"),
    }
}

fn chain(engine: &Engine, chain: Chain) -> Vec<u32> {
    engine.chain(1, chain).expect("an object").collect()
}

fn entry(engine: &Engine) -> Vec<u32> {
    chain(engine, Chain::Entry)
}

fn ranks(engine: &Engine) -> Vec<u32> {
    engine.threads().map(|thread| thread.rank).collect()
}

// Soundness

#[test]
fn ranks_of_0_to_3_are_sound() {
    for rank in 0..=u8::MAX {
        for ranks in [[rank, 0], [0, rank]] {
            assert_eq!(is_sound(&idle(&ranks)), rank <= 3, "{ranks:?}");
        }
    }
}

#[test]
fn a_rank_past_the_last_thread_is_not_sound() {
    for place in [2, 31] {
        let mut table = idle(&[0, 0]);
        table.thread_records[place].rank = 1;
        assert!(!is_sound(&table), "{place}");
    }
}

/// Threads 2, 3 and 4 have these ranks, and are in one chain in this order.
#[test]
fn only_entry_chains_may_not_rise() {
    let falling = [[0, 0, 0], [3, 3, 3], [3, 2, 1], [3, 3, 0], [2, 0, 0]];
    let rising = [[0, 1, 0], [0, 1, 1], [1, 1, 2], [3, 0, 1], [2, 3, 0]];
    let crowds = [
        crowd(&[2, 3, 4], &[], &[]),
        crowd(&[], &[2, 3, 4], &[]),
        crowd(&[], &[], &[2, 3, 4]),
    ];
    for (place, crowd) in crowds.iter().enumerate() {
        let sound = |[two, three, four]: [u8; 3]| {
            is_sound(&table(&[0, two, three, four], FAT, (1, 1), crowd))
        };
        for ranks in falling {
            assert!(sound(ranks), "{place}, {ranks:?}");
        }
        for ranks in rising {
            assert_eq!(sound(ranks), place > 0, "{place}, {ranks:?}");
        }
    }
}

// Fresh tables

/// The rank is the last byte of its thread's record; all others are as without.
#[test]
fn a_fresh_table_with_ranks_by_its_bytes() {
    let given: Vec<u8> = (0..32).map(|place| place % 4).collect();
    for (threads, length) in [(32, 32), (5, 32), (32, 3), (1, 0)] {
        let (mut bytes, mut plain) = ([0xa5; TABLE_SIZE], [0; TABLE_SIZE]);
        let answer = raw::fresh_given(&mut bytes, threads, 64, 1, &given[..length]);
        assert_eq!((answer, raw::fresh(&mut plain, threads, 64, 1)), (0, 0));
        for (place, rank) in given[..length].iter().enumerate().take(threads as usize) {
            plain[THREADS_START + (place + 1) * THREAD_SIZE - 1] = *rank;
        }
        assert_eq!(bytes, plain, "{threads}, {length}");
    }
}

/// Given too few, the others have rank 0; given more than there are threads, the rest is not read, and nor is what lies behind.
#[test]
fn what_is_given_past_the_threads_is_dropped_unread() {
    let mut longer = [4; 64];
    longer[..3].copy_from_slice(&[1, 2, 3]);
    for length in [3, 4, 32, 33, 64] {
        let mut bytes = [0; TABLE_SIZE];
        assert_eq!(raw::fresh_given(&mut bytes, 3, 1, 0, &longer[..length]), 0);
        assert_eq!(ranks(&Engine::from_bytes(bytes)), [1, 2, 3]);
        // The fourth thread's would be read.
        let expected = if length > 3 { 27 } else { 0 };
        let returned = raw::fresh_given(&mut bytes, 4, 1, 0, &longer[..length]);
        assert_eq!(returned, expected, "{length}");
    }
}

#[test]
fn a_fresh_table_is_refused_with_11_then_22_then_27() {
    let calls = [
        (TABLE_SIZE - 1, 33, [4, 0], 11),
        (TABLE_SIZE + 1, 2, [4, 0], 11),
        (TABLE_SIZE, 33, [4, 0], 22),
        (TABLE_SIZE, 0, [4, 0], 22),
        (TABLE_SIZE, 2, [4, 0], 27),
        (TABLE_SIZE, 2, [0, 4], 27),
        (TABLE_SIZE, 2, [3, 0xff], 27),
    ];
    for (length, threads, given, number) in calls {
        let mut bytes = vec![0xa5; length];
        let returned = raw::fresh_given(&mut bytes, threads, 1, 0, &given);
        assert_eq!(returned, number, "{length}, {threads}, {given:?}");
        assert!(bytes.iter().all(|byte| *byte == 0xa5));
    }
}

#[test]
fn a_rank_is_asked_for_as_other_fields_are() {
    let bytes = encode(&idle(&[1, 3]));
    let asked = [1, 2, 0, 3, u32::MAX].map(|thread| raw::rank(&bytes, thread));
    assert_eq!(asked, [1 << 8, 3 << 8, 12, 12, 12]);
    assert_eq!(raw::rank(&bytes[1..], 1), 11);
}

// The five ways to join, with the queue that follows

#[test]
fn going_in() {
    let ranks = [0, 0, 1, 3, 1, 0, 3, 2];
    let mut engine = engine(&table(&ranks, FAT, (1, 1), &crowd(&[], &[], &[])));
    let queues: [&[u32]; 7] = [
        &[2],
        &[3, 2],
        &[4, 3, 2],
        &[4, 3, 5, 2],
        &[4, 3, 5, 2, 6],
        &[4, 7, 3, 5, 2, 6],
        &[4, 7, 8, 3, 5, 2, 6],
    ];
    for (thread, queue) in (2..).zip(queues) {
        engine.begin(thread, Wanted::Enter, 1).expect("a begin");
        assert_eq!(engine.step(thread).result, Ok(Answer::GoneOn));
        assert_eq!(engine.step(thread).result, Ok(Answer::Parked));
        assert_eq!(entry(&engine), queue);
        // Whoever comes, the holder stays.
        assert_eq!(engine.object(1).unwrap().holder, 1);
    }
}

/// The first contender, whatever its rank.
#[test]
fn told() {
    for (contenders, left, queue) in [([2, 3], 3, [4, 2]), ([3, 2], 2, [3, 4])] {
        let crowd = crowd(&[4], &contenders, &[]);
        let table = table(&[0, 0, 3, 1], 0, (1, 0), &crowd);
        let mut engine = acting(table, Operation::Exit, Phase::Tell);
        assert_eq!(engine.step(1).result, Ok(Answer::GoneOn));
        assert_eq!(entry(&engine), queue);
        assert_eq!(chain(&engine, Chain::Contention), [left]);
    }
}

/// The longest waiter, whatever its rank; or all in turn.
#[test]
fn notified() {
    let crowd = crowd(&[4], &[], &[5, 2, 7, 3, 6]);
    for (operation, woken, queue) in [
        (Operation::Notify, 1, vec![4, 5]),
        (Operation::NotifyAll, 5, vec![3, 6, 4, 2, 7, 5]),
    ] {
        let table = table(&[0, 1, 3, 1, 0, 3, 1], FAT, (1, 1), &crowd);
        let mut engine = acting(table, operation, Phase::Look);
        assert_eq!(engine.step(1).result, Ok(Answer::Finished { woken }));
        assert_eq!(entry(&engine), queue);
    }
}

#[test]
fn moved_by_inflating() {
    let finished = Answer::Finished { woken: 0 };
    for (operation, phase, word, answer) in [
        (Operation::Enter, Phase::Check, 0x0001fc, finished),
        (Operation::Enter, Phase::Try, 0x000000, finished),
        (Operation::Wait, Phase::Inflate, 0x000100, Answer::GoneOn),
    ] {
        // The contenders join the queue, each at its place; then the exits in it are let out.
        let crowd = Crowd {
            entry: vec![(8, LEAVING), (6, QUEUED), (9, LEAVING)],
            ..crowd(&[], &[7, 2, 3, 4, 5], &[])
        };
        let ranks = [0, 1, 2, 1, 2, 1, 0, 3, 0];
        let table = table(&ranks, word, (1, 0), &crowd);
        let mut engine = acting(table, operation, phase);
        let step = engine.step(1);
        assert_eq!(step.result, Ok(answer));
        assert!(step.unparked.iter().eq([8, 9]));
        assert_eq!(entry(&engine), [3, 5, 6, 2, 4, 7]);
        assert_eq!(chain(&engine, Chain::Contention), [0; 0]);
    }
}

/// Behind a holder; and where there is none, the first by rank is handed the monitor.
#[test]
fn run_out() {
    let due = |entry: &[u8]| Crowd {
        waiting: (vec![5, 2, 3, 6, 7], DUE),
        ..crowd(entry, &[], &[])
    };
    let ranks = [0, 1, 2, 1, 0, 1, 2];
    let mut held = engine(&table(&ranks, FAT, (1, 1), &due(&[4])));
    assert!(held.tick().expect("a tick").iter().eq([0; 0]));
    assert_eq!(entry(&held), [3, 7, 4, 2, 6, 5]);
    let mut unheld = engine(&table(&ranks, FAT, (0, 0), &due(&[])));
    assert!(unheld.tick().expect("a tick").iter().eq([3]));
    assert_eq!(unheld.object(1).unwrap().holder, 3);
    assert_eq!(entry(&unheld), [7, 2, 6, 5]);
}

// What stays by time, and what stays

#[test]
fn contenders_and_waiters_join_at_the_end() {
    let flat_of_4 = 0x000400;
    let contended = table(&[3, 0, 1, 0], flat_of_4, (1, 0), &crowd(&[], &[2, 3], &[]));
    let mut engine = acting(contended, Operation::Enter, Phase::Try);
    assert_eq!(engine.step(1).result, Ok(Answer::Parked));
    assert_eq!(chain(&engine, Chain::Contention), [2, 3, 1]);
    let waited = table(&[3, 0, 1, 0], FAT, (1, 1), &crowd(&[], &[], &[2, 3]));
    let mut engine = acting(waited, Operation::Wait, Phase::Wait);
    assert_eq!(engine.step(1).result, Ok(Answer::Parked));
    assert_eq!(chain(&engine, Chain::Waiting), [2, 3, 1]);
}

/// Finished, refused with 18 and with 19, and let out by another's step.
#[test]
fn an_idle_thread_keeps_its_rank() {
    let nobody = crowd(&[], &[], &[]);
    let deep = table(&[3, 1], FAT, (1, u16::MAX), &nobody);
    let unowned = table(&[3, 1], FAT, (2, 1), &nobody);
    let let_out = Crowd {
        entry: vec![(2, LEAVING)],
        ..crowd(&[], &[], &[])
    };
    let inflating = table(&[3, 1], 0x000000, (1, 0), &let_out);
    let finished = Ok(Answer::Finished { woken: 0 });
    for (table, operation, phase, result) in [
        (deep.clone(), Operation::Notify, Phase::Look, finished),
        (
            unowned,
            Operation::Exit,
            Phase::Look,
            Err(Refusal::NotOwner),
        ),
        (deep, Operation::Enter, Phase::GoIn, Err(Refusal::TooDeep)),
        (inflating, Operation::Enter, Phase::Try, finished),
    ] {
        let mut engine = acting(table, operation, phase);
        assert_eq!(engine.step(1).result, result);
        assert!([1, 2]
            .iter()
            .all(|thread| engine.phase(*thread).unwrap().number() == 0));
        assert_eq!(ranks(&engine), [3, 1]);
    }
}
