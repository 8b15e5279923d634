//! Request L8: ranks given with the fresh table, and how threads join the entry chain by them.

mod common;

use common::{begin_and_step, held, inflating, park, place, step_to, with_monitor, with_word};
use common::{ENTER_QUEUED, EXIT_QUEUED, FAT, FREE};
use reference::engine::{begin, step, tick};
use reference::generate::given_schedule;
use reference::given::{read_given, write_given};
use reference::outcome::{Outcome, Returned};
use reference::replay::{open_given, open_schedule, replay};
use reference::sound::is_sound;
use reference::table::{Chain, Given, Onward, Operation, Phase, Table, MAX_DEPTH, MAX_THREADS};

const CONTENDING: (Operation, Phase) = (Operation::Enter, Phase::Contending);
const WAITING: (Operation, Phase) = (Operation::Wait, Phase::Waiting);
/// With one tick left.
const DUE: (Operation, Phase) = (Operation::TimedWait, Phase::Waiting);
const LOW_AND_HIGH: [u8; 2] = [0, 3];

/// The table with eight threads, of these ranks from the first on.
fn ranked<const COUNT: usize>(table: Table, ranks: [u8; COUNT]) -> Table {
    let mut table = Table {
        threads: 8,
        ..table
    };
    for (thread, rank) in (1..).zip(ranks) {
        table.thread_mut(thread).rank = rank;
    }
    table
}

fn chain(table: &Table, chain: Chain) -> Vec<u8> {
    table.chain(1, chain).collect()
}

fn entry(table: &Table) -> Vec<u8> {
    chain(table, Chain::Entry)
}

fn ranks(table: &Table) -> [u8; MAX_THREADS] {
    table.thread_records.map(|record| record.rank)
}

/// These ranks, and 0 for every other thread.
fn given<const COUNT: usize>(first: [u8; COUNT]) -> Given {
    let mut given = Given::default();
    given.ranks[..COUNT].copy_from_slice(&first);
    given
}

// Fresh tables

#[test]
fn a_fresh_table_has_the_ranks_that_it_is_given() {
    let made = Table::fresh_given(4, 1, false, &given([3, 0, 2, 1])).expect("ranks in range");
    assert_eq!(ranks(&made), given([3, 0, 2, 1]).ranks);
    assert!(is_sound(&made));
    let all = Given {
        ranks: [3; MAX_THREADS],
    };
    let made = Table::fresh_given(32, 64, true, &all).expect("ranks in range");
    assert_eq!(ranks(&made), all.ranks);
}

/// A wrong program: ranks past T read.
#[test]
fn ranks_past_the_last_thread_are_dropped_unread() {
    for past in [1, 3, 4, u8::MAX] {
        let made = Table::fresh_given(2, 1, false, &given([1, 2, past, past]));
        let made = made.expect("nothing is read past the last thread");
        assert_eq!(ranks(&made), given([1, 2]).ranks);
        assert!(is_sound(&made));
    }
}

#[test]
fn a_rank_above_3_is_27_behind_22() {
    for rank in [4, 7, u8::MAX] {
        for first in [given([rank, 0]), given([0, rank])] {
            let refused = Table::fresh_given(2, 1, false, &first);
            assert_eq!(refused, Err(Returned::RankOutOfRange));
            for (threads, objects) in [(0, 1), (33, 1), (2, 0), (2, 65)] {
                let refused = Table::fresh_given(threads, objects, false, &first);
                assert_eq!(refused, Err(Returned::SizesOutOfRange));
            }
        }
    }
    assert_eq!(Returned::RankOutOfRange.number(), 27);
}

#[test]
fn the_replay_gives_every_thread_rank_0() {
    let (table, _) = open_schedule(b"L 32 1 0\n").expect("a good header");
    assert_eq!(ranks(&table), [0; MAX_THREADS]);
    assert_eq!(replay(b"L 2 1 0\npoke rank 2 3\n"), b"21\n");
}

// The five ways to join, with the queue that follows

/// One thread after another goes in: behind the last of its own rank or a higher one. Wrong programs: before equals, or at the end.
#[test]
fn going_in() {
    let queues: [&[u8]; 7] = [
        &[2],
        &[3, 2],
        &[4, 3, 2],
        &[4, 3, 5, 2],
        &[4, 3, 5, 2, 6],
        &[4, 7, 3, 5, 2, 6],
        &[4, 7, 8, 3, 5, 2, 6],
    ];
    for operation in [
        Operation::Enter,
        Operation::Exit,
        Operation::Wait,
        Operation::TimedWait,
    ] {
        let mut table = ranked(with_monitor(1, 1), [0, 0, 1, 3, 1, 0, 3, 2]);
        table.object_mut(1).contention_flag = true;
        for (thread, queue) in (2..).zip(queues) {
            place(&mut table, thread, operation, Phase::GoIn);
            assert_eq!(step_to(&mut table, thread), (2, 5));
            assert_eq!(entry(&table), queue, "{operation:?}");
            assert!(is_sound(&table));
        }
    }
}

/// Thread 1 is about to tell, with these threads in the contention chain; thread 4 is queued.
fn telling(contenders: [u8; 2], ranks: [u8; 4]) -> Table {
    let mut table = ranked(held(FREE, Operation::Exit, Phase::Tell), ranks);
    park(&mut table, 4, ENTER_QUEUED);
    for thread in contenders {
        park(&mut table, thread, CONTENDING);
    }
    table
}

/// The first contender is told whatever its rank, and joins by it.
#[test]
fn told() {
    for (contenders, left, queue) in [([2, 3], 3, [4, 2]), ([3, 2], 2, [3, 4])] {
        let mut table = telling(contenders, [0, 0, 3, 1]);
        assert!(is_sound(&table));
        assert_eq!(step_to(&mut table, 1), (0, 11));
        assert_eq!(entry(&table), queue);
        assert_eq!(chain(&table, Chain::Contention), [left]);
    }
    // Of its own rank thread 4 was there before.
    let mut table = telling([2, 3], [0, 1, 3, 1]);
    step(&mut table, 1);
    assert_eq!(entry(&table), [4, 2]);
}

/// Thread 1 owns the monitor, thread 4 is queued, and these threads wait, in this order.
fn waited_for<const COUNT: usize>(
    waiters: [u8; COUNT],
    parked: (Operation, Phase),
    ranks: [u8; 8],
) -> Table {
    let mut table = ranked(with_monitor(1, 1), ranks);
    park(&mut table, 4, ENTER_QUEUED);
    for thread in waiters {
        park(&mut table, thread, parked);
    }
    table
}

/// A notify wakes the longest waiter whatever its rank, which joins by it.
#[test]
fn notified() {
    let ranks = [0, 0, 3, 1, 1, 0, 0, 0];
    for (waiters, left, queue) in [
        ([2, 3], 3, [4, 2]),
        ([3, 2], 2, [3, 4]),
        ([5, 3], 3, [4, 5]),
    ] {
        let mut table = waited_for(waiters, WAITING, ranks);
        assert_eq!(begin_and_step(&mut table, 1, Operation::Notify).woken, 1);
        assert_eq!(entry(&table), queue);
        assert_eq!(chain(&table, Chain::Waiting), [left]);
        assert!(is_sound(&table));
    }
}

/// Each joins in turn, in its old order: that decides among equals.
#[test]
fn all_notified() {
    let mut table = waited_for([5, 2, 7, 3, 6], WAITING, [0, 1, 3, 1, 0, 3, 1, 0]);
    let outcome = begin_and_step(&mut table, 1, Operation::NotifyAll);
    assert_eq!((outcome.returned, outcome.woken), (Returned::Finished, 5));
    assert_eq!(entry(&table), [3, 6, 4, 2, 7, 5]);
    assert!(is_sound(&table));
}

#[test]
fn moved_by_inflating() {
    for (table, _, _) in inflating() {
        let mut table = ranked(table, [0, 1, 2, 1, 2, 1, 0, 0]);
        park(&mut table, 6, ENTER_QUEUED);
        for thread in [7, 2, 3, 4, 5] {
            park(&mut table, thread, CONTENDING);
        }
        assert!(is_sound(&table));
        step(&mut table, 1);
        assert_eq!(entry(&table), [3, 5, 6, 2, 4, 7]);
        assert_eq!(chain(&table, Chain::Contention), []);
        assert!(is_sound(&table));
    }
}

#[test]
fn run_out() {
    let ranks = [0, 1, 2, 1, 0, 1, 2, 0];
    let mut table = waited_for([5, 2, 3, 6, 7], DUE, ranks);
    assert_eq!(tick(&mut table), Outcome::of(Returned::GoneOn));
    assert_eq!(entry(&table), [3, 7, 4, 2, 6, 5]);
    assert!(is_sound(&table));
}

/// Where nobody holds the monitor, it goes to the first by rank, and not to the longest waiter.
#[test]
fn run_out_and_handed() {
    let mut table = ranked(with_monitor(0, 0), [0, 1, 2, 1, 0, 1, 2, 0]);
    for thread in [5, 2, 3, 6, 7] {
        park(&mut table, thread, DUE);
    }
    let handed = [3].into_iter().collect();
    let expected = Outcome::of(Returned::GoneOn).unparking(handed);
    assert_eq!(tick(&mut table), expected);
    assert_eq!(table.object(1).monitor.holder, 3);
    assert_eq!(table.thread(3).phase, Phase::Resume);
    assert_eq!(entry(&table), [7, 2, 6, 5]);
}

// The other two chains

/// A wrong program: the contention chain by rank.
#[test]
fn contenders_are_by_time() {
    let mut table = ranked(with_word(1, 0x000100), [0, 1, 3, 2]);
    for thread in [2, 3, 4] {
        table.object_mut(1).monitor.holder = thread;
        place(&mut table, thread, Operation::Enter, Phase::Try);
        assert_eq!(step_to(&mut table, thread), (2, 8));
    }
    assert_eq!(chain(&table, Chain::Contention), [2, 3, 4]);
    assert!(is_sound(&table));
}

#[test]
fn waiters_are_by_time() {
    let mut table = ranked(with_word(1, FAT), [0, 1, 3, 2]);
    for thread in [2, 3, 4] {
        let monitor = &mut table.object_mut(1).monitor;
        (monitor.holder, monitor.depth) = (thread, 1);
        place(&mut table, thread, Operation::Wait, Phase::Wait);
        assert_eq!(step_to(&mut table, thread), (2, 14));
    }
    assert_eq!(chain(&table, Chain::Waiting), [2, 3, 4]);
    assert!(is_sound(&table));
}

// Handing and leaving

#[test]
fn the_holder_is_passed_by_nobody() {
    let mut table = ranked(with_monitor(1, 0), [0, 0, 3]);
    place(&mut table, 1, Operation::Exit, Phase::Leave);
    for thread in [2, 3] {
        place(&mut table, thread, Operation::Enter, Phase::GoIn);
        assert_eq!(step_to(&mut table, thread), (2, 5));
        assert_eq!(table.object(1).monitor.holder, 1);
    }
    let handed = [3].into_iter().collect();
    let left = Outcome::of(Returned::Finished).unparking(handed);
    assert_eq!(step(&mut table, 1), left);
    assert_eq!(table.object(1).monitor.holder, 3);
    assert_eq!(entry(&table), [2]);
}

#[test]
fn exits_let_out_leave_the_others_in_order() {
    for (table, _, _) in inflating() {
        let mut table = ranked(table, [0, 3, 3, 2, 2, 1, 0, 0]);
        for (thread, parked) in [
            (2, EXIT_QUEUED),
            (3, ENTER_QUEUED),
            (4, ENTER_QUEUED),
            (5, EXIT_QUEUED),
            (6, ENTER_QUEUED),
            (7, EXIT_QUEUED),
        ] {
            park(&mut table, thread, parked);
        }
        assert!(is_sound(&table));
        step(&mut table, 1);
        assert_eq!(entry(&table), [3, 4, 6]);
        assert!(is_sound(&table));
    }
}

// The idle record. A wrong program: it drops the rank.

/// Thread 2 has a rank, and is idle after a step of a thread.
fn stays_ranked(mut table: Table, stepped: u16) {
    let before = ranks(&table);
    step(&mut table, stepped);
    assert_eq!(table.thread(2).phase, Phase::Idle);
    assert_eq!(ranks(&table), before);
    assert!(is_sound(&table));
}

/// However an operation ends: finished, refused with 18 or with 19, and let out by another's step.
#[test]
fn an_idle_thread_keeps_its_rank() {
    for rank in LOW_AND_HIGH {
        let at = |table: Table, operation: Operation, phase: Phase| {
            let mut table = ranked(table, [1, rank]);
            place(&mut table, 2, operation, phase);
            table
        };
        stays_ranked(at(with_word(1, FREE), Operation::Enter, Phase::Look), 2);
        stays_ranked(at(with_word(1, FREE), Operation::Exit, Phase::Look), 2);
        let deep = with_monitor(2, MAX_DEPTH);
        stays_ranked(at(deep, Operation::Enter, Phase::GoIn), 2);
        for (table, _, _) in inflating() {
            let mut table = ranked(table, [1, rank]);
            park(&mut table, 2, EXIT_QUEUED);
            stays_ranked(table, 1);
        }
    }
}

#[test]
fn a_begin_keeps_the_rank() {
    for rank in LOW_AND_HIGH {
        let mut table = ranked(with_word(1, FREE), [rank; 8]);
        for (thread, operation) in (1..).zip(Operation::ALL) {
            begin(&mut table, thread, operation.number(), 1, 1);
        }
        assert_eq!(ranks(&table)[..8], [rank; 8]);
    }
}

// Schedules with ranks

#[test]
fn ranks_behind_the_header_are_read_as_written() {
    let mut text = b"L 4 1 0\n".to_vec();
    write_given(&given([0, 3, 1]), &mut text);
    assert_eq!(text, b"L 4 1 0\npoke rank 2 3\npoke rank 3 1\n");
    assert_eq!(read_given(&text), given([0, 3, 1]));
    // Only right behind the header, with a newline, of a thread that there can be, and as a byte.
    for other in [
        "poke rank 1 1\n",
        "L 4 1 0\nC\npoke rank 1 1\n",
        "L 4 1 0\npoke rank 1 1",
        "L 4 1 0\npoke rank 0 1\n",
        "L 4 1 0\npoke rank 33 1\n",
        "L 4 1 0\npoke rank 1 256\n",
    ] {
        assert_eq!(read_given(other.as_bytes()), Given::default(), "{other}");
    }
}

/// In a good part of them threads have different ranks, and in some what is given past the last thread is no rank.
#[test]
fn generated_schedules_give_ranks() {
    let (mut ranked, mut past) = (0, 0);
    for seed in 0..400 {
        let text = given_schedule(seed);
        let given = read_given(&text);
        let Some((table, _)) = open_given(&text, &given) else {
            continue;
        };
        let (used, rest) = given.ranks.split_at(table.threads.into());
        ranked += usize::from(used.iter().any(|rank| *rank != used[0]));
        past += usize::from(rest.iter().any(|rank| *rank > 3));
    }
    assert!(ranked >= 150, "{ranked}");
    assert!(past >= 50, "{past}");
}

/// A thread queued for 15 has its place by its rank as any other.
#[test]
fn what_a_thread_carries_does_not_count() {
    let mut table = ranked(with_monitor(1, 1), [0, 1, 1, 1, 2]);
    for (thread, parked) in [
        (2, (Operation::Wait, Phase::Queued(Onward::Resume))),
        (3, (Operation::Wait, Phase::Queued(Onward::Inflate))),
        (4, EXIT_QUEUED),
        (5, (Operation::Wait, Phase::Queued(Onward::Resume))),
    ] {
        park(&mut table, thread, parked);
    }
    assert_eq!(entry(&table), [5, 2, 3, 4]);
}
