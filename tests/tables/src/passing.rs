//! Sound tables with ranks on which a thread is about to queue up behind others, or to move some there: some of them pass others.

use reference::aim::shuffle;
use reference::random::Random;
use reference::table::{Given, Onward, Operation, Phase, Table, ThreadRecord};
use reference::table::{MAX_RANK, MAX_THREADS};
use reference::word::LockWord;

const OBJECT: u8 = 1;
/// One that acts, one that it moves, and one that is queued.
const LEAST_THREADS: u64 = 3;
const MOST_THREADS: u64 = 6;

/// What the acting thread is at, the word, and where those are that it moves.
struct Act {
    at: (Operation, Phase),
    word: LockWord,
    moved: (Operation, Phase),
}

impl Act {
    fn draw(random: &mut Random, actor: u8) -> Act {
        let own = LockWord::Flat {
            thread: actor.into(),
            count: 0,
        };
        let fat = LockWord::Fat {
            monitor: OBJECT.into(),
        };
        let contending = (Operation::Enter, Phase::Contending);
        let waiting = (Operation::Wait, Phase::Waiting);
        let look = Phase::Look;
        let going_in = ((Operation::Enter, Phase::GoIn), fat, waiting);
        let telling = ((Operation::Exit, Phase::Tell), LockWord::Free, contending);
        // One thread at most passes others by the first two.
        let (at, word, moved) = random.pick(&[
            going_in,
            going_in,
            going_in,
            telling,
            telling,
            telling,
            ((Operation::Notify, look), fat, waiting),
            ((Operation::NotifyAll, look), fat, waiting),
            ((Operation::Enter, Phase::Check), own, contending),
            ((Operation::Enter, Phase::Try), LockWord::Free, contending),
            ((Operation::Wait, Phase::Inflate), own, contending),
        ]);
        Act { at, word, moved }
    }
}

pub fn passing_table(random: &mut Random) -> Table {
    let threads = random.between(LEAST_THREADS, MOST_THREADS) as u8;
    let mut table = ranked_table(random, threads);
    let mut numbers: Vec<u8> = (1..=threads).collect();
    shuffle(random, &mut numbers);
    let (actor, other) = (numbers[0], numbers[1]);
    let act = Act::draw(random, actor);
    let goes_in = act.at.1 == Phase::GoIn;
    let object = table.object_mut(OBJECT);
    object.word = act.word.encode();
    object.contention_flag = true;
    object.monitor.holder = if goes_in { other } else { actor };
    object.monitor.depth = u16::from(matches!(act.word, LockWord::Fat { .. }));
    put(&mut table, actor, act.at);
    // The holder that one goes in behind stays idle.
    for thread in numbers.split_off(1 + usize::from(goes_in)) {
        let queued = (Operation::Enter, Phase::Queued(Onward::Check));
        let parked = random.pick(&[queued, act.moved]);
        put(&mut table, thread, parked);
    }
    table
}

/// A fresh one, of one object and with any ranks.
fn ranked_table(random: &mut Random, threads: u8) -> Table {
    let mut ranks = [0; MAX_THREADS];
    ranks.fill_with(|| random.between(0, MAX_RANK.into()) as u8);
    Table::fresh_given(threads.into(), 1, false, &Given { ranks })
        .expect("sizes and ranks in range")
}

fn put(table: &mut Table, thread: u8, (operation, phase): (Operation, Phase)) {
    let record = table.thread_mut(thread);
    *record = ThreadRecord {
        operation: Some(operation),
        object: OBJECT,
        phase,
        saved_depth: u16::from(phase.uses_saved_depth()),
        rank: record.rank,
        ..ThreadRecord::default()
    };
    if let Some(chain) = phase.chain() {
        table.join(OBJECT, chain, thread);
    }
}
