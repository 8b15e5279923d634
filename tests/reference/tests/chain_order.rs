//! That the check of request L8's order passes good events and notices each kind of violation, and that threads which pass others are counted by the way
//! in which they joined.

mod common;

use common::{held, inflating, park, place, with_monitor, ENTER_QUEUED, FREE};
use reference::chain_order::ChainOrder;
use reference::engine::{apply, Event};
use reference::met::{Met, Rare};
use reference::table::{Chain, Operation, Phase, Table};

const CONTENDING: (Operation, Phase) = (Operation::Enter, Phase::Contending);
const DUE: (Operation, Phase) = (Operation::TimedWait, Phase::Waiting);
const STEP_1: Event = Event::Step { thread: 1 };

fn fed(before: &Table, after: &Table, event: Event) -> Result<Met, String> {
    let mut met = Met::default();
    ChainOrder::new(before)
        .feed(before, after, event, &mut met)
        .map(|()| met)
}

fn violation(before: &Table, after: &Table, event: Event, text: &str) {
    let wrong = fed(before, after, event).expect_err("a violation");
    assert!(wrong.contains(text), "{wrong}");
}

fn ranked(mut table: Table, ranks: [u8; 4]) -> Table {
    for (thread, rank) in (1..).zip(ranks) {
        table.thread_mut(thread).rank = rank;
    }
    table
}

/// Thread 1 holds the monitor; 2 is queued, 3 is about to go in.
fn going_in(ranks: [u8; 4]) -> (Table, Event) {
    let mut table = ranked(with_monitor(1, 1), ranks);
    park(&mut table, 2, ENTER_QUEUED);
    place(&mut table, 3, Operation::Enter, Phase::GoIn);
    (table, Event::step(3))
}

/// Thread 1 is about to tell the contender 3, with 2 queued.
fn telling(ranks: [u8; 4]) -> (Table, Event) {
    let mut table = ranked(held(FREE, Operation::Exit, Phase::Tell), ranks);
    park(&mut table, 2, ENTER_QUEUED);
    park(&mut table, 3, CONTENDING);
    (table, STEP_1)
}

/// Thread 1 is about to notify the waiter 3, with 2 queued.
fn notifying(ranks: [u8; 4]) -> (Table, Event) {
    let mut table = ranked(with_monitor(1, 1), ranks);
    place(&mut table, 1, Operation::Notify, Phase::Look);
    park(&mut table, 2, ENTER_QUEUED);
    park(&mut table, 3, (Operation::Wait, Phase::Waiting));
    (table, STEP_1)
}

/// The wait of thread 3 is about to run out, with 2 queued behind the holder 1.
fn running_out(ranks: [u8; 4]) -> (Table, Event) {
    let mut table = ranked(with_monitor(1, 1), ranks);
    park(&mut table, 2, ENTER_QUEUED);
    park(&mut table, 3, DUE);
    (table, Event::Tick)
}

/// The waits of threads 2 and 3 are about to run out, in this order, and nobody holds the monitor.
fn running_out_unheld(ranks: [u8; 4]) -> (Table, Event) {
    let mut table = ranked(with_monitor(0, 0), ranks);
    park(&mut table, 2, DUE);
    park(&mut table, 3, DUE);
    (table, Event::Tick)
}

/// Thread 1 is about to inflate, with 2 queued and the contender 3.
fn inflate_next(place: usize, ranks: [u8; 4]) -> (Table, Event) {
    let (table, _, _) = inflating()[place].clone();
    let mut table = ranked(table, ranks);
    park(&mut table, 2, ENTER_QUEUED);
    park(&mut table, 3, CONTENDING);
    (table, STEP_1)
}

/// Every way to join, by which thread 3 passes thread 2 if its rank is higher.
fn joins(ranks: [u8; 4]) -> Vec<(Rare, Table, Event)> {
    let mut joins = vec![
        (Rare::PassedGoingIn, going_in(ranks)),
        (Rare::PassedTold, telling(ranks)),
        (Rare::PassedNotified, notifying(ranks)),
        (Rare::PassedRunOut, running_out(ranks)),
        (Rare::PassedRunOut, running_out_unheld(ranks)),
    ];
    joins.extend((0..3).map(|place| (Rare::PassedInflated, inflate_next(place, ranks))));
    let made = joins.into_iter();
    made.map(|(rare, (table, event))| (rare, table, event))
        .collect()
}

fn applied(before: &Table, event: Event) -> Table {
    let mut after = before.clone();
    assert!(!apply(&mut after, event).returned.is_refusal());
    after
}

#[test]
fn passing_is_counted_by_the_way() {
    for (ranks, number) in [([0, 0, 1, 0], 1), ([0, 1, 1, 0], 0), ([0, 1, 0, 0], 0)] {
        for (rare, before, event) in joins(ranks) {
            let met = fed(&before, &applied(&before, event), event).expect("no violation");
            for other in Rare::ALL {
                let expected = if other == rare { number } else { 0 };
                assert_eq!(met.number(other), expected, "{rare:?}: {other:?}");
            }
        }
    }
}

/// The entry chain of object 1 as it is, but turned round.
fn turned_round(table: &Table) -> Table {
    let queued: Vec<u8> = table.chain(1, Chain::Entry).collect();
    let mut turned = table.clone();
    turned.object_mut(1).monitor.entry = 0;
    for thread in &queued {
        let behind = turned.object(1).monitor.entry;
        turned.thread_mut(*thread).next = behind;
        turned.object_mut(1).monitor.entry = *thread;
    }
    turned
}

/// Behind a lower rank, before a higher one, and before an equal that was there.
#[test]
fn wrong_places_are_noticed() {
    for ranks in [[0, 0, 1, 0], [0, 1, 0, 0], [0, 1, 1, 0]] {
        for (_, before, event) in joins(ranks) {
            let after = applied(&before, event);
            if after.chain(1, Chain::Entry).count() == 2 {
                violation(&before, &turned_round(&after), event, "chain Entry is");
            }
        }
    }
}

/// Those that one event moves join in their old order.
#[test]
fn equals_moved_in_another_order_are_noticed() {
    let mut before = with_monitor(1, 1);
    park(&mut before, 3, DUE);
    park(&mut before, 2, DUE);
    let after = applied(&before, Event::Tick);
    assert!(after.chain(1, Chain::Entry).eq([3, 2]));
    assert!(fed(&before, &after, Event::Tick).is_ok());
    violation(
        &before,
        &turned_round(&after),
        Event::Tick,
        "chain Entry is [2, 3]",
    );
}

/// A contender of a higher rank ahead of one that was there.
#[test]
fn a_contention_chain_by_rank_is_noticed() {
    let mut before = ranked(held(0x000400, Operation::Enter, Phase::Try), [1, 0, 0, 0]);
    park(&mut before, 2, CONTENDING);
    let after = applied(&before, STEP_1);
    assert!(after.chain(1, Chain::Contention).eq([2, 1]));
    assert!(fed(&before, &after, STEP_1).is_ok());
    let mut ranked = after.clone();
    ranked.object_mut(1).monitor.contention = 1;
    (ranked.thread_mut(1).next, ranked.thread_mut(2).next) = (2, 0);
    violation(&before, &ranked, STEP_1, "chain Contention is [1, 2]");
}

/// An exit tells the first contender, not the one with the highest rank.
#[test]
fn a_contender_told_out_of_turn_is_noticed() {
    let (mut before, event) = telling([0, 0, 1, 3]);
    park(&mut before, 4, CONTENDING);
    let after = applied(&before, event);
    assert!(after.chain(1, Chain::Contention).eq([4]));
    assert!(fed(&before, &after, event).is_ok());
    let mut other = before.clone();
    place(&mut other, 1, Operation::Exit, Phase::Leave);
    other.thread_mut(3).next = 0;
    park(&mut other, 4, ENTER_QUEUED);
    violation(&before, &other, event, "4 is moved before thread 3");
}

#[test]
fn a_rank_that_changes_is_noticed() {
    let mut before = ranked(with_monitor(1, 1), [3, 0, 0, 0]);
    place(&mut before, 1, Operation::Notify, Phase::Look);
    let mut after = applied(&before, STEP_1);
    assert!(fed(&before, &after, STEP_1).is_ok());
    after.thread_mut(1).rank = 0;
    violation(&before, &after, STEP_1, "the ranks were");
}

/// Thread 1 leaves the monitor; 2 and 3 are queued for it, in this order by time.
fn leaving(ranks: [u8; 4]) -> (Table, Table) {
    let mut before = ranked(with_monitor(1, 0), ranks);
    place(&mut before, 1, Operation::Exit, Phase::Leave);
    park(&mut before, 2, ENTER_QUEUED);
    park(&mut before, 3, ENTER_QUEUED);
    let after = applied(&before, STEP_1);
    (before, after)
}

/// The monitor has gone to the other of the two, which is left to be queued alone.
fn handed_otherwise(after: &Table) -> Table {
    let mut other = after.clone();
    let (handed, queued) = (
        after.object(1).monitor.holder,
        5 - after.object(1).monitor.holder,
    );
    other.object_mut(1).monitor.holder = queued;
    other.object_mut(1).monitor.entry = handed;
    other.thread_mut(queued).phase = Phase::Check;
    other.thread_mut(handed).phase = ENTER_QUEUED.1;
    other
}

/// To one of a lower rank, and to one of the same rank that joined later.
#[test]
fn a_monitor_handed_out_of_turn_is_noticed() {
    for (ranks, holder, passed_over) in [([0, 0, 3, 0], 2, 3), ([0, 3, 0, 0], 3, 2), ([0; 4], 3, 2)]
    {
        let (before, after) = leaving(ranks);
        assert!(fed(&before, &after, STEP_1).is_ok());
        let text = format!("thread {holder} gets the monitor before thread {passed_over}");
        violation(&before, &handed_otherwise(&after), STEP_1, &text);
    }
}

/// Even of the highest rank nobody gets the monitor who was not queued for it.
#[test]
fn a_monitor_taken_without_queueing_is_noticed() {
    let (before, mut after) = leaving([0, 0, 0, 3]);
    let handed = after.object(1).monitor.holder;
    after.thread_mut(handed).phase = ENTER_QUEUED.1;
    after.thread_mut(handed).next = 3;
    after.object_mut(1).monitor.entry = handed;
    place(&mut after, 4, Operation::Enter, Phase::Check);
    after.object_mut(1).monitor.holder = 4;
    let text = "thread 4 gets the monitor before thread 2";
    violation(&before, &after, STEP_1, text);
}

/// The time of joining is that of the event, not of an earlier stay in a chain.
#[test]
fn joining_again_is_joining_later() {
    let (before, after) = leaving([0; 4]);
    let mut order = ChainOrder::new(&before);
    let mut met = Met::default();
    assert_eq!(order.feed(&before, &after, STEP_1, &mut met), Ok(()));
    // Thread 2 enters, and 4 queues up behind 3; 2 leaves, 3 enters, and 2 comes back to queue up behind 4.
    let mut table = after;
    let mut run = |events: &[Event]| {
        for event in events {
            let before = table.clone();
            apply(&mut table, *event);
            assert_eq!(order.feed(&before, &table, *event, &mut met), Ok(()));
        }
        table.chain(1, Chain::Entry).collect::<Vec<u8>>()
    };
    let (enter, exit) = (Operation::Enter, Operation::Exit);
    let back = [
        Event::step(2),
        Event::begin(4, enter, 1, 0),
        Event::step(4),
        Event::step(4),
        Event::begin(2, exit, 1, 0),
        Event::step(2),
        Event::step(2),
        Event::step(3),
        Event::begin(2, enter, 1, 0),
        Event::step(2),
        Event::step(2),
    ];
    assert_eq!(run(&back), [4, 2]);
}

/// Nobody joins by a begin, or by a step that neither goes in nor moves others.
#[test]
fn joins_that_nothing_makes_are_noticed() {
    let (before, _) = going_in([0; 4]);
    let after = applied(&before, Event::step(3));
    let begin = Event::begin(4, Operation::Enter, 1, 0);
    violation(&before, &after, begin, "joined by Begin");
    violation(&before, &after, Event::step(4), "joined by Step");
}
