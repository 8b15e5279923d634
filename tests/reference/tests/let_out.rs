//! Request L2: an exit that finds the flag down in phase 4, and exits let out of the entry chain by an inflating step.

mod common;

use common::{inflating, park, place, step_to, with_monitor, with_word};
use common::{ENTER_QUEUED, EXIT_QUEUED, FAT, FLAT_1, FREE};
use reference::engine::{begin, step};
use reference::outcome::{Outcome, Returned};
use reference::sound::is_sound;
use reference::table::{Chain, Operation, Phase, Table};

#[test]
fn inflating_lets_every_queued_exit_out() {
    for (mut table, returned, depth) in inflating() {
        let waits = table.thread(1).operation == Some(Operation::Wait);
        park(&mut table, 4, EXIT_QUEUED);
        park(&mut table, 2, EXIT_QUEUED);
        assert!(is_sound(&table));
        let outcome = step(&mut table, 1);
        assert_eq!((outcome.returned, outcome.woken), (returned, 0));
        assert_eq!(outcome.committed, !waits);
        let mut expected = with_monitor(1, depth);
        if waits {
            place(&mut expected, 1, Operation::Wait, Phase::Wait);
        }
        assert_eq!(table, expected);
        assert_eq!(step_to(&mut table, 4), (15, 0));
        let begun = begin(&mut table, 2, Operation::Enter.number(), 1, 0);
        assert_eq!(begun, Outcome::of(Returned::GoneOn));
    }
}

#[test]
fn the_others_keep_their_order_and_contenders_join_behind() {
    let thirds: [(u8, (Operation, Phase)); 4] = [
        (2, EXIT_QUEUED),
        (5, ENTER_QUEUED),
        (3, EXIT_QUEUED),
        (4, ENTER_QUEUED),
    ];
    for (table, _, _) in inflating() {
        // Six threads, with the exits at the front, in the middle and at the end.
        for turn in 0..thirds.len() {
            let mut table = Table {
                threads: 6,
                ..table.clone()
            };
            let mut queued = thirds;
            queued.rotate_left(turn);
            for (thread, parked) in queued {
                park(&mut table, thread, parked);
            }
            park(&mut table, 6, (Operation::Enter, Phase::Contending));
            assert!(is_sound(&table));
            step(&mut table, 1);
            let stay = queued.into_iter().filter(|each| each.1 == ENTER_QUEUED);
            let mut expected: Vec<u8> = stay.map(|each| each.0).collect();
            expected.push(6);
            assert_eq!(table.chain(1, Chain::Entry).collect::<Vec<_>>(), expected);
            assert_eq!(table.chain(1, Chain::Contention).count(), 0);
            assert!(is_sound(&table));
            assert_eq!(table.thread(2).phase, Phase::Idle);
            assert_eq!(table.thread(3).phase, Phase::Idle);
        }
    }
}

#[test]
fn exits_on_other_objects_stay() {
    for (mut table, _, _) in inflating() {
        place(&mut table, 3, EXIT_QUEUED.0, EXIT_QUEUED.1);
        table.thread_mut(3).object = 2;
        table.join(2, Chain::Entry, 3);
        table.object_mut(2).monitor.holder = 4;
        let before = (*table.thread(3), *table.object(2));
        step(&mut table, 1);
        assert_eq!((*table.thread(3), *table.object(2)), before);
    }
}

/// Object 1 with thread 3 about to go in for an exit, and this holder and flag.
fn about_to_go_in(word: u32, holder: u8, flag: bool) -> Table {
    let mut table = with_word(1, word);
    table.object_mut(1).contention_flag = flag;
    table.object_mut(1).monitor.holder = holder;
    place(&mut table, 3, Operation::Exit, Phase::GoIn);
    table
}

#[test]
fn an_exit_that_finds_the_flag_down_finishes() {
    for word in [FREE, FLAT_1, FAT] {
        // Nobody holds the monitor, another does, or the thread itself, which no schedule reaches.
        for holder in [0, 1, 3] {
            let mut table = about_to_go_in(word, holder, false);
            assert_eq!(step(&mut table, 3), Outcome::of(Returned::Finished));
            let mut expected = about_to_go_in(word, holder, false);
            expected.make_idle(3);
            assert_eq!(table, expected);
        }
    }
}

#[test]
fn an_exit_that_finds_the_flag_up_goes_in() {
    for (holder, stepped) in [(0, (0, 10)), (1, (2, 5)), (3, (20, 4))] {
        let mut table = about_to_go_in(FREE, holder, true);
        assert_eq!(step_to(&mut table, 3), stepped);
    }
}

#[test]
fn others_go_in_whatever_the_flag() {
    for (operation, phase) in [(Operation::Enter, 6), (Operation::Wait, 12)] {
        let mut table = about_to_go_in(FLAT_1, 0, false);
        place(&mut table, 3, operation, Phase::GoIn);
        assert_eq!(step_to(&mut table, 3), (0, phase));
    }
}
