//! Document 01's three traps, each as the order of steps that springs it.

mod common;

use common::{begin_and_step, place, step_to, with_word};
use reference::engine::{begin, step};
use reference::table::{Operation, Phase, Table};

/// A reservation of thread 1 that it owns once, read for the store of an exit or a second enter.
fn about_to_store(operation: Operation) -> Table {
    let mut table = with_word(1, 0x000106);
    begin_and_step(&mut table, 1, operation);
    assert_eq!(table.thread(1).phase, Phase::Store);
    assert_eq!(table.thread(1).kept_word, 0x000106);
    table
}

#[test]
fn cancelling_sends_the_owner_back_from_its_store() {
    for (operation, word_after) in [(Operation::Enter, 0x000104), (Operation::Exit, 0x000000)] {
        let mut table = about_to_store(operation);
        begin_and_step(&mut table, 2, Operation::Enter);
        assert_eq!(step_to(&mut table, 2), (0, 1));
        assert_eq!(table.object(1).word, 0x000100);
        assert_eq!(table.thread(1).phase, Phase::Look);
        assert_eq!(table.thread(1).kept_word, 0);
        step(&mut table, 1);
        assert_eq!(table.object(1).word, word_after);
    }
}

#[test]
fn cancelling_leaves_a_store_on_another_object_alone() {
    let mut table = about_to_store(Operation::Enter);
    table.object_mut(2).word = 0x000102;
    begin(&mut table, 2, Operation::Enter.number(), 2, 0);
    assert_eq!(step_to(&mut table, 2), (0, 3));
    assert_eq!(step_to(&mut table, 2), (0, 1));
    assert_eq!(table.object(2).word, 0);
    assert_eq!(table.thread(1).phase, Phase::Store);
}

#[test]
fn reserved_and_flat_counts_differ_by_one() {
    assert_eq!(with_word(1, 0x000104).owner(1), (1, 2));
    assert_eq!(with_word(1, 0x000106).owner(1), (1, 1));
    assert_eq!(with_word(1, 0x000100).owner(1), (1, 1));
    assert_eq!(with_word(1, 0x000102).owner(1), (0, 0));
    // Owned 63 times, cancelled and entered again: 64 times.
    let mut table = with_word(1, 0x0001fe);
    begin_and_step(&mut table, 1, Operation::Enter);
    assert_eq!(step_to(&mut table, 1), (0, 1));
    assert_eq!(table.owner(1), (1, 63));
    assert_eq!(step_to(&mut table, 1), (1, 0));
    assert_eq!(table.owner(1), (1, 64));
}

#[test]
fn the_flag_is_tested_after_the_word_is_free() {
    let mut table = with_word(1, 0x000100);
    begin(&mut table, 1, Operation::Exit.number(), 1, 0);
    place(&mut table, 2, Operation::Enter, Phase::Try);
    table.object_mut(1).contention_flag = true;
    table.object_mut(1).monitor.holder = 2;
    // Thread 2 joins contention just before the word is freed; the exit must find it.
    assert_eq!(step_to(&mut table, 2), (2, 8));
    assert_eq!(step_to(&mut table, 1), (0, 9));
    assert_eq!(step_to(&mut table, 1), (0, 4));
    assert_eq!(step_to(&mut table, 1), (0, 10));
    assert_eq!(step_to(&mut table, 1), (0, 11));
    assert_eq!(table.thread(2).phase.number(), 5);
    assert_eq!(step_to(&mut table, 1), (1, 0));
    assert_eq!(step_to(&mut table, 2), (0, 7));
    assert_eq!(step_to(&mut table, 2), (1, 0));
    assert_eq!(table.owner(1), (2, 1));
}
