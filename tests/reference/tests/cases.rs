//! Document 01's cases K1 to K9.

mod common;

use common::{begin_and_step, place, with_monitor, with_word};
use reference::engine::step;
use reference::outcome::Returned;
use reference::table::{Operation, Phase, Table, MAX_DEPTH};
use reference::word::LockWord;

/// The word that a thread's cancelling makes of a word.
fn cancelled(word: u32) -> u32 {
    let mut table = with_word(1, word);
    place(&mut table, 1, Operation::Enter, Phase::Cancel);
    assert_eq!(step(&mut table, 1).returned, Returned::GoneOn);
    assert_eq!(table.thread(1).phase, Phase::Look);
    table.object(1).word
}

#[test]
fn k1_owner_and_depth_of_flat_and_reserved() {
    let flat = LockWord::Flat {
        thread: 3,
        count: 1,
    };
    let reserved = LockWord::Reserved {
        thread: 3,
        count: 2,
    };
    assert_eq!(LockWord::decode(0x000304), Some(flat));
    assert_eq!(LockWord::decode(0x00030a), Some(reserved));
    assert_eq!(with_word(1, 0x000304).owner(1), (3, 2));
    assert_eq!(with_word(1, 0x00030a).owner(1), (3, 2));
}

#[test]
fn k2_to_k4_cancelling() {
    assert_eq!(cancelled(0x00030a), 0x000304);
    assert_eq!(cancelled(0x000302), 0x000000);
    assert_eq!(cancelled(0x0003fe), 0x0003f8);
    assert_eq!(cancelled(0x000002), 0x000000);
    assert_eq!(cancelled(0x000304), 0x000304);
}

#[test]
fn k5_enter_at_the_largest_count() {
    let mut table = with_word(1, 0x0003fc);
    let outcome = begin_and_step(&mut table, 3, Operation::Enter);
    assert_eq!(outcome.returned, Returned::GoneOn);
    assert_eq!(table.thread(3).phase, Phase::GoIn);
    assert_eq!(table.object(1).word, 0x0003fc);

    let mut table = with_word(1, 0x0003f8);
    let outcome = begin_and_step(&mut table, 3, Operation::Enter);
    assert_eq!(outcome.returned, Returned::Finished);
    assert_eq!(table.object(1).word, 0x0003fc);
}

#[test]
fn k6_no_lock_words() {
    let wrong = [
        0x000003,
        0x000005,
        0x000081,
        0x000004,
        0x000006,
        0x800000,
        0x8000_0000,
    ];
    for word in wrong {
        assert_eq!(LockWord::decode(word), None, "{word:06x}");
    }
}

#[test]
fn k7_sizes() {
    assert!(Table::fresh(32, 64, true).is_ok());
    for (threads, objects) in [(33, 1), (0, 1), (1, 65), (1, 0), (256 + 1, 1)] {
        let made = Table::fresh(threads, objects, false);
        assert_eq!(made, Err(Returned::SizesOutOfRange));
    }
}

#[test]
fn k8_exit_of_an_anonymous_reservation() {
    let mut table = with_word(1, 0x000002);
    let outcome = begin_and_step(&mut table, 1, Operation::Exit);
    assert_eq!(
        (outcome.returned, outcome.committed),
        (Returned::NotOwner, true)
    );
    assert_eq!(table, with_word(1, 0x000002));
}

#[test]
fn k9_the_deepest_enter() {
    let mut table = with_monitor(1, MAX_DEPTH - 1);
    place(&mut table, 1, Operation::Enter, Phase::GoIn);
    let outcome = step(&mut table, 1);
    assert_eq!(
        (outcome.returned, outcome.committed),
        (Returned::Finished, true)
    );
    assert_eq!(table, with_monitor(1, MAX_DEPTH));

    place(&mut table, 1, Operation::Enter, Phase::GoIn);
    let outcome = step(&mut table, 1);
    assert_eq!(
        (outcome.returned, outcome.committed),
        (Returned::TooDeep, true)
    );
    assert_eq!(table, with_monitor(1, MAX_DEPTH));
}

#[test]
fn every_valid_word_is_written_back_as_itself() {
    let valid = (0..1 << 23)
        .filter(|word| LockWord::decode(*word).map(LockWord::encode) == Some(*word))
        .count();
    let (numbers, counts) = (1 << 15, 1 << 6);
    // Flat and reserved: every number but 0 with every count, and 0 with count 0; fat: every number.
    assert_eq!(valid, 2 * ((numbers - 1) * counts + 1) + numbers);
    let decoded = (0..1 << 23).filter(|word| LockWord::decode(*word).is_some());
    assert_eq!(decoded.count(), valid);
}
