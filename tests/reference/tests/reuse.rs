//! That an object's number may go to another object once nobody owns it and no thread is at it, as README tells embedders.

mod common;

use common::each_event;
use reference::generate::schedule;
use reference::table::{Monitor, Table};

/// Nobody owns the object, and no thread has an unfinished operation on it.
fn is_unused(table: &Table, object: u8) -> bool {
    table.owner(object).0 == 0
        && (1..=table.threads).all(|thread| table.thread(thread).object != object)
}

/// Its flag is down, nobody holds its monitor, and its three chains are empty. Since request L2 its word is not fat either: who leaves a monitor behind
/// that no thread is at frees the word.
fn is_as_new(table: &Table, object: u8) -> bool {
    let record = table.object(object);
    record.word & 1 == 0 && !record.contention_flag && record.monitor == Monitor::default()
}

#[test]
fn an_unused_object_is_as_new() {
    let (mut unused, mut left) = (0, 0);
    for seed in 0..2_000 {
        each_event(&schedule(seed), |before, after, _, _| {
            for object in (1..=after.objects).filter(|&object| is_unused(after, object)) {
                assert!(
                    is_as_new(after, object),
                    "seed {seed}, object {object}: {after:?}"
                );
                unused += 1;
                left += u32::from(before.object(object).monitor.holder != 0);
            }
        });
    }
    assert!(unused > 0, "no object was unused after an event");
    assert!(left > 0, "no monitor was left for good");
}
