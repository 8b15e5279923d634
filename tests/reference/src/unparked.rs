//! What request L3's sets must be, by the tables before and after an event alone: who was parked and is not any more.

use crate::outcome::Outcome;
use crate::table::Table;

/// Bit n − 1 is set if thread n was parked before and is not after.
pub fn unparked(before: &Table, after: &Table) -> u32 {
    let is_parked = |table: &Table, thread: u8| table.thread(thread).phase.is_parked();
    let changed = |thread: &u8| is_parked(before, *thread) && !is_parked(after, *thread);
    let bits = (1..=before.threads).filter(changed).map(|n| 1 << (n - 1));
    bits.sum()
}

/// An event carries just these threads, and a refused one none.
pub fn check_unparked(before: &Table, after: &Table, outcome: Outcome) -> Result<(), String> {
    let (given, expected) = (outcome.unparked.bits(), unparked(before, after));
    if outcome.returned.is_refusal() && given != 0 {
        return Err(format!("refused, but with the set {given:08x}"));
    }
    match given == expected {
        true => Ok(()),
        false => Err(format!(
            "the set is {given:08x}, by the tables {expected:08x}"
        )),
    }
}
