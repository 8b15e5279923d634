//! What a table's records say.

use crate::answer::Operation;
use crate::phase::Phase;

/// A thread's record.
#[derive(Clone, Copy, Debug, PartialEq, Eq, Hash)]
pub struct Thread {
    /// The thread's number, from 1.
    pub number: u32,
    /// Nothing where the thread is idle.
    pub operation: Option<Operation>,
    /// The object that the operation is on, 0 where the thread is idle.
    pub object: u32,
    /// Where it is in its operation.
    pub phase: Phase,
    /// The lock word that it is about to store, with its count changed; 0 but in phase 2.
    pub kept: u32,
    /// The depth that a wait gave up; 0 where none did.
    pub saved_depth: u32,
    /// The thread behind this one in its chain, 0 for none.
    pub next: u32,
    /// The ticks that a timed wait has left, 0 when it ran out; 0 for any other operation.
    pub ticks: u32,
    /// Where it joins an entry chain; the same in every phase, idle too.
    pub rank: u32,
}

/// An object's record, and who owns it.
#[derive(Clone, Copy, Debug, PartialEq, Eq, Hash)]
pub struct Object {
    /// The object's number, from 1.
    pub number: u32,
    /// Its lock word.
    pub word: u32,
    /// The thread that owns it, 0 for nobody.
    pub owner: u32,
    /// How deep it is owned, 0 if nobody owns it.
    pub depth: u32,
    /// Its contention flag.
    pub flag: bool,
    /// The holder of its monitor, 0 for nobody.
    pub holder: u32,
    /// The monitor's depth, which is the object's only where the word is fat.
    pub monitor_depth: u32,
    /// The first thread of the entry chain, 0 for none.
    pub entry: u32,
    /// The first thread of the contention chain, 0 for none.
    pub contention: u32,
    /// The first thread of the waiting chain, 0 for none.
    pub waiting: u32,
}

/// The three chains of a monitor.
#[derive(Clone, Copy, Debug, PartialEq, Eq, Hash)]
pub enum Chain {
    /// Threads queued for the monitor, in phase 5: by falling rank, then by the time of joining. The other two are kept by time alone.
    Entry,
    /// Threads that found the object's flat lock owned, in phase 8.
    Contention,
    /// Threads that wait, in phase 14.
    Waiting,
}

impl Chain {
    /// All three chains.
    pub const ALL: [Chain; 3] = [Chain::Entry, Chain::Contention, Chain::Waiting];
}

/// Who keeps a thread that is parked for entry; always another thread.
#[derive(Clone, Copy, Debug, PartialEq, Eq, Hash)]
pub enum Blocker {
    /// Another thread owns the object by its lock word.
    Owner(u32),
    /// This thread holds the monitor, on its way in or out. Nobody else owns the object, or the parked thread is leaving it.
    Holder(u32),
}

const HOLDER_MARK: u32 = 1 << 16;

impl Blocker {
    /// The thread's number.
    pub fn thread(self) -> u32 {
        match self {
            Blocker::Owner(thread) | Blocker::Holder(thread) => thread,
        }
    }

    pub(crate) fn from_value(value: u32) -> Option<Blocker> {
        match (value % HOLDER_MARK, value / HOLDER_MARK) {
            (0, _) => None,
            (thread, 0) => Some(Blocker::Owner(thread)),
            (thread, _) => Some(Blocker::Holder(thread)),
        }
    }
}
