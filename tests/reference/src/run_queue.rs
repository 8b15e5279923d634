//! An interpreter's run queue, kept from answers and request L3's sets alone, and the check that it forgets nobody.

use crate::engine::{step, Event};
use crate::met::{Met, Rare};
use crate::outcome::{Outcome, Returned};
use crate::table::{Phase, Table};
use crate::thread_set::ThreadSet;

/// The threads to be stepped.
#[derive(Clone, Copy, Debug, Default, PartialEq, Eq)]
pub struct RunQueue(ThreadSet);

impl RunQueue {
    /// Takes an event with its answer. Of the table it sees nothing.
    pub fn feed(&mut self, event: Event, outcome: Outcome) {
        match event {
            Event::Begin { thread, .. } if outcome.returned == Returned::GoneOn => {
                self.0.extend([thread as u8]);
            }
            Event::Step { thread } if leaves(outcome.returned) => self.0.remove(thread as u8),
            _ => {}
        }
        self.0.extend(outcome.unparked.threads());
    }

    pub fn threads(self) -> ThreadSet {
        self.0
    }
}

/// Whether a thread whose step returned this has nothing to do for now. Where it is idle, another's step has let it out of its exit.
fn leaves(returned: Returned) -> bool {
    matches!(
        returned,
        Returned::Finished
            | Returned::Parked
            | Returned::NotOwner
            | Returned::TooDeep
            | Returned::ThreadIdle
    )
}

/// A run queue with what it is held against.
#[derive(Clone, Copy, Debug, Default)]
pub struct CheckedQueue {
    pub queue: RunQueue,
    /// The exits that were let out, by the tables, and neither stepped nor begun since.
    pub let_out: ThreadSet,
}

impl CheckedQueue {
    /// Takes an event with its answer, and for the check alone the exits that it let out.
    pub fn feed(&mut self, event: Event, outcome: Outcome, let_out: &[u8], met: &mut Met) {
        self.queue.feed(event, outcome);
        match (event, outcome.returned) {
            (Event::Begin { thread, .. }, Returned::GoneOn) => self.let_out.remove(thread as u8),
            (Event::Begin { .. } | Event::Tick, _) | (_, Returned::NoSuchThread) => {}
            (Event::Step { thread }, _) => {
                let stepped = self.let_out.contains(thread as u8);
                met.add(Rare::LetOutStepped, stepped.into());
                self.let_out.remove(thread as u8);
            }
        }
        self.let_out.extend(let_out.iter().copied());
        met.add(Rare::LetOutQueued, (!self.let_out.is_empty()).into());
    }

    /// In the queue is every thread that is neither idle nor parked, and besides them only exits that were let out: they are idle, and a step of theirs
    /// returns 15.
    pub fn check(&self, table: &Table) -> Result<(), String> {
        let phase = |thread: u8| table.thread(thread).phase;
        let goes_on = |&thread: &u8| phase(thread) != Phase::Idle && !phase(thread).is_parked();
        let mut expected: ThreadSet = (1..=table.threads).filter(goes_on).collect();
        expected.extend(self.let_out.threads());
        let (queued, expected) = (self.queue.threads().bits(), expected.bits());
        if queued != expected {
            return Err(format!(
                "the run queue is {queued:08x}, by the table {expected:08x}"
            ));
        }
        for thread in self.let_out.threads() {
            let stepped = step(&mut table.clone(), thread.into());
            if phase(thread) != Phase::Idle || stepped != Outcome::of(Returned::ThreadIdle) {
                return Err(format!(
                    "thread {thread} was let out, but a step of it is answered {stepped:?}"
                ));
            }
        }
        Ok(())
    }
}
