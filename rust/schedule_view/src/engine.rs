//! What runs a schedule: a table that takes events and answers questions. The proved library is one; nothing here knows a rule of the locks.

use crate::line::{Event, Header};
use crate::ranks::Ranks;
use duskclamp::{Answer, Blocker, Chain, LockWord, Object, Operation, Outcome, Phase, Refusal};
use duskclamp::{Table, Thread, ThreadSet};

pub trait Engine: Sized {
    /// The header's table, with these ranks; those of threads that it has not are dropped.
    fn fresh(header: Header, ranks: &Ranks) -> Result<Self, Refusal>;

    fn apply(&mut self, event: Event) -> Outcome;

    /// The record of a thread of the table.
    fn thread(&self, number: u32) -> Thread;

    /// The phase of a thread of the table.
    fn phase(&self, thread: u32) -> Phase;

    /// The record of an object of the table.
    fn object(&self, number: u32) -> Object;

    /// What the object's lock word says.
    fn lock_word(&self, object: u32) -> LockWord;

    /// The threads of a chain of an object of the table, from its first on.
    fn chain(&self, object: u32, chain: Chain) -> Vec<u32>;

    /// Who keeps a thread that is parked for entry.
    fn blocker(&self, thread: u32) -> Option<Blocker>;
}

/// The proved library, by its wrapper.
impl Engine for Table {
    fn fresh(header: Header, ranks: &Ranks) -> Result<Table, Refusal> {
        let builder = Table::builder(header.threads, header.objects).words(header.words);
        let ranked = ranks.given().fold(builder, |builder, (thread, rank)| {
            builder.rank(thread, rank)
        });
        ranked.build()
    }

    fn apply(&mut self, event: Event) -> Outcome {
        match event {
            Event::Begin {
                thread,
                operation: Operation::TimedWait,
                object,
                limit,
            } => begun(self.timed_wait(thread, object, limit)),
            Event::Begin {
                thread,
                operation,
                object,
                ..
            } => begun(self.begin(thread, operation, object)),
            Event::Step { thread } => self.step(thread),
            Event::Tick => {
                let ticked = self.tick();
                Outcome {
                    unparked: ticked.unwrap_or_default(),
                    ..begun(ticked.map(|_| ()))
                }
            }
        }
    }

    fn thread(&self, number: u32) -> Thread {
        Table::thread(self, number).expect("a thread of the table")
    }

    fn phase(&self, thread: u32) -> Phase {
        Table::phase(self, thread).expect("a thread of the table")
    }

    fn object(&self, number: u32) -> Object {
        Table::object(self, number).expect("an object of the table")
    }

    fn lock_word(&self, object: u32) -> LockWord {
        Table::lock_word(self, object).expect("an object of the table")
    }

    fn chain(&self, object: u32, chain: Chain) -> Vec<u32> {
        let members = Table::chain(self, object, chain);
        members.expect("an object of the table").collect()
    }

    fn blocker(&self, thread: u32) -> Option<Blocker> {
        Table::blocker(self, thread).expect("a thread of the table")
    }
}

/// An event that is no step: it goes on or is refused, and commits nothing.
fn begun(result: Result<(), Refusal>) -> Outcome {
    Outcome {
        result: result.map(|()| Answer::GoneOn),
        commits: false,
        unparked: ThreadSet::default(),
    }
}
