//! A run of a schedule, event by event: what each answered, and what it changed.

use crate::engine::Engine;
use crate::line::{Event, Header};
use crate::passing::{Arrivals, Passing};
use crate::ranks::Ranks;
use duskclamp::{Answer, Blocker, LockWord, Object, Operation, Outcome, Phase, Refusal};
use std::collections::BTreeSet;

/// What is kept of a thread's record.
#[derive(Clone, Copy, Debug, PartialEq, Eq)]
pub struct ThreadSeen {
    pub number: u32,
    /// Nothing where the thread is idle.
    pub operation: Option<Operation>,
    /// The object that the operation is on, 0 where the thread is idle.
    pub object: u32,
    pub phase: Phase,
    /// What a timed wait has left, 0 for any other operation.
    pub ticks: u32,
    pub rank: u32,
}

/// An object's record, and what its word says.
#[derive(Clone, Copy, Debug, PartialEq, Eq)]
pub struct ObjectSeen {
    pub record: Object,
    pub word: LockWord,
}

/// What all threads and objects look like, by number less one.
#[derive(Clone, Debug, PartialEq, Eq)]
pub struct State {
    pub threads: Vec<ThreadSeen>,
    pub objects: Vec<ObjectSeen>,
}

impl State {
    /// The thread's record, if the table has the thread.
    pub fn thread(&self, number: u32) -> Option<&ThreadSeen> {
        self.threads.get((number as usize).checked_sub(1)?)
    }

    /// The object, if the table has it.
    pub fn object(&self, number: u32) -> Option<&ObjectSeen> {
        self.objects.get((number as usize).checked_sub(1)?)
    }

    /// The objects that the thread owns.
    pub fn owned_by(&self, thread: u32) -> impl Iterator<Item = &Object> + '_ {
        let records = self.objects.iter().map(|object| &object.record);
        records.filter(move |object| object.owner == thread)
    }
}

/// A thread or an object that an event changed.
#[derive(Clone, Debug, PartialEq, Eq)]
pub struct Change<T> {
    pub before: T,
    pub after: T,
}

/// An event, its answer and what it changed.
#[derive(Clone, Debug, PartialEq, Eq)]
pub struct Happened {
    pub event: Event,
    pub outcome: Outcome,
    /// The record before the event of the thread whose event it is, if the table has that thread.
    pub thread: Option<ThreadSeen>,
    /// The object that the thread's operation is about, if the table has it.
    pub object: Option<u32>,
    pub threads: Vec<Change<ThreadSeen>>,
    pub objects: Vec<Change<ObjectSeen>>,
    pub passings: Vec<Passing>,
    /// Of the thread whose event it is, where it is parked after the event.
    pub parked: Option<Parked>,
    /// Whether the thread's exit was let out before, and this is its first event since.
    pub let_out: bool,
}

/// Of a thread that is parked: who keeps it from entering, if that is what it is parked for, and who is before it in its chain.
#[derive(Clone, Copy, Debug, PartialEq, Eq)]
pub struct Parked {
    pub blocker: Option<Blocker>,
    pub behind: Option<u32>,
}

impl Happened {
    pub fn refusal(&self) -> Option<Refusal> {
        self.outcome.result.err()
    }
}

pub struct Run<E> {
    engine: E,
    state: State,
    /// The threads whose exit was let out and who have had no event since.
    let_out: BTreeSet<u32>,
    /// Whether a rank is above 0: else nobody passes anybody.
    ranked: bool,
}

impl<E: Engine> Run<E> {
    pub fn new(header: Header, ranks: &Ranks) -> Result<Run<E>, Refusal> {
        let engine = E::fresh(header, ranks)?;
        let state = State {
            threads: (1..=header.threads)
                .map(|n| seen_thread(&engine, n))
                .collect(),
            objects: (1..=header.objects)
                .map(|n| seen_object(&engine, n))
                .collect(),
        };
        let ranked = state.threads.iter().any(|thread| thread.rank > 0);
        Ok(Run {
            engine,
            state,
            let_out: BTreeSet::new(),
            ranked,
        })
    }

    pub fn state(&self) -> &State {
        &self.state
    }

    pub fn engine(&self) -> &E {
        &self.engine
    }

    pub fn take(&mut self, event: Event) -> Happened {
        let thread = event.thread().and_then(|n| self.state.thread(n)).copied();
        let object = self.object_of(event, thread.as_ref());
        let arrivals = self.arrivals(event, object);
        let outcome = self.engine.apply(event);
        let (threads, objects) = match outcome.result {
            Err(refusal) if leaves_all(refusal) => (Vec::new(), Vec::new()),
            _ => self.look_again(event, object),
        };
        let passed = arrivals.iter();
        let passed = passed.flat_map(|arrivals| arrivals.passings(self, outcome.unparked));
        let passings = passed.collect();
        let parked = thread.and_then(|thread| self.parked(thread.number));
        let let_out = thread.is_some_and(|thread| self.let_out.remove(&thread.number));
        let idle = |n: &u32| self.state.thread(*n).map(|seen| seen.phase) == Some(Phase::Idle);
        self.let_out.extend(outcome.unparked.iter().filter(idle));
        Happened {
            event,
            outcome,
            thread,
            object,
            threads,
            objects,
            passings,
            parked,
            let_out,
        }
    }

    /// Who is at the objects that the event is about, which for a tick are all.
    fn arrivals(&self, event: Event, object: Option<u32>) -> Vec<Arrivals> {
        let about = |number: &u32| event == Event::Tick || object == Some(*number);
        let objects = self.state.objects.iter().map(|object| object.record.number);
        objects
            .filter(|number| self.ranked && about(number))
            .map(|number| Arrivals::before(&self.engine, number, event.thread()))
            .collect()
    }

    /// What keeps the thread, where it is parked.
    pub fn parked(&self, thread: u32) -> Option<Parked> {
        let place = self
            .state
            .thread(thread)
            .filter(|seen| seen.phase.is_parked())?;
        let before = self.state.threads.iter().find(|other| {
            let near = other.object == place.object && other.phase.is_parked();
            near && self.engine.thread(other.number).next == thread
        });
        Some(Parked {
            blocker: self.engine.blocker(thread),
            behind: before.map(|other| other.number),
        })
    }

    fn object_of(&self, event: Event, thread: Option<&ThreadSeen>) -> Option<u32> {
        let number = match event {
            Event::Begin { object, .. } => object,
            Event::Step { .. } => thread?.object,
            Event::Tick => return None,
        };
        self.state.object(number).map(|object| object.record.number)
    }

    /// Asks again for what the event can have changed: after a tick for everything, else for its thread, its object and, where their phase is another,
    /// the threads at that object. A test asks for all, and finds the same.
    fn look_again(
        &mut self,
        event: Event,
        object: Option<u32>,
    ) -> (Vec<Change<ThreadSeen>>, Vec<Change<ObjectSeen>>) {
        let asked = |number: u32| event == Event::Tick || object == Some(number);
        let mut threads = Vec::new();
        for before in &mut self.state.threads {
            let number = before.number;
            let own = event == Event::Tick || event.thread() == Some(number);
            if own || (asked(before.object) && self.engine.phase(number) != before.phase) {
                replace(before, seen_thread(&self.engine, number), &mut threads);
            }
        }
        let mut objects = Vec::new();
        for before in &mut self.state.objects {
            let number = before.record.number;
            if asked(number) {
                replace(before, seen_object(&self.engine, number), &mut objects);
            }
        }
        (threads, objects)
    }
}

fn seen_thread<E: Engine>(engine: &E, thread: u32) -> ThreadSeen {
    let record = engine.thread(thread);
    ThreadSeen {
        number: record.number,
        operation: record.operation,
        object: record.object,
        phase: record.phase,
        ticks: record.ticks,
        rank: record.rank,
    }
}

fn seen_object<E: Engine>(engine: &E, object: u32) -> ObjectSeen {
    ObjectSeen {
        record: engine.object(object),
        word: engine.lock_word(object),
    }
}

/// Puts the new record in place of the old, and notes the change if there is one.
fn replace<T: Copy + PartialEq>(place: &mut T, after: T, changes: &mut Vec<Change<T>>) {
    if *place != after {
        changes.push(Change {
            before: *place,
            after,
        });
        *place = after;
    }
}

/// What the wrapper says of refusals: all but these two leave the table as it was.
fn leaves_all(refusal: Refusal) -> bool {
    !matches!(refusal, Refusal::NotOwner | Refusal::TooDeep)
}

/// The event's answer as the replay prints it.
pub fn printed(happened: &Happened, state: &State) -> String {
    let number = match happened.outcome.result {
        Ok(Answer::GoneOn) => 0,
        Ok(Answer::Finished { .. }) => 1,
        Ok(Answer::Parked) => 2,
        Err(refusal) => return refusal.number().to_string(),
    };
    let set = happened.outcome.unparked.bits();
    let thread = happened.event.thread().and_then(|n| state.thread(n));
    let object = happened.object.and_then(|n| state.object(n));
    let (Some(thread), Some(object)) = (thread, object) else {
        return format!("{number} {set:08x}");
    };
    let woken = match happened.outcome.result {
        Ok(Answer::Finished { woken }) => woken,
        _ => 0,
    };
    let (phase, word) = (thread.phase.number(), object.record.word);
    format!("{number} {phase} {woken} {word:06x} {set:08x}")
}
