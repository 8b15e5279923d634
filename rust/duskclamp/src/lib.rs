//! Lock words, monitors and single steps of a runtime, by a proved engine.
//!
//! A [`Table`] has up to 32 threads and 64 objects, both numbered from 1. A thread begins an operation on an object and takes it step by step;
//! whoever runs the threads chooses whose step is next, and when the clock ticks for the waits that have a limit.
//!
//! ```
//! use duskclamp::{Answer, Blocker, Operation, Phase, Table, Words};
//!
//! let mut table = Table::fresh(2, 1, Words::Free)?;
//! table.begin(1, Operation::Enter, 1)?;
//! assert_eq!(table.step(1).result, Ok(Answer::Finished { woken: 0 }));
//! assert_eq!(table.owner(1), Ok(1));
//!
//! // The second thread goes in, sees that the object is owned, and parks.
//! table.begin(2, Operation::Enter, 1)?;
//! while table.step(2).result? == Answer::GoneOn {}
//! assert_eq!(table.phase(2), Ok(Phase::Contending));
//! assert_eq!(table.blocker(2), Ok(Some(Blocker::Owner(1))));
//! # Ok::<(), duskclamp::Refusal>(())
//! ```
//!
//! An interpreter needs no phases to know whom to run. Begun: into its run queue; finished, parked, refused with `NotOwner`, `TooDeep` or `ThreadIdle`:
//! out of it; in [`Outcome::unparked`]: into it again. Three threads each enter an object and leave it:
//!
//! ```
//! use duskclamp::{Answer, Operation, Phase, Refusal, Table, Words};
//! use std::collections::VecDeque;
//!
//! let mut table = Table::fresh(3, 1, Words::Free)?;
//! let mut scripts = vec![[Operation::Enter, Operation::Exit].into_iter(); 3];
//! let mut idle: Vec<u32> = (1..=3).collect();
//! let mut queue = VecDeque::new();
//! loop {
//!     for thread in idle.drain(..) {
//!         if let Some(operation) = scripts[thread as usize - 1].next() {
//!             table.begin(thread, operation, 1)?;
//!             queue.push_back(thread);
//!         }
//!     }
//!     let Some(thread) = queue.pop_front() else {
//!         break;
//!     };
//!     let outcome = table.step(thread);
//!     match outcome.result {
//!         Ok(Answer::GoneOn) => queue.push_back(thread),
//!         Ok(Answer::Parked) => {}
//!         // Finished by this step, or before it, as an exit that was let out.
//!         Ok(Answer::Finished { .. }) | Err(Refusal::ThreadIdle) => idle.push(thread),
//!         Err(refusal) => return Err(refusal),
//!     }
//!     queue.extend(outcome.unparked);
//! }
//! assert!(table.threads().all(|thread| thread.phase == Phase::Idle));
//! assert!(scripts.iter().all(|script| script.len() == 0));
//! # Ok::<(), Refusal>(())
//! ```
//!
//! Threads of a higher rank pass those of a lower one in an object's entry chain; [`Table::builder`] makes a table with ranks.
//!
//! Whoever has no interpreter, and a script of operations for each thread, has [`Table::dispatch`] run them in turns.
//!
//! What the calls answer is proved of the library that this crate links; the declarations in [`raw`] are not checked against its source. The crate needs
//! `core` alone. A call takes up to 9.0 KB of stack, [`Table::dispatch`] 11.4 KB, as measured by `bench/stack.c` of the repository.

#![no_std]
#![deny(missing_docs)]

#[cfg(test)]
extern crate std;

mod answer;
mod builder;
mod event;
mod phase;
pub mod raw;
mod record;
mod script;
mod thread_set;
mod word;

pub use answer::{Answer, Operation, Outcome, Refusal};
pub use builder::TableBuilder;
pub use event::{Event, Packed};
pub use phase::{Onward, Phase};
pub use record::{Blocker, Chain, Object, Thread};
pub use script::{Command, ScriptCursor, TraceEntry};
pub use thread_set::{ThreadSet, ThreadSetIter};
pub use word::LockWord;

use core::fmt;

/// How many bytes a table has.
pub const TABLE_SIZE: usize = 1154;

/// The most threads of a table.
pub const MAX_THREADS: u32 = 32;

/// The most objects of a table.
pub const MAX_OBJECTS: u32 = 64;

/// The longest limit of a timed wait, in ticks; the shortest is 1.
pub const MAX_TICKS: u32 = 65_535;

/// The highest rank of a thread; the lowest is 0.
pub const MAX_RANK: u32 = 3;

/// The most steps that a thread takes of its own from beginning an operation, or from being unparked, until it finishes, is refused or parks, in
/// whatever order the events of the others come; [`Table::step`] has more.
pub const MAX_STEPS: u32 = 6;

/// The most steps of a turn of a dispatcher; the fewest is 1.
pub const MAX_QUANTUM: u32 = 100;

/// The version of a table's bytes, which rises whenever they change.
pub const LAYOUT_VERSION: u32 = 3;

/// The version of the library that is linked: major, minor and patch number.
///
/// ```
/// assert_eq!(duskclamp::version(), (0, 5, 0));
/// ```
pub fn version() -> (u8, u8, u8) {
    let [patch, minor, major, _] = raw::version().to_le_bytes();
    (major, minor, patch)
}

/// What every lock word of a fresh table is.
#[derive(Clone, Copy, Debug, PartialEq, Eq, Hash)]
pub enum Words {
    /// Free: the first thread that enters takes a flat lock.
    Free,
    /// Anonymously reserved: the first thread that enters gets the reservation.
    Reserved,
}

/// A table, as the bytes that the engine works on.
///
/// ```
/// use duskclamp::{Table, Words};
/// let table = Table::fresh(1, 1, Words::Free)?;
/// let shown = format!("{table:?}");
/// assert!(shown.starts_with("Table { threads: [Thread { number: 1, operation: None,"));
/// # Ok::<(), duskclamp::Refusal>(())
/// ```
#[derive(Clone, PartialEq, Eq, Hash)]
pub struct Table {
    bytes: [u8; TABLE_SIZE],
}

impl Table {
    /// A table with every thread idle and of rank 0; [`Table::builder`] gives others.
    ///
    /// ```
    /// use duskclamp::{Refusal, Table, Words};
    /// assert_eq!(Table::fresh(33, 1, Words::Free), Err(Refusal::SizeOutOfRange));
    /// ```
    pub fn fresh(threads: u32, objects: u32, words: Words) -> Result<Table, Refusal> {
        let mut bytes = [0; TABLE_SIZE];
        let reserved = u32::from(words == Words::Reserved);
        match raw::fresh(&mut bytes, threads, objects, reserved) as u8 {
            0 => Ok(Table { bytes }),
            number => Err(answer::refusal(number)),
        }
    }

    /// A fresh table with more than its sizes: which words, and ranks.
    ///
    /// ```
    /// use duskclamp::{Table, Words};
    /// let table = Table::builder(3, 1).words(Words::Reserved).rank(1, 3).build()?;
    /// assert_eq!([1, 2, 3].map(|thread| table.rank(thread)), [Ok(3), Ok(0), Ok(0)]);
    /// # Ok::<(), duskclamp::Refusal>(())
    /// ```
    pub fn builder(threads: u32, objects: u32) -> TableBuilder {
        TableBuilder::new(threads, objects)
    }

    /// Bytes that may be a table's. If they are not, every event is refused with `NotSound` and leaves them as they are.
    ///
    /// ```
    /// use duskclamp::{Refusal, Table, TABLE_SIZE};
    /// let mut table = Table::from_bytes([0xff; TABLE_SIZE]);
    /// assert_eq!(table.step(1).result, Err(Refusal::NotSound));
    /// assert_eq!(table.bytes(), &[0xff; TABLE_SIZE]);
    /// assert_eq!(format!("{table:?}"), "Table { no_table }");
    /// ```
    pub fn from_bytes(bytes: [u8; TABLE_SIZE]) -> Table {
        Table { bytes }
    }

    /// The table's bytes, in the layout of version [`LAYOUT_VERSION`].
    pub fn bytes(&self) -> &[u8; TABLE_SIZE] {
        &self.bytes
    }

    /// The thread begins the operation on the object; that unparks nobody. A timed wait has a limit too and is begun by [`Table::timed_wait`]; here it
    /// is refused with `LimitOutOfRange`.
    pub fn begin(&mut self, thread: u32, operation: Operation, object: u32) -> Result<(), Refusal> {
        self.begin_number(thread, operation.number().into(), object)
    }

    /// The same with the operation's number, whatever it is.
    ///
    /// ```
    /// use duskclamp::{Refusal, Table, Words};
    /// let mut table = Table::fresh(1, 1, Words::Free)?;
    /// assert_eq!(table.begin_number(1, 7, 1), Err(Refusal::NoSuchOperation));
    /// # Ok::<(), Refusal>(())
    /// ```
    pub fn begin_number(
        &mut self,
        thread: u32,
        operation: u32,
        object: u32,
    ) -> Result<(), Refusal> {
        match raw::begin(&mut self.bytes, thread, operation, object) as u8 {
            0 => Ok(()),
            number => Err(answer::refusal(number)),
        }
    }

    /// The thread begins a wait on the object that runs out after so many ticks, 1 to [`MAX_TICKS`].
    ///
    /// ```
    /// use duskclamp::{Refusal, Table, Words, MAX_TICKS};
    /// let mut table = Table::fresh(1, 1, Words::Free)?;
    /// assert_eq!(table.timed_wait(1, 1, MAX_TICKS + 1), Err(Refusal::LimitOutOfRange));
    /// table.timed_wait(1, 1, MAX_TICKS)?;
    /// assert_eq!(table.ticks(1), Ok(MAX_TICKS));
    /// # Ok::<(), Refusal>(())
    /// ```
    pub fn timed_wait(&mut self, thread: u32, object: u32, limit: u32) -> Result<(), Refusal> {
        match raw::timed_wait(&mut self.bytes, thread, object, limit) as u8 {
            0 => Ok(()),
            number => Err(answer::refusal(number)),
        }
    }

    /// One tick of the clock: each timed wait in a waiting chain loses one of its ticks. Those at zero run out: they move to the entry chain, and a
    /// monitor that nobody holds is handed to the first. Whoever is handed one is unparked and in the set; the others stay parked. A wait that ran out
    /// finishes with the woken number 1, one that was notified with 0.
    ///
    /// ```
    /// use duskclamp::{Answer, Operation, Phase, Refusal, Table, Words};
    /// let mut table = Table::fresh(1, 1, Words::Free)?;
    /// table.begin(1, Operation::Enter, 1)?;
    /// table.step(1).result?;
    /// table.timed_wait(1, 1, 2)?;
    /// while table.step(1).result? == Answer::GoneOn {}
    /// assert_eq!(table.phase(1), Ok(Phase::Waiting));
    ///
    /// // Nobody notifies it; with the second tick it runs out, and has the monitor, since nobody else does.
    /// assert!(table.tick()?.is_empty());
    /// assert_eq!(table.ticks(1), Ok(1));
    /// assert_eq!(table.step(1).result, Err(Refusal::ThreadParked));
    /// assert!(table.tick()?.contains(1));
    /// assert_eq!(table.phase(1), Ok(Phase::Resume));
    /// assert_eq!(table.step(1).result, Ok(Answer::Finished { woken: 1 }));
    /// assert_eq!(table.owner(1), Ok(1));
    /// # Ok::<(), Refusal>(())
    /// ```
    pub fn tick(&mut self) -> Result<ThreadSet, Refusal> {
        let outcome = answer::outcome(raw::tick(&mut self.bytes));
        outcome.result.map(|_| outcome.unparked)
    }

    /// The thread takes one step of its operation.
    ///
    /// ```
    /// use duskclamp::{Operation, Refusal, Table, Words};
    /// let mut table = Table::fresh(1, 1, Words::Free)?;
    /// table.begin(1, Operation::Exit, 1)?;
    /// assert_eq!(table.step(1).result, Err(Refusal::NotOwner));
    /// # Ok::<(), Refusal>(())
    /// ```
    ///
    /// An operation ends with the step that answers `Finished`, `NotOwner` or `TooDeep`, save that an exit which has parked may be let out: a step of
    /// another thread that inflates the lock ends it, and has its thread in [`Outcome::unparked`]. That thread's next step is refused with `ThreadIdle`,
    /// which stands for the exit's `Finished`, with 0 woken.
    ///
    /// ```
    /// use duskclamp::{Answer, Onward, Operation, Phase, Refusal, Table, Words};
    /// let mut table = Table::fresh(2, 1, Words::Free)?;
    /// table.begin(1, Operation::Enter, 1)?;
    /// table.step(1).result?;
    /// table.begin(2, Operation::Enter, 1)?;
    /// while table.phase(2)? != Phase::Try {
    ///     table.step(2).result?;
    /// }
    ///
    /// // Thread 1 leaves, has to tell thread 2, and parks, since thread 2 holds the monitor.
    /// table.begin(1, Operation::Exit, 1)?;
    /// while table.step(1).result? == Answer::GoneOn {}
    /// assert_eq!(table.phase(1), Ok(Phase::Queued(Onward::Tell)));
    ///
    /// // Thread 2 finds the word free and inflates; there is nothing left to tell it.
    /// let outcome = table.step(2);
    /// assert_eq!(outcome.result, Ok(Answer::Finished { woken: 0 }));
    /// assert!(outcome.unparked.iter().eq([1]));
    /// assert_eq!(table.step(1).result, Err(Refusal::ThreadIdle));
    /// table.begin(1, Operation::Enter, 1)?;
    /// # Ok::<(), Refusal>(())
    /// ```
    ///
    /// No thread spins. On a table that came from a fresh one by events alone a thread takes at most [`MAX_STEPS`] steps from beginning an enter, an
    /// exit or a wait, one from beginning a notify, two from being unparked, or one if it is to resume. Steps refused with anything but `NotOwner` or
    /// `TooDeep` do not count. With the last one that does, it finishes, is refused or parks. Bytes taken from elsewhere may be a sound table that no
    /// events lead to, and there it may take more.
    ///
    /// ```
    /// use duskclamp::{Answer, MAX_STEPS, Operation, Phase, Refusal, Table, Words};
    /// let mut table = Table::fresh(2, 1, Words::Reserved)?;
    /// table.begin(1, Operation::Enter, 1)?;
    /// table.step(1).result?;
    ///
    /// // The object is reserved for thread 1: thread 2 looks, cancels, looks, goes in, checks and tries.
    /// table.begin(2, Operation::Enter, 1)?;
    /// for _ in 1..MAX_STEPS {
    ///     assert_eq!(table.step(2).result, Ok(Answer::GoneOn));
    /// }
    /// assert_eq!(table.step(2).result, Ok(Answer::Parked));
    /// assert_eq!(table.phase(2), Ok(Phase::Contending));
    /// # Ok::<(), Refusal>(())
    /// ```
    pub fn step(&mut self, thread: u32) -> Outcome {
        answer::outcome(raw::step(&mut self.bytes, thread))
    }

    /// Runs the events one behind the other, as calls of `begin`, `timed_wait`, `step` and `tick` would, and keeps the answer of each; a refused event
    /// does not end the run. As many are run as there is room for answers, and that number is given back. The table is read, tested for soundness and
    /// written once, so a run is faster than its calls.
    ///
    /// ```
    /// use duskclamp::{Answer, Event, Operation, Packed, Refusal, Table, Words};
    /// let mut table = Table::fresh(2, 1, Words::Free)?;
    /// let events = [
    ///     Event::begin(1, Operation::Enter, 1),
    ///     Event::step(1),
    ///     Event::step(2),
    /// ];
    /// let mut answers = [Packed::default(); 3];
    /// assert_eq!(table.run(&events, &mut answers), 3);
    /// assert_eq!(answers[1].outcome().result, Ok(Answer::Finished { woken: 0 }));
    /// assert_eq!(answers[2].outcome().result, Err(Refusal::ThreadIdle));
    /// assert_eq!(table.owner(1), Ok(1));
    ///
    /// // There is room for one answer: one event is run.
    /// assert_eq!(table.run(&events, &mut answers[..1]), 1);
    /// # Ok::<(), Refusal>(())
    /// ```
    ///
    /// A wait that runs out, in one call: four steps take it into the waiting chain, and a tick out of it.
    ///
    /// ```
    /// use duskclamp::{Answer, Event, Operation, Packed, Table, Words};
    /// let mut table = Table::fresh(1, 1, Words::Free)?;
    /// let mut events = vec![Event::begin(1, Operation::Enter, 1), Event::step(1)];
    /// events.push(Event::timed_wait(1, 1, 1));
    /// events.extend([Event::step(1); 4]);
    /// events.extend([Event::tick(), Event::step(1)]);
    /// let mut answers = [Packed::default(); 9];
    /// assert_eq!(table.run(&events, &mut answers), 9);
    /// assert_eq!(answers[7].outcome().result, Ok(Answer::GoneOn));
    /// assert!(answers[7].outcome().unparked.contains(1));
    /// assert_eq!(answers[8].outcome().result, Ok(Answer::Finished { woken: 1 }));
    /// # Ok::<(), duskclamp::Refusal>(())
    /// ```
    pub fn run(&mut self, events: &[Event], answers: &mut [Packed]) -> usize {
        raw::run(
            &mut self.bytes,
            event::bytes(events),
            event::numbers(answers),
        )
    }

    /// Runs the threads by their scripts, for whoever has no interpreter, and gives back how many steps that took: thread 1 first, then the others in
    /// rising number, then thread 1 again, each for a turn of at most `quantum` steps, 1 to [`MAX_QUANTUM`]. An idle thread first begins the next command of
    /// its script, which is no step and moves its cursor on. A turn ends early with a step that parks the thread, at the script's end, and where the
    /// thread is parked or its step has no rule. A step refused with `NotOwner` or `TooDeep` is one: the script goes on. After a round without a
    /// step the run ends; then nobody can go on, though threads may be parked for good. On a table that came from a fresh one by events alone an
    /// unparked thread with work left gets its step before the others have taken more than the number of threads less one, times `quantum`.
    ///
    /// The record of thread n is `cursors[n - 1]`. Scripts may overlap or be the same. A thread that is at an operation finishes it first; timed waits
    /// get no ticks. Steps for which `trace` has no room are taken all the same.
    ///
    /// Thread 1 lends on an account, and enters the catalogue for that; thread 2 wants the account too, parks, and is unparked when thread 1 leaves it:
    ///
    /// ```
    /// use duskclamp::Operation::{Enter, Exit};
    /// use duskclamp::{Answer, Command, ScriptCursor, Table, TraceEntry, Words};
    /// let (account, catalogue) = (1, 2);
    /// let mut table = Table::fresh(2, 2, Words::Free)?;
    /// let lend = [(Enter, account), (Enter, catalogue), (Exit, catalogue), (Exit, account)];
    /// let look = [(Enter, account), (Exit, account)];
    /// let scripts: Vec<Command> = lend
    ///     .into_iter()
    ///     .chain(look)
    ///     .map(|(operation, object)| Command::new(operation, object))
    ///     .collect();
    /// let mut cursors = [ScriptCursor::new(0, 4), ScriptCursor::new(4, 2)];
    /// let mut trace = [TraceEntry::default(); 32];
    /// let steps = table.dispatch(1, &scripts, &mut cursors, &mut trace)?;
    /// assert!(cursors.iter().all(|script| script.left() == 0));
    ///
    /// let trace = &trace[..steps as usize];
    /// assert!(trace[0].began() && trace[0].thread() == 1);
    /// let parks = |entry: &&TraceEntry| entry.outcome().result == Ok(Answer::Parked);
    /// assert_eq!(trace.iter().find(parks).map(|entry| entry.thread()), Some(2));
    /// assert!(trace.iter().any(|entry| entry.outcome().unparked.contains(2)));
    /// # Ok::<(), duskclamp::Refusal>(())
    /// ```
    ///
    /// Refused are, in this order and with nothing changed, a table with `NotSound`, a number of steps with `QuantumOutOfRange`, and with `ScriptUnknown`
    /// another number of records than of threads, a script that goes beyond `scripts`, a cursor beyond its script, and a script with a command,
    /// before the cursor too, that is not one of the five untimed operations on an object of the table.
    ///
    /// ```
    /// use duskclamp::{Command, Operation, Refusal, ScriptCursor, Table, Words};
    /// let mut table = Table::fresh(1, 1, Words::Free)?;
    /// let scripts = [Command::new(Operation::TimedWait, 1)];
    /// let mut cursors = [ScriptCursor::new(0, 1)];
    /// let mut refused = |quantum| table.dispatch(quantum, &scripts, &mut cursors, &mut []);
    /// assert_eq!(refused(101), Err(Refusal::QuantumOutOfRange));
    /// assert_eq!(refused(100), Err(Refusal::ScriptUnknown));
    /// # Ok::<(), Refusal>(())
    /// ```
    pub fn dispatch(
        &mut self,
        quantum: u32,
        scripts: &[Command],
        cursors: &mut [ScriptCursor],
        trace: &mut [TraceEntry],
    ) -> Result<u64, Refusal> {
        let (scripts, trace) = (script::bytes(scripts), script::numbers(trace));
        let answer = raw::dispatch(&mut self.bytes, quantum, scripts, cursors, trace);
        match answer as u8 {
            0 => Ok(answer >> 8),
            number => Err(answer::refusal(number)),
        }
    }
}

/// Questions. `NotSound` where the bytes are no table, then `NoSuchThread` or `NoSuchObject`; a table that is not sound is answered by what its records
/// say.
impl Table {
    /// How many threads the table has.
    ///
    /// ```
    /// use duskclamp::{Table, Words};
    /// let table = Table::fresh(3, 2, Words::Free)?;
    /// assert_eq!((table.thread_count(), table.object_count()), (Ok(3), Ok(2)));
    /// # Ok::<(), duskclamp::Refusal>(())
    /// ```
    pub fn thread_count(&self) -> Result<u32, Refusal> {
        answer::value(raw::thread_count(&self.bytes))
    }

    /// How many objects the table has.
    pub fn object_count(&self) -> Result<u32, Refusal> {
        answer::value(raw::object_count(&self.bytes))
    }

    /// The thread's phase.
    pub fn phase(&self, thread: u32) -> Result<Phase, Refusal> {
        let number = answer::value(raw::phase(&self.bytes, thread))?;
        let onward = answer::value(raw::onward(&self.bytes, thread))?;
        Ok(Phase::from_numbers(number, onward))
    }

    /// The ticks that the thread's timed wait has left, 0 when it ran out; 0 for any other operation.
    pub fn ticks(&self, thread: u32) -> Result<u32, Refusal> {
        answer::value(raw::ticks(&self.bytes, thread))
    }

    /// The rank that the thread was given with the fresh table; the same in every phase, idle too.
    pub fn rank(&self, thread: u32) -> Result<u32, Refusal> {
        answer::value(raw::rank(&self.bytes, thread))
    }

    /// Who keeps the thread, where it is parked for entry, in phase 5 or 8. An exit there waits for the object's holder alone, though another thread may
    /// own the object by then:
    ///
    /// ```
    /// use duskclamp::{Answer, Blocker, Operation, Phase, Table, Words};
    /// let mut table = Table::fresh(3, 1, Words::Free)?;
    /// table.begin(1, Operation::Enter, 1)?;
    /// table.step(1).result?;
    /// table.begin(2, Operation::Enter, 1)?;
    /// while table.phase(2)? != Phase::Try {
    ///     table.step(2).result?;
    /// }
    ///
    /// // Thread 1 frees the word and parks; thread 3 takes it.
    /// table.begin(1, Operation::Exit, 1)?;
    /// while table.step(1).result? == Answer::GoneOn {}
    /// assert_eq!(table.blocker(1), Ok(Some(Blocker::Holder(2))));
    /// table.begin(3, Operation::Enter, 1)?;
    /// assert_eq!(table.step(3).result, Ok(Answer::Finished { woken: 0 }));
    /// assert_eq!(table.owner(1), Ok(3));
    /// assert_eq!(table.blocker(1), Ok(Some(Blocker::Holder(2))));
    ///
    /// // Thread 2 parks and hands the monitor to thread 1, which goes on while thread 3 owns the object.
    /// assert_eq!(table.step(2).result, Ok(Answer::Parked));
    /// assert_eq!(table.phase(1), Ok(Phase::Tell));
    /// # Ok::<(), duskclamp::Refusal>(())
    /// ```
    pub fn blocker(&self, thread: u32) -> Result<Option<Blocker>, Refusal> {
        answer::value(raw::blocker(&self.bytes, thread)).map(Blocker::from_value)
    }

    /// The thread's record.
    ///
    /// ```
    /// use duskclamp::{Operation, Phase, Refusal, Table, Words};
    /// let mut table = Table::fresh(1, 1, Words::Free)?;
    /// table.begin(1, Operation::Enter, 1)?;
    /// let thread = table.thread(1)?;
    /// assert_eq!((thread.operation, thread.object), (Some(Operation::Enter), 1));
    /// assert_eq!(thread.phase, Phase::Look);
    /// assert_eq!(table.thread(2), Err(Refusal::NoSuchThread));
    /// # Ok::<(), Refusal>(())
    /// ```
    pub fn thread(&self, number: u32) -> Result<Thread, Refusal> {
        let bytes = &self.bytes;
        Ok(Thread {
            number,
            operation: Operation::from_number(answer::value(raw::operation(bytes, number))?),
            object: answer::value(raw::object(bytes, number))?,
            phase: self.phase(number)?,
            kept: answer::value(raw::kept(bytes, number))?,
            saved_depth: answer::value(raw::saved_depth(bytes, number))?,
            next: answer::value(raw::next(bytes, number))?,
            ticks: self.ticks(number)?,
            rank: self.rank(number)?,
        })
    }

    /// The object's lock word.
    ///
    /// ```
    /// use duskclamp::{Refusal, Table, Words};
    /// let table = Table::fresh(1, 1, Words::Reserved)?;
    /// assert_eq!(table.word(1), Ok(2));
    /// assert_eq!(table.word(2), Err(Refusal::NoSuchObject));
    /// # Ok::<(), Refusal>(())
    /// ```
    pub fn word(&self, object: u32) -> Result<u32, Refusal> {
        answer::value(raw::word(&self.bytes, object))
    }

    /// What the object's lock word says.
    ///
    /// ```
    /// use duskclamp::{LockWord, Operation, Refusal, Table, Words};
    /// let mut table = Table::fresh(1, 1, Words::Reserved)?;
    /// assert_eq!(table.lock_word(1), Ok(LockWord::Anonymous));
    /// assert_eq!(table.lock_word(2), Err(Refusal::NoSuchObject));
    ///
    /// // The first thread that enters gets the reservation, and keeps it when it leaves.
    /// for (operation, depth) in [(Operation::Enter, 1), (Operation::Exit, 0)] {
    ///     table.begin(1, operation, 1)?;
    ///     while table.step(1).result? == duskclamp::Answer::GoneOn {}
    ///     assert_eq!(table.lock_word(1), Ok(LockWord::Reserved { thread: 1, depth }));
    /// }
    /// # Ok::<(), Refusal>(())
    /// ```
    pub fn lock_word(&self, object: u32) -> Result<LockWord, Refusal> {
        let kind = answer::value(raw::word_kind(&self.bytes, object))?;
        let thread = answer::value(raw::word_thread(&self.bytes, object))?;
        Ok(LockWord::from_numbers(kind, thread, self.depth(object)?))
    }

    /// The thread that owns the object, 0 for nobody.
    pub fn owner(&self, object: u32) -> Result<u32, Refusal> {
        answer::value(raw::owner(&self.bytes, object))
    }

    /// How deep the object is owned, 0 if nobody owns it.
    pub fn depth(&self, object: u32) -> Result<u32, Refusal> {
        answer::value(raw::depth(&self.bytes, object))
    }

    /// The object's record, and who owns it.
    pub fn object(&self, number: u32) -> Result<Object, Refusal> {
        let bytes = &self.bytes;
        Ok(Object {
            number,
            word: self.word(number)?,
            owner: self.owner(number)?,
            depth: self.depth(number)?,
            flag: answer::value(raw::flag(bytes, number))? != 0,
            holder: answer::value(raw::holder(bytes, number))?,
            monitor_depth: answer::value(raw::monitor_depth(bytes, number))?,
            entry: self.first(number, Chain::Entry)?,
            contention: self.first(number, Chain::Contention)?,
            waiting: self.first(number, Chain::Waiting)?,
        })
    }

    /// The first thread of a chain of the object, 0 for none.
    pub fn first(&self, object: u32, chain: Chain) -> Result<u32, Refusal> {
        let question = match chain {
            Chain::Entry => raw::entry_first,
            Chain::Contention => raw::contention_first,
            Chain::Waiting => raw::waiting_first,
        };
        answer::value(question(&self.bytes, object))
    }

    /// The records of all threads, none where the bytes are no table.
    ///
    /// ```
    /// use duskclamp::{Table, Words};
    /// let table = Table::fresh(3, 2, Words::Free)?;
    /// assert_eq!(table.threads().count(), 3);
    /// assert!(table.objects().all(|object| object.owner == 0));
    /// # Ok::<(), duskclamp::Refusal>(())
    /// ```
    pub fn threads(&self) -> impl Iterator<Item = Thread> + '_ {
        let count = self.thread_count().unwrap_or(0);
        (1..=count).map_while(|number| self.thread(number).ok())
    }

    /// The records of all objects, none where the bytes are no table.
    pub fn objects(&self) -> impl Iterator<Item = Object> + '_ {
        let count = self.object_count().unwrap_or(0);
        (1..=count).map_while(|number| self.object(number).ok())
    }

    /// The threads of a chain of the object, from the first on. A ring of links, which no sound table has, ends after as many as there can be threads.
    ///
    /// ```
    /// use duskclamp::{Answer, Chain, Operation, Table, Words};
    /// let mut table = Table::fresh(3, 1, Words::Free)?;
    /// for thread in [1, 3, 2] {
    ///     table.begin(thread, Operation::Enter, 1)?;
    ///     while table.step(thread).result? == Answer::GoneOn {}
    /// }
    /// assert!(table.chain(1, Chain::Contention)?.eq([3, 2]));
    /// # Ok::<(), duskclamp::Refusal>(())
    /// ```
    pub fn chain(
        &self,
        object: u32,
        chain: Chain,
    ) -> Result<impl Iterator<Item = u32> + '_, Refusal> {
        let some = |thread: u32| (thread != 0).then_some(thread);
        let next = move |thread: &u32| match answer::value(raw::next(&self.bytes, *thread)) {
            Ok(next) => some(next),
            Err(_) => None,
        };
        let first = self.first(object, chain)?;
        Ok(core::iter::successors(some(first), next).take(MAX_THREADS as usize))
    }
}

/// The records of a table's threads and of its objects, to be shown.
struct Threads<'a>(&'a Table);
struct Objects<'a>(&'a Table);

impl fmt::Debug for Threads<'_> {
    fn fmt(&self, formatter: &mut fmt::Formatter<'_>) -> fmt::Result {
        formatter.debug_list().entries(self.0.threads()).finish()
    }
}

impl fmt::Debug for Objects<'_> {
    fn fmt(&self, formatter: &mut fmt::Formatter<'_>) -> fmt::Result {
        formatter.debug_list().entries(self.0.objects()).finish()
    }
}

/// By its records, from the first thread to the last object.
impl fmt::Debug for Table {
    fn fmt(&self, formatter: &mut fmt::Formatter<'_>) -> fmt::Result {
        if self.thread_count().is_err() {
            return formatter.write_str("Table { no_table }");
        }
        formatter
            .debug_struct("Table")
            .field("threads", &Threads(self))
            .field("objects", &Objects(self))
            .finish()
    }
}

#[cfg(test)]
mod tests {
    use super::*;
    use std::string::ToString;
    use std::vec;

    #[test]
    fn sizes_and_versions_are_the_library_s() {
        assert_eq!(raw::table_size(), TABLE_SIZE);
        assert_eq!(raw::layout_version(), LAYOUT_VERSION);
        let (major, minor, patch) = version();
        assert_eq!(
            std::format!("{major}.{minor}.{patch}"),
            env!("CARGO_PKG_VERSION")
        );
    }

    #[test]
    fn other_lengths_are_refused_and_left() {
        for length in [0, 1, TABLE_SIZE - 1, TABLE_SIZE + 1] {
            let mut bytes = vec![0xa5; length];
            assert_eq!(raw::fresh(&mut bytes, 1, 1, 0), 11);
            assert_eq!(raw::fresh_given(&mut bytes, 0, 1, 0, &[4]), 11);
            assert_eq!(raw::begin(&mut bytes, 1, 1, 1), 11);
            assert_eq!(raw::timed_wait(&mut bytes, 1, 1, 1), 11);
            assert_eq!(raw::step(&mut bytes, 1), 11);
            assert_eq!(raw::tick(&mut bytes), 11);
            assert_eq!(raw::dispatch(&mut bytes, 1, &[], &mut [], &mut []), 11);
            assert_eq!(raw::ticks(&bytes, 1), 11);
            assert_eq!(raw::rank(&bytes, 1), 11);
            assert_eq!(raw::phase(&bytes, 1), 11);
            assert_eq!(raw::word_kind(&bytes, 1), 11);
            assert_eq!(raw::word_thread(&bytes, 1), 11);
            assert_eq!(raw::thread_count(&bytes), 11);
            assert_eq!(bytes, vec![0xa5; length]);
        }
    }

    #[test]
    fn numbers_are_not_cut_off() {
        let mut table = Table::fresh(1, 1, Words::Free).unwrap();
        let enter = Operation::Enter;
        assert_eq!(table.begin(257, enter, 1), Err(Refusal::NoSuchThread));
        assert_eq!(table.begin(1, enter, 257), Err(Refusal::NoSuchObject));
        assert_eq!(table.begin_number(1, 257, 1), Err(Refusal::NoSuchOperation));
        assert_eq!(
            Table::fresh(257, 1, Words::Free),
            Err(Refusal::SizeOutOfRange)
        );
    }

    #[test]
    fn limits_come_last_and_are_not_cut_off() {
        let mut table = Table::fresh(2, 1, Words::Free).unwrap();
        table.begin(2, Operation::Enter, 1).unwrap();
        for limit in [0, 65_536, 65_537, u32::MAX] {
            let refused = [(3, 1), (1, 2), (2, 1), (1, 1)]
                .map(|(thread, object)| table.timed_wait(thread, object, limit));
            let expected = [
                Refusal::NoSuchThread,
                Refusal::NoSuchObject,
                Refusal::NotIdle,
                Refusal::LimitOutOfRange,
            ];
            assert_eq!(refused, expected.map(Err));
        }
        let refused = table.begin(1, Operation::TimedWait, 1);
        assert_eq!(refused, Err(Refusal::LimitOutOfRange));
        assert_eq!(table.timed_wait(1, 1, 1), Ok(()));
        let thread = table.thread(1).unwrap();
        assert_eq!(
            (thread.operation, thread.ticks),
            (Some(Operation::TimedWait), 1)
        );
        assert_eq!(table.ticks(2), Ok(0));
    }

    /// The thread enters the object and waits there with this limit.
    fn wait_timed(table: &mut Table, thread: u32, object: u32, limit: u32) {
        table.begin(thread, Operation::Enter, object).unwrap();
        while table.step(thread).result.unwrap() == Answer::GoneOn {}
        table.timed_wait(thread, object, limit).unwrap();
        while table.step(thread).result.unwrap() == Answer::GoneOn {}
    }

    #[test]
    fn one_runs_out_and_another_is_notified() {
        let mut table = Table::fresh(3, 1, Words::Reserved).unwrap();
        wait_timed(&mut table, 1, 1, 1);
        wait_timed(&mut table, 2, 1, 3);
        table.begin(3, Operation::Enter, 1).unwrap();
        while table.step(3).result.unwrap() == Answer::GoneOn {}
        assert!(table.tick().unwrap().is_empty());
        assert!(table.chain(1, Chain::Entry).unwrap().eq([1]));
        assert!(table.chain(1, Chain::Waiting).unwrap().eq([2]));
        table.begin(3, Operation::NotifyAll, 1).unwrap();
        assert_eq!(table.step(3).result, Ok(Answer::Finished { woken: 1 }));
        assert!(table.tick().unwrap().is_empty());
        assert_eq!([1, 2].map(|thread| table.ticks(thread)), [Ok(0), Ok(2)]);
        for (thread, next, woken) in [(3, 1, 1), (1, 2, 0)] {
            table.begin(thread, Operation::Exit, 1).unwrap();
            while table.step(thread).result.unwrap() == Answer::GoneOn {}
            let resumed = table.step(next);
            assert_eq!(resumed.result, Ok(Answer::Finished { woken }));
            assert!(resumed.commits);
        }
    }

    #[test]
    fn one_tick_unparks_at_many_objects() {
        let mut table = Table::fresh(MAX_THREADS, 2, Words::Free).unwrap();
        wait_timed(&mut table, MAX_THREADS, 1, 1);
        wait_timed(&mut table, 1, 2, 1);
        assert!(table.step(1).unparked.is_empty());
        let unparked = table.tick().unwrap();
        assert!(unparked.iter().eq([1, MAX_THREADS]));
        assert!(table.tick().unwrap().is_empty());
    }

    #[test]
    fn a_refused_dispatch_leaves_everything() {
        let fresh = Table::fresh(2, 1, Words::Free).unwrap();
        let no_table = Table::from_bytes([0xff; TABLE_SIZE]);
        let scripts = [Command::new(Operation::Enter, 1)];
        let (script, beyond) = (ScriptCursor::new(0, 1), ScriptCursor::new(1, 1));
        for (table, quantum, cursors, expected) in [
            (&no_table, 0, [script, beyond], Refusal::NotSound),
            (&fresh, 0, [script, beyond], Refusal::QuantumOutOfRange),
            (
                &fresh,
                MAX_QUANTUM + 1,
                [script; 2],
                Refusal::QuantumOutOfRange,
            ),
            (
                &fresh,
                MAX_QUANTUM,
                [script, beyond],
                Refusal::ScriptUnknown,
            ),
        ] {
            let (mut table_after, mut cursors_after) = (table.clone(), cursors);
            let mut trace = [TraceEntry::default(); 2];
            let refused = table_after.dispatch(quantum, &scripts, &mut cursors_after, &mut trace);
            assert_eq!(refused, Err(expected));
            assert_eq!((&table_after, cursors_after), (table, cursors));
            assert_eq!(trace, [TraceEntry::default(); 2]);
        }
    }

    #[test]
    fn a_dispatch_writes_as_many_steps_as_there_is_room_for() {
        let scripts = [Command::new(Operation::Enter, 1); 3];
        for room in [0, 2, 3, 5] {
            let mut table = Table::fresh(1, 1, Words::Free).unwrap();
            let mut cursors = [ScriptCursor::new(0, 3)];
            let mut trace = vec![TraceEntry::default(); room];
            let steps = table.dispatch(2, &scripts, &mut cursors, &mut trace);
            assert_eq!(steps, Ok(3));
            assert_eq!(table.depth(1), Ok(3));
            let written = trace.iter().filter(|entry| entry.thread() == 1);
            assert_eq!(written.count(), room.min(3));
        }
    }

    #[test]
    fn a_size_beyond_the_records_lets_no_number_in() {
        let mut bytes = *Table::fresh(1, 1, Words::Free).unwrap().bytes();
        bytes[0] = 200;
        bytes[1] = 200;
        let table = Table::from_bytes(bytes);
        assert_eq!(table.thread_count(), Ok(200));
        assert_eq!(table.threads().count(), 32);
        assert_eq!(table.objects().count(), 64);
        assert_eq!(table.thread(33), Err(Refusal::NoSuchThread));
        assert_eq!(table.object(65), Err(Refusal::NoSuchObject));
    }

    #[test]
    fn every_refusal_has_words() {
        for refusal in Refusal::ALL {
            assert!(refusal.to_string().contains(&refusal.number().to_string()));
        }
    }
}
