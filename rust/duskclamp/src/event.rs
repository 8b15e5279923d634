//! Events of a run and their answers, laid out as the library reads and writes them.

use crate::answer::{self, Operation, Outcome};
use crate::raw::EVENT_SIZE;
use core::fmt;
use core::slice;

const BEGIN: u8 = 0;
const STEP: u8 = 1;
const TICK: u8 = 2;

/// An event of a run.
///
/// Numbers of threads and objects above 255 are those of none, as 255 is.
#[derive(Clone, Copy, Debug, PartialEq, Eq, Hash)]
#[repr(transparent)]
pub struct Event {
    bytes: [u8; EVENT_SIZE],
}

impl Event {
    /// The thread begins the operation on the object; [`Event::timed_wait`] is for a timed wait.
    pub fn begin(thread: u32, operation: Operation, object: u32) -> Event {
        Event::begin_number(thread, operation.number().into(), object)
    }

    /// The same with the operation's number, whatever it is.
    pub fn begin_number(thread: u32, operation: u32, object: u32) -> Event {
        Event::of(BEGIN, thread, operation, object, 0)
    }

    /// The thread begins a wait on the object that runs out after so many ticks.
    pub fn timed_wait(thread: u32, object: u32, limit: u32) -> Event {
        let operation = Operation::TimedWait.number().into();
        Event::of(BEGIN, thread, operation, object, limit)
    }

    /// The thread takes one step of its operation.
    pub fn step(thread: u32) -> Event {
        Event::of(STEP, thread, 0, 0, 0)
    }

    /// One tick of the clock.
    pub fn tick() -> Event {
        Event::of(TICK, 0, 0, 0, 0)
    }

    /// The event's eight bytes: kind, thread, operation, object, and four of a timed wait's limit, the lowest first.
    ///
    /// ```
    /// use duskclamp::{Event, Operation};
    /// assert_eq!(Event::begin(3, Operation::Wait, 7).bytes(), [0, 3, 3, 7, 0, 0, 0, 0]);
    /// assert_eq!(Event::timed_wait(3, 7, 513).bytes(), [0, 3, 6, 7, 1, 2, 0, 0]);
    /// assert_eq!(Event::step(300).bytes(), [1, 255, 0, 0, 0, 0, 0, 0]);
    /// assert_eq!(Event::tick().bytes(), [2, 0, 0, 0, 0, 0, 0, 0]);
    /// ```
    pub fn bytes(self) -> [u8; EVENT_SIZE] {
        self.bytes
    }

    fn of(kind: u8, thread: u32, operation: u32, object: u32, limit: u32) -> Event {
        let [thread, operation, object] = [thread, operation, object].map(answer::narrow);
        let [low, second, third, high] = limit.to_le_bytes();
        Event {
            bytes: [kind, thread, operation, object, low, second, third, high],
        }
    }
}

/// An event's answer as a run writes it. `default` is that of nothing run.
#[derive(Clone, Copy, Default, PartialEq, Eq, Hash)]
#[repr(transparent)]
pub struct Packed {
    number: u64,
}

impl Packed {
    /// What the event answered. A begin or a tick that is not refused has gone on.
    pub fn outcome(self) -> Outcome {
        answer::outcome(self.number)
    }

    /// The answer's number, as the library gives it.
    pub fn number(self) -> u64 {
        self.number
    }
}

impl fmt::Debug for Packed {
    fn fmt(&self, formatter: &mut fmt::Formatter<'_>) -> fmt::Result {
        write!(formatter, "Packed({:#x})", self.number)
    }
}

pub(crate) fn bytes(events: &[Event]) -> &[u8] {
    // SAFETY: an event is its eight bytes and nothing else, so events one behind the other are so many bytes, borrowed as long.
    unsafe { slice::from_raw_parts(events.as_ptr().cast(), events.len() * EVENT_SIZE) }
}

pub(crate) fn numbers(answers: &mut [Packed]) -> &mut [u64] {
    // SAFETY: an answer is its number and nothing else, every number is one of an answer, and the borrow is handed on whole.
    unsafe { slice::from_raw_parts_mut(answers.as_mut_ptr().cast(), answers.len()) }
}
