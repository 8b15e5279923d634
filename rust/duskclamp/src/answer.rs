//! Operations, answers and refusals, under names.

use crate::thread_set::ThreadSet;
use core::fmt;

/// The operations of a thread on an object, with their numbers.
#[derive(Clone, Copy, Debug, PartialEq, Eq, Hash)]
pub enum Operation {
    /// Own the object, or own it one deeper.
    Enter = 1,
    /// Own it one less deep, or no longer.
    Exit = 2,
    /// Give the object up until woken, and own it again as deep as before.
    Wait = 3,
    /// Wake the thread that has waited longest, if any.
    Notify = 4,
    /// Wake all threads that wait.
    NotifyAll = 5,
    /// Wait, and give up waiting after a number of ticks.
    TimedWait = 6,
}

impl Operation {
    /// All operations, in the order of their numbers.
    pub const ALL: [Operation; 6] = [
        Operation::Enter,
        Operation::Exit,
        Operation::Wait,
        Operation::Notify,
        Operation::NotifyAll,
        Operation::TimedWait,
    ];

    /// The operation's number, 1 to 6.
    pub fn number(self) -> u8 {
        self as u8
    }

    /// The operation with this number, if there is one.
    ///
    /// ```
    /// use duskclamp::Operation;
    /// assert_eq!(Operation::from_number(3), Some(Operation::Wait));
    /// assert_eq!(Operation::from_number(7), None);
    /// ```
    pub fn from_number(number: u32) -> Option<Operation> {
        Operation::ALL
            .into_iter()
            .find(|operation| u32::from(operation.number()) == number)
    }

    /// The operation's name, as in `notify all`.
    pub fn name(self) -> &'static str {
        match self {
            Operation::Enter => "enter",
            Operation::Exit => "exit",
            Operation::Wait => "wait",
            Operation::Notify => "notify",
            Operation::NotifyAll => "notify all",
            Operation::TimedWait => "timed wait",
        }
    }
}

impl fmt::Display for Operation {
    fn fmt(&self, formatter: &mut fmt::Formatter<'_>) -> fmt::Result {
        formatter.write_str(self.name())
    }
}

/// A step that was taken.
#[derive(Clone, Copy, Debug, PartialEq, Eq, Hash)]
pub enum Answer {
    /// 0: the operation goes on with its next phase.
    GoneOn,
    /// 1: the operation is finished, and the thread idle.
    Finished {
        /// How many threads a notify woke, or, of a timed wait, 1 if it ran out; else 0.
        woken: u8,
    },
    /// 2: the thread is parked until the step of another, or a tick, has it in [`Outcome::unparked`].
    Parked,
}

/// An event that was refused, with its number. The table is as before, save that `NotOwner` and `TooDeep` make the thread idle.
///
/// ```
/// use duskclamp::Refusal;
/// assert_eq!(Refusal::NotOwner.number(), 18);
/// assert_eq!(Refusal::NotOwner.to_string(), "not the owner (18)");
/// ```
#[derive(Clone, Copy, Debug, PartialEq, Eq, Hash)]
pub enum Refusal {
    /// The bytes are no table, or a table that is not sound.
    NotSound = 11,
    /// The thread is not one of the table's.
    NoSuchThread = 12,
    /// The object is not one of the table's.
    NoSuchObject = 13,
    /// A begin of a thread that is at an operation.
    NotIdle = 14,
    /// A step of a thread that is at none, or at none any more: its exit was let out.
    ThreadIdle = 15,
    /// A step of a thread that is parked.
    ThreadParked = 16,
    /// A begin of an operation that there is not.
    NoSuchOperation = 17,
    /// An exit, wait or notify by a thread that does not own the object.
    NotOwner = 18,
    /// An enter at depth 65,535.
    TooDeep = 19,
    /// The step has no rule. It does not occur from a fresh table on.
    NoRule = 20,
    /// A fresh table of sizes that no table has.
    SizeOutOfRange = 22,
    /// A begin of a timed wait whose limit is not 1 to 65,535.
    LimitOutOfRange = 23,
    /// A dispatcher whose turns are not of 1 to 100 steps.
    QuantumOutOfRange = 25,
    /// A dispatcher that has not a record for each thread, or one whose script is not as [`Table::dispatch`](crate::Table::dispatch) has it.
    ScriptUnknown = 26,
    /// A fresh table with a rank above 3.
    RankOutOfRange = 27,
}

impl Refusal {
    /// All refusals, in the order of their numbers.
    pub const ALL: [Refusal; 15] = [
        Refusal::NotSound,
        Refusal::NoSuchThread,
        Refusal::NoSuchObject,
        Refusal::NotIdle,
        Refusal::ThreadIdle,
        Refusal::ThreadParked,
        Refusal::NoSuchOperation,
        Refusal::NotOwner,
        Refusal::TooDeep,
        Refusal::NoRule,
        Refusal::SizeOutOfRange,
        Refusal::LimitOutOfRange,
        Refusal::QuantumOutOfRange,
        Refusal::ScriptUnknown,
        Refusal::RankOutOfRange,
    ];

    /// The number that the library returned.
    pub fn number(self) -> u8 {
        self as u8
    }

    /// What was wrong, in a few words.
    pub fn name(self) -> &'static str {
        match self {
            Refusal::NotSound => "table not sound",
            Refusal::NoSuchThread => "no such thread",
            Refusal::NoSuchObject => "no such object",
            Refusal::NotIdle => "thread not idle",
            Refusal::ThreadIdle => "thread idle",
            Refusal::ThreadParked => "thread parked",
            Refusal::NoSuchOperation => "no such operation",
            Refusal::NotOwner => "not the owner",
            Refusal::TooDeep => "too deep",
            Refusal::NoRule => "no rule for the step",
            Refusal::SizeOutOfRange => "size out of range",
            Refusal::LimitOutOfRange => "limit out of range",
            Refusal::QuantumOutOfRange => "quantum out of range",
            Refusal::ScriptUnknown => "script unknown",
            Refusal::RankOutOfRange => "rank out of range",
        }
    }

    fn from_number(number: u8) -> Option<Refusal> {
        Refusal::ALL
            .into_iter()
            .find(|refusal| refusal.number() == number)
    }
}

impl fmt::Display for Refusal {
    fn fmt(&self, formatter: &mut fmt::Formatter<'_>) -> fmt::Result {
        write!(formatter, "{} ({})", self.name(), self.number())
    }
}

impl core::error::Error for Refusal {}

/// An event's answer, whether it committed its operation, and whom it unparked. To drop one unseen is a warning:
///
/// ```compile_fail
/// #![deny(unused_must_use)]
/// fn step(table: &mut duskclamp::Table) {
///     table.step(1);
/// }
/// ```
///
/// To look at it is none:
///
/// ```
/// #![deny(unused_must_use)]
/// fn step(table: &mut duskclamp::Table) -> bool {
///     table.step(1).result.is_ok()
/// }
/// ```
#[derive(Clone, Copy, Debug, PartialEq, Eq, Hash)]
#[must_use = "it says whether the event was refused, and whom to run again"]
pub struct Outcome {
    /// What the event answered, or why it was refused.
    pub result: Result<Answer, Refusal>,
    /// Whether the operation took effect with this step.
    pub commits: bool,
    /// The threads that were parked before the event and are not after it: run them again. Nobody where it was refused.
    pub unparked: ThreadSet,
}

/// A number in one byte; what does not fit is none of a thread, an operation or an object, as 255 is.
pub(crate) fn narrow(number: u32) -> u8 {
    u8::try_from(number).unwrap_or(u8::MAX)
}

/// A returned number, where it is none of an answer.
pub(crate) fn refusal(number: u8) -> Refusal {
    match Refusal::from_number(number) {
        Some(refusal) => refusal,
        None => unreachable!("the library returned {number}"),
    }
}

pub(crate) fn outcome(packed: u64) -> Outcome {
    let [returned, woken, commits, ..] = packed.to_le_bytes();
    let result = match returned {
        0 => Ok(Answer::GoneOn),
        1 => Ok(Answer::Finished { woken }),
        2 => Ok(Answer::Parked),
        number => Err(refusal(number)),
    };
    Outcome {
        result,
        commits: commits != 0,
        unparked: ThreadSet::from_bits((packed >> 32) as u32),
    }
}

/// A question's value.
pub(crate) fn value(packed: u64) -> Result<u32, Refusal> {
    match packed as u8 {
        0 => Ok((packed >> 8) as u32),
        number => Err(refusal(number)),
    }
}
