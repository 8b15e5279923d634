//! What an event returns: the specification's numbers under their names, and what goes with them.

use crate::thread_set::ThreadSet;

/// The returned numbers; those from 11 up are refusals.
#[derive(Clone, Copy, Debug, PartialEq, Eq, PartialOrd, Ord)]
#[repr(u8)]
pub enum Returned {
    GoneOn = 0,
    Finished = 1,
    Parked = 2,
    NotSound = 11,
    NoSuchThread = 12,
    NoSuchObject = 13,
    ThreadBusy = 14,
    ThreadIdle = 15,
    ThreadParked = 16,
    NoSuchOperation = 17,
    NotOwner = 18,
    TooDeep = 19,
    NoRule = 20,
    MalformedLine = 21,
    SizesOutOfRange = 22,
    LimitOutOfRange = 23,
    TooManyLines = 24,
    QuantumOutOfRange = 25,
    ScriptUnknown = 26,
    RankOutOfRange = 27,
}

impl Returned {
    pub const ALL: [Returned; 20] = [
        Returned::GoneOn,
        Returned::Finished,
        Returned::Parked,
        Returned::NotSound,
        Returned::NoSuchThread,
        Returned::NoSuchObject,
        Returned::ThreadBusy,
        Returned::ThreadIdle,
        Returned::ThreadParked,
        Returned::NoSuchOperation,
        Returned::NotOwner,
        Returned::TooDeep,
        Returned::NoRule,
        Returned::MalformedLine,
        Returned::SizesOutOfRange,
        Returned::LimitOutOfRange,
        Returned::TooManyLines,
        Returned::QuantumOutOfRange,
        Returned::ScriptUnknown,
        Returned::RankOutOfRange,
    ];

    pub fn from_number(number: u8) -> Option<Returned> {
        Returned::ALL
            .into_iter()
            .find(|returned| returned.number() == number)
    }

    pub fn number(self) -> u8 {
        self as u8
    }

    pub fn is_refusal(self) -> bool {
        self >= Returned::NotSound
    }
}

/// The answer to one event. `woken` says how many threads a finished notify woke, or of a finished timed wait 1 if it ran out; `committed` that the
/// step carried the mark (c); `unparked` the other threads that the event unparked, none where it was refused.
#[derive(Clone, Copy, Debug, PartialEq, Eq)]
pub struct Outcome {
    pub returned: Returned,
    pub woken: u8,
    pub committed: bool,
    pub unparked: ThreadSet,
}

impl Outcome {
    pub fn of(returned: Returned) -> Outcome {
        Outcome {
            returned,
            woken: 0,
            committed: false,
            unparked: ThreadSet::default(),
        }
    }

    pub fn committing(self) -> Outcome {
        Outcome {
            committed: true,
            ..self
        }
    }

    pub fn unparking(self, unparked: ThreadSet) -> Outcome {
        Outcome { unparked, ..self }
    }
}
