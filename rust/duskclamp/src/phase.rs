//! The phases of a thread.

use core::fmt;

/// Where a thread is in its operation.
///
/// ```
/// use duskclamp::{Onward, Phase};
/// let phase = Phase::Queued(Onward::Check);
/// assert!(phase.is_parked());
/// assert_eq!(phase.number(), 5);
/// assert_eq!(phase.onward(), Some(Onward::Check));
/// assert_eq!(phase.to_string(), "queued");
/// ```
#[derive(Clone, Copy, Debug, PartialEq, Eq, Hash)]
pub enum Phase {
    /// 0: at no operation.
    Idle,
    /// 1: about to do what the lock word allows.
    Look,
    /// 2: about to store the reserved word that it keeps, with its count changed.
    Store,
    /// 3: about to cancel the object's reservation.
    Cancel,
    /// 4: about to become the monitor's holder, or queue for it; an exit finishes if the contention flag is down.
    GoIn,
    /// 5: parked in the entry chain, with the phase that it goes on with; an exit may be let out before that.
    Queued(Onward),
    /// 6: holder, about to check the word.
    Check,
    /// 7: holder, about to try the word once more, the contention flag up.
    Try,
    /// 8: parked in the contention chain, until the flat lock's owner tells.
    Contending,
    /// 9: the word is free, about to test the contention flag.
    Test,
    /// 10: holder, about to tell the first contender.
    Tell,
    /// 11: holder, about to hand the monitor on.
    Leave,
    /// 12: holder, about to make its flat lock a monitor, to wait on it.
    Inflate,
    /// 13: holder, about to save its depth and wait.
    GiveUp,
    /// 14: parked in the waiting chain, until notified or, of a timed wait, until it runs out.
    Waiting,
    /// 15: holder, about to take its saved depth back.
    Resume,
}

/// The phase that a queued thread goes on with when it is handed the monitor.
#[derive(Clone, Copy, Debug, PartialEq, Eq, Hash)]
pub enum Onward {
    /// 6, of an enter.
    Check,
    /// 10, of an exit, unless another thread inflates the lock first and so lets it out.
    Tell,
    /// 12, of a wait that is to begin.
    Inflate,
    /// 15, of a wait that was notified or ran out.
    Resume,
}

impl Onward {
    /// The phase itself.
    pub fn phase(self) -> Phase {
        match self {
            Onward::Check => Phase::Check,
            Onward::Tell => Phase::Tell,
            Onward::Inflate => Phase::Inflate,
            Onward::Resume => Phase::Resume,
        }
    }

    fn from_number(number: u32) -> Option<Onward> {
        match number {
            6 => Some(Onward::Check),
            10 => Some(Onward::Tell),
            12 => Some(Onward::Inflate),
            15 => Some(Onward::Resume),
            _ => None,
        }
    }
}

impl Phase {
    /// The phase's number, 0 to 15.
    pub fn number(self) -> u8 {
        match self {
            Phase::Idle => 0,
            Phase::Look => 1,
            Phase::Store => 2,
            Phase::Cancel => 3,
            Phase::GoIn => 4,
            Phase::Queued(_) => 5,
            Phase::Check => 6,
            Phase::Try => 7,
            Phase::Contending => 8,
            Phase::Test => 9,
            Phase::Tell => 10,
            Phase::Leave => 11,
            Phase::Inflate => 12,
            Phase::GiveUp => 13,
            Phase::Waiting => 14,
            Phase::Resume => 15,
        }
    }

    /// Whether a thread in this phase is parked: its steps are refused with `ThreadParked` until another's step or a tick lets it go on, or a step
    /// lets its exit out.
    pub fn is_parked(self) -> bool {
        matches!(self, Phase::Queued(_) | Phase::Contending | Phase::Waiting)
    }

    /// The phase that a queued thread goes on with.
    pub fn onward(self) -> Option<Onward> {
        match self {
            Phase::Queued(onward) => Some(onward),
            _ => None,
        }
    }

    /// The phase's name, as in `go in`.
    pub fn name(self) -> &'static str {
        match self {
            Phase::Idle => "idle",
            Phase::Look => "look",
            Phase::Store => "store",
            Phase::Cancel => "cancel",
            Phase::GoIn => "go in",
            Phase::Queued(_) => "queued",
            Phase::Check => "check",
            Phase::Try => "try",
            Phase::Contending => "contending",
            Phase::Test => "test",
            Phase::Tell => "tell",
            Phase::Leave => "leave",
            Phase::Inflate => "inflate",
            Phase::GiveUp => "give up",
            Phase::Waiting => "waiting",
            Phase::Resume => "resume",
        }
    }

    /// The phase with this number; a queued thread also carries one.
    pub(crate) fn from_numbers(number: u32, onward: u32) -> Phase {
        const PHASES: [Phase; 16] = [
            Phase::Idle,
            Phase::Look,
            Phase::Store,
            Phase::Cancel,
            Phase::GoIn,
            Phase::Queued(Onward::Check),
            Phase::Check,
            Phase::Try,
            Phase::Contending,
            Phase::Test,
            Phase::Tell,
            Phase::Leave,
            Phase::Inflate,
            Phase::GiveUp,
            Phase::Waiting,
            Phase::Resume,
        ];
        match (PHASES.get(number as usize), Onward::from_number(onward)) {
            (Some(Phase::Queued(_)), Some(onward)) => Phase::Queued(onward),
            (Some(phase), None) if onward == 0 => *phase,
            _ => unreachable!("the library answered phase {number}, onward {onward}"),
        }
    }
}

impl fmt::Display for Phase {
    fn fmt(&self, formatter: &mut fmt::Formatter<'_>) -> fmt::Result {
        formatter.write_str(self.name())
    }
}
