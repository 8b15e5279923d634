//! What a run of schedules is to meet often enough, and how often it did: threads that pass others by their rank, exits that end without going in, events
//! that unpark others, and threads that take as many steps of their own as they may.

use crate::engine::Event;
use crate::exits::let_out;
use crate::outcome::{Outcome, Returned};
use crate::table::{Operation, Phase, Table, MAX_THREADS};
use crate::tally::{Kind, Tally};

#[derive(Clone, Copy, Debug, PartialEq, Eq)]
pub enum Rare {
    /// Threads that joined an entry chain ahead of one that was there: by going in, told, notified, moved by a step that inflates, or run out.
    PassedGoingIn,
    PassedTold,
    PassedNotified,
    PassedInflated,
    PassedRunOut,
    /// Exits that ended without going in: by their own step, at the flag, or let out by another's step that inflates.
    EndedAtTheFlag,
    LetOutAtCheck,
    LetOutAtTry,
    LetOutAtInflate,
    /// Sets with the thread that a monitor was handed to.
    HandedAtTry,
    HandedAtLeave,
    HandedAtWait,
    HandedAtTick,
    /// Sets with the exits that a step let out.
    LetOut,
    /// Sets with more than one thread.
    SeveralLetOut,
    SeveralAtTick,
    /// Sets with the last bit.
    LastThread,
    /// Events behind which a run queue holds an exit that was let out, and steps by which such a one leaves it.
    LetOutQueued,
    LetOutStepped,
    /// Threads that have taken as many steps of their own as they may, from the begin or from being unparked.
    SixStepsOfEnter,
    SixStepsOfExit,
    SixStepsOfWait,
    SixStepsOfTimedWait,
    TwoStepsUnparked,
    OneStepOfResume,
}

const RARE: usize = 25;

impl Rare {
    pub const ALL: [Rare; RARE] = [
        Rare::PassedGoingIn,
        Rare::PassedTold,
        Rare::PassedNotified,
        Rare::PassedInflated,
        Rare::PassedRunOut,
        Rare::EndedAtTheFlag,
        Rare::LetOutAtCheck,
        Rare::LetOutAtTry,
        Rare::LetOutAtInflate,
        Rare::HandedAtTry,
        Rare::HandedAtLeave,
        Rare::HandedAtWait,
        Rare::HandedAtTick,
        Rare::LetOut,
        Rare::SeveralLetOut,
        Rare::SeveralAtTick,
        Rare::LastThread,
        Rare::LetOutQueued,
        Rare::LetOutStepped,
        Rare::SixStepsOfEnter,
        Rare::SixStepsOfExit,
        Rare::SixStepsOfWait,
        Rare::SixStepsOfTimedWait,
        Rare::TwoStepsUnparked,
        Rare::OneStepOfResume,
    ];

    /// Those that only tables with ranks have.
    pub const fn by_rank() -> &'static [Rare] {
        Rare::ALL.split_at(Rare::EndedAtTheFlag as usize).0
    }

    pub const fn without_ranks() -> &'static [Rare] {
        Rare::ALL.split_at(Rare::EndedAtTheFlag as usize).1
    }

    /// All but those of a run queue and of own steps, which only runs from a fresh table have.
    pub fn of_events() -> &'static [Rare] {
        &Rare::ALL[..Rare::LetOutQueued as usize]
    }
}

impl Kind for Rare {
    fn place(self) -> usize {
        self as usize
    }

    fn name(self) -> &'static str {
        match self {
            Rare::PassedGoingIn => "threads that passed others going in",
            Rare::PassedTold => "contenders told that passed others",
            Rare::PassedNotified => "waiters notified that passed others",
            Rare::PassedInflated => "contenders moved by inflating that passed others",
            Rare::PassedRunOut => "waiters run out that passed others",
            Rare::EndedAtTheFlag => "exits finished at the flag in phase 4",
            Rare::LetOutAtCheck => "exits let out at phase 6",
            Rare::LetOutAtTry => "exits let out at phase 7",
            Rare::LetOutAtInflate => "exits let out at phase 12",
            Rare::HandedAtTry => "sets by a hand at phase 7",
            Rare::HandedAtLeave => "sets by a hand at phase 11",
            Rare::HandedAtWait => "sets by a hand at phase 13",
            Rare::HandedAtTick => "sets by a tick",
            Rare::LetOut => "sets of exits let out",
            Rare::SeveralLetOut => "sets of several exits let out",
            Rare::SeveralAtTick => "sets of several threads by a tick",
            Rare::LastThread => "sets with thread 32",
            Rare::LetOutQueued => "events with an exit let out in the run queue",
            Rare::LetOutStepped => "exits let out that a step took from the run queue",
            Rare::SixStepsOfEnter => "enters of six own steps",
            Rare::SixStepsOfExit => "exits of six own steps",
            Rare::SixStepsOfWait => "waits of six own steps",
            Rare::SixStepsOfTimedWait => "timed waits of six own steps",
            Rare::TwoStepsUnparked => "threads of two own steps from being unparked",
            Rare::OneStepOfResume => "resumes of one own step from being unparked",
        }
    }

    fn least(self) -> u64 {
        LEAST
    }
}

/// A whole run has at least so many of each.
const LEAST: u64 = 100;

/// How often each came up.
pub type Met = Tally<Rare>;

impl Met {
    /// Notes what an accepted event did.
    pub fn note(
        &mut self,
        before: &Table,
        after: &Table,
        event: Event,
        outcome: Outcome,
    ) -> Result<(), String> {
        let phase = match event {
            Event::Tick => None,
            Event::Begin { thread, .. } | Event::Step { thread } => {
                Some(before.thread(thread as u8).phase.number())
            }
        };
        self.note_unparked(phase, outcome)?;
        let Event::Step { thread } = event else {
            return Ok(());
        };
        let (old, new) = (before.thread(thread as u8), after.thread(thread as u8));
        let at_the_flag = old.operation == Some(Operation::Exit)
            && old.phase == Phase::GoIn
            && new.phase == Phase::Idle;
        let number = let_out(before, after, event).len() + usize::from(at_the_flag);
        self.note_ended(old.phase.number(), number as u64)
    }

    /// Notes so many exits that a step from the phase ended without their going in. No other phase than the four ends any.
    pub fn note_ended(&mut self, phase: u8, number: u64) -> Result<(), String> {
        let rare = match phase {
            4 => Rare::EndedAtTheFlag,
            6 => Rare::LetOutAtCheck,
            7 => Rare::LetOutAtTry,
            12 => Rare::LetOutAtInflate,
            _ if number == 0 => return Ok(()),
            _ => return Err(format!("a step from phase {phase} let exits out")),
        };
        self.add(rare, number);
        Ok(())
    }

    /// Notes the threads unparked by an event, a thread's in the phase or a tick. Only steps that hand or inflate unpark any, and ticks.
    pub fn note_unparked(&mut self, phase: Option<u8>, outcome: Outcome) -> Result<(), String> {
        let unparked = outcome.unparked;
        if unparked.is_empty() {
            return Ok(());
        }
        let (rare, several) = match (phase, outcome.returned) {
            (None, Returned::GoneOn) => (Rare::HandedAtTick, Some(Rare::SeveralAtTick)),
            (Some(7), Returned::Parked) => (Rare::HandedAtTry, None),
            (Some(11), Returned::Finished) => (Rare::HandedAtLeave, None),
            (Some(13), Returned::Parked) => (Rare::HandedAtWait, None),
            (Some(6 | 7), Returned::Finished) | (Some(12), Returned::GoneOn) => {
                (Rare::LetOut, Some(Rare::SeveralLetOut))
            }
            _ => return Err(format!("phase {phase:?} unparked others: {outcome:?}")),
        };
        self.add(rare, 1);
        if unparked.len() > 1 {
            let several = several.ok_or(format!("a hand to several threads: {outcome:?}"))?;
            self.add(several, 1);
        }
        let last = unparked.contains(MAX_THREADS as u8);
        self.add(Rare::LastThread, last.into());
        Ok(())
    }
}
