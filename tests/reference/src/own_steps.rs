//! Request L5's count: the steps of its own that each thread has taken since it began an operation or was unparked, and the check that they are never
//! too many. It goes by events, what they returned and the threads' phases, and knows no rule.

use crate::engine::Event;
use crate::met::{Met, Rare};
use crate::outcome::Returned;
use crate::table::{Operation, Table, MAX_THREADS};

/// No thread takes more, whatever its count was started by.
pub const MOST: u32 = 6;
/// Phases by their numbers: of an idle thread, of those that are parked, and of one that resumes a wait.
pub const IDLE: u8 = 0;
pub const PARKED: [u8; 3] = [5, 8, 14];
const RESUME: u8 = 15;

/// The phase of every thread, by its number.
pub type Phases = [u8; MAX_THREADS];

pub fn phases(table: &Table) -> Phases {
    table.thread_records.map(|record| record.phase.number())
}

/// What a thread's count was started by.
#[derive(Clone, Copy, Debug, Default, PartialEq, Eq, PartialOrd, Ord)]
pub enum Start {
    /// It has begun nothing.
    #[default]
    Nothing,
    /// Its last begin that was accepted.
    Begun(Operation),
    /// An event, of another thread or a tick, that left it in this phase; before, it was parked.
    Unparked(u8),
}

impl Start {
    /// The most steps until the thread finishes, is refused or parks. The request has six for all; some take fewer: a notify is over with its look, and
    /// unparked a thread has two left, one if it resumes, and none if it was let out of its exit.
    pub fn most(self) -> u32 {
        match self {
            Start::Nothing | Start::Unparked(IDLE) => 0,
            Start::Begun(Operation::Notify | Operation::NotifyAll) | Start::Unparked(RESUME) => 1,
            Start::Unparked(_) => 2,
            Start::Begun(_) => MOST,
        }
    }

    /// What is counted where a thread has taken all of them.
    fn rare(self) -> Option<Rare> {
        match self {
            Start::Begun(Operation::Enter) => Some(Rare::SixStepsOfEnter),
            Start::Begun(Operation::Exit) => Some(Rare::SixStepsOfExit),
            Start::Begun(Operation::Wait) => Some(Rare::SixStepsOfWait),
            Start::Begun(Operation::TimedWait) => Some(Rare::SixStepsOfTimedWait),
            Start::Unparked(RESUME) => Some(Rare::OneStepOfResume),
            Start::Unparked(_) => Some(Rare::TwoStepsUnparked),
            _ => None,
        }
    }
}

/// One thread's count.
#[derive(Clone, Copy, Debug, Default, PartialEq, Eq)]
pub struct Count {
    pub start: Start,
    pub taken: u32,
}

impl Count {
    fn started_by(start: Start) -> Count {
        Count { start, taken: 0 }
    }
}

/// The counts of all threads, of a run from a fresh table.
#[derive(Clone, Copy, Debug, Default)]
pub struct OwnSteps([Count; MAX_THREADS]);

impl OwnSteps {
    /// Takes an event with what it returned, and the threads' phases before and after it. Notes where a thread has taken as many steps as it may.
    pub fn feed(
        &mut self,
        event: Event,
        returned: Returned,
        before: &Phases,
        after: &Phases,
        met: &mut Met,
    ) {
        match event {
            Event::Begin {
                thread, operation, ..
            } if returned == Returned::GoneOn => {
                let begun = Operation::from_number(operation).map(Start::Begun);
                *self.count_mut(thread) = Count::started_by(begun.unwrap_or_default());
            }
            Event::Step { thread } if is_own_step(returned) => {
                let count = self.count_mut(thread);
                count.taken += 1;
                let all_taken = count.taken == count.start.most();
                if let Some(rare) = count.start.rare().filter(|_| all_taken) {
                    met.add(rare, 1);
                }
            }
            _ => {}
        }
        for (count, (old, new)) in self.0.iter_mut().zip(before.iter().zip(after)) {
            if PARKED.contains(old) && !PARKED.contains(new) {
                *count = Count::started_by(Start::Unparked(*new));
            }
        }
    }

    pub fn count(&self, thread: u8) -> Count {
        self.0[usize::from(thread) - 1]
    }

    /// Of a thread whose event was accepted, so that there is one.
    fn count_mut(&mut self, thread: u16) -> &mut Count {
        &mut self.0[usize::from(thread) - 1]
    }

    /// No thread has taken more steps than it may, and one that is neither idle nor parked, which will take another, fewer.
    pub fn check(&self, phases: &Phases) -> Result<(), String> {
        for (thread, (count, phase)) in (1..).zip(self.0.iter().zip(phases)) {
            let goes_on = *phase != IDLE && !PARKED.contains(phase);
            let (Count { start, taken }, most) = (count, count.start.most());
            if taken + u32::from(goes_on) > most {
                return Err(format!(
                    "thread {thread} is in phase {phase} after {taken} steps of its own since {start:?}, of at most {most}"
                ));
            }
        }
        Ok(())
    }
}

/// Whether a step that returned this was one: the thread went on, finished, parked, or was refused and is idle. All other refusals leave it where it is.
pub fn is_own_step(returned: Returned) -> bool {
    matches!(
        returned,
        Returned::GoneOn
            | Returned::Finished
            | Returned::Parked
            | Returned::NotOwner
            | Returned::TooDeep
    )
}
