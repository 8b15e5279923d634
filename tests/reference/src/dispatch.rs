//! Request L6's dispatcher: it runs a script of operations for each thread, in turns of at most so many steps, threads in rising number and then from the
//! first again, until a whole round has no step.

use crate::engine::{apply, Event};
use crate::outcome::{Outcome, Returned};
use crate::own_steps::is_own_step;
use crate::sound::is_sound;
use crate::table::{Operation, Phase, Table};

/// The most steps that a turn may be given; the fewest is 1.
pub const MAX_QUANTUM: u32 = 100;
/// How many bytes an operation of a script has: its number and its object.
pub const OPERATION_SIZE: usize = 2;
/// A run takes at most so many steps for each operation not yet begun and for each thread, on every sound table.
const STEPS_OF_EACH: u64 = 205;

/// A thread's script: so many operations from the operation `start`, from 0, of those that are lent; `cursor` of them have been begun.
#[derive(Clone, Copy, Debug, Default, PartialEq, Eq)]
pub struct Script {
    pub start: u32,
    pub length: u32,
    pub cursor: u32,
}

impl Script {
    /// How many operations are yet to be begun; none where the cursor lies past the end.
    pub fn left(&self) -> u32 {
        self.length.saturating_sub(self.cursor)
    }

    /// Moves the cursor on and gives the place, among all operations that are lent, of the one to be begun; nothing at the script's end.
    pub fn take_next(&mut self) -> Option<usize> {
        let place = self.start as usize + self.cursor as usize;
        let has_next = self.left() > 0;
        self.cursor += u32::from(has_next);
        has_next.then_some(place)
    }
}

/// What a dispatcher is given. A thread's script is the record at its number less 1.
#[derive(Clone, Debug)]
pub struct Input {
    pub table: Table,
    /// The most steps of a turn.
    pub quantum: u32,
    /// The operations that are lent, by their bytes. A last odd byte is none.
    pub scripts: Vec<u8>,
    pub cursors: Vec<Script>,
}

impl Input {
    /// How many whole operations are lent.
    pub fn lent(&self) -> usize {
        self.scripts.len() / OPERATION_SIZE
    }

    /// The number and the object of an operation.
    pub fn operation(&self, place: usize) -> (u8, u8) {
        let at = place * OPERATION_SIZE;
        (self.scripts[at], self.scripts[at + 1])
    }

    /// The event by which a thread begins the operation at this place.
    pub fn begin_of(&self, thread: u8, place: usize) -> Event {
        let (operation, object) = self.operation(place);
        Event::Begin {
            thread: thread.into(),
            operation,
            object: object.into(),
            limit: 0,
        }
    }

    /// What no run takes more steps than.
    pub fn most_steps(&self) -> u64 {
        let left = |script: &Script| u64::from(script.left());
        let operations: u64 = self.cursors.iter().map(left).sum();
        (operations + u64::from(self.table.threads)) * STEPS_OF_EACH
    }
}

/// A step of a run.
#[derive(Clone, Copy, Debug, PartialEq, Eq)]
pub struct Entry {
    pub thread: u8,
    /// Whether the thread began its operation just before.
    pub began: bool,
    pub outcome: Outcome,
}

/// What a run gives back. It has as many steps as its trace has entries.
#[derive(Clone, Debug, PartialEq, Eq)]
pub struct Run {
    pub returned: Returned,
    pub table: Table,
    pub cursors: Vec<Script>,
    pub trace: Vec<Entry>,
    /// Its begins and its steps, in their order.
    pub events: Vec<Event>,
    /// How many turns ended because the step had no rule.
    pub without_rule: u64,
}

/// The run of an input.
pub fn dispatch(input: &Input) -> Run {
    dispatch_mistaken(input, None)
}

/// Ways in which a dispatcher may be wrong. Only the test that each would be noticed makes one.
#[derive(Clone, Copy, Debug, PartialEq, Eq)]
pub enum Mistake {
    /// A step that returned 18 does not count.
    NotOwnerIsNoStep,
    /// The cursor moves on when the operation ends, and not when it begins.
    CursorMovesAtTheEnd,
    /// A turn goes on behind a park, with steps that return 16.
    TurnGoesOnParked,
    /// A step that returned 20 counts.
    NoRuleIsAStep,
    /// 25 is returned before 11.
    QuantumFirst,
    /// A cursor at its script's end is refused.
    EndRefused,
    /// The first thread without a step ends the round.
    RoundEndsEarly,
}

impl Mistake {
    pub const ALL: [Mistake; 7] = [
        Mistake::NotOwnerIsNoStep,
        Mistake::CursorMovesAtTheEnd,
        Mistake::TurnGoesOnParked,
        Mistake::NoRuleIsAStep,
        Mistake::QuantumFirst,
        Mistake::EndRefused,
        Mistake::RoundEndsEarly,
    ];
}

/// The run of an input by a dispatcher that makes a mistake, if one is named.
pub fn dispatch_mistaken(input: &Input, mistake: Option<Mistake>) -> Run {
    let run = Run {
        returned: Returned::GoneOn,
        table: input.table.clone(),
        cursors: input.cursors.clone(),
        trace: Vec::new(),
        events: Vec::new(),
        without_rule: 0,
    };
    let mut dispatcher = Dispatcher {
        input,
        mistake,
        run,
    };
    match dispatcher.refusal() {
        Some(refusal) => dispatcher.run.returned = refusal,
        None => dispatcher.rounds(),
    }
    dispatcher.run
}

struct Dispatcher<'a> {
    input: &'a Input,
    mistake: Option<Mistake>,
    run: Run,
}

impl Dispatcher<'_> {
    fn makes(&self, mistake: Mistake) -> bool {
        self.mistake == Some(mistake)
    }

    // Refusals: 11, 25, 26

    fn refusal(&self) -> Option<Returned> {
        let unsound = || (!is_sound(&self.input.table)).then_some(Returned::NotSound);
        let quantum_fits = (1..=MAX_QUANTUM).contains(&self.input.quantum);
        let out_of_range = (!quantum_fits).then_some(Returned::QuantumOutOfRange);
        let first = match self.mistake {
            Some(Mistake::QuantumFirst) => out_of_range.or_else(unsound),
            _ => unsound().or(out_of_range),
        };
        first.or_else(|| (!self.scripts_known()).then_some(Returned::ScriptUnknown))
    }

    fn scripts_known(&self) -> bool {
        let cursors = &self.input.cursors;
        cursors.len() == usize::from(self.input.table.threads)
            && cursors.iter().all(|script| self.is_known(script))
    }

    /// The whole script counts, also what lies before the cursor.
    fn is_known(&self, script: &Script) -> bool {
        let start = u64::from(script.start);
        let end = start + u64::from(script.length);
        let at_the_end = script.left() == 0;
        end <= self.input.lent() as u64
            && script.cursor <= script.length
            && !(at_the_end && self.makes(Mistake::EndRefused))
            && (start..end).all(|place| self.is_known_operation(place as usize))
    }

    /// Scripts have operations 1 to 5: a timed wait is none of theirs.
    fn is_known_operation(&self, place: usize) -> bool {
        let (number, object) = self.input.operation(place);
        Operation::from_number(number).is_some_and(|operation| operation != Operation::TimedWait)
            && self.input.table.object_number(object.into()).is_some()
    }

    // The run

    /// Round after round, until one has no step. A run that a mistake keeps from ending is left where it has more steps than any has.
    fn rounds(&mut self) {
        let most = self.input.most_steps();
        while self.round() && self.run.trace.len() as u64 <= most {}
    }

    /// Whether any thread took a step.
    fn round(&mut self) -> bool {
        let before = self.run.trace.len();
        for thread in 1..=self.input.table.threads {
            let steps = self.turn(thread);
            if steps == 0 && self.makes(Mistake::RoundEndsEarly) {
                break;
            }
        }
        self.run.trace.len() > before
    }

    /// How many steps the thread took.
    fn turn(&mut self, thread: u8) -> u32 {
        let mut taken = 0;
        while taken < self.input.quantum {
            let Some(entry) = self.step(thread) else {
                break;
            };
            let returned = entry.outcome.returned;
            if returned != Returned::NotOwner || !self.makes(Mistake::NotOwnerIsNoStep) {
                self.run.trace.push(entry);
                taken += 1;
            }
            if returned == Returned::Parked && !self.makes(Mistake::TurnGoesOnParked) {
                break;
            }
        }
        taken
    }

    /// Begins the thread's next operation if it is idle, and takes a step. Nothing where it cannot: it is idle at its script's end, parked, or at a step
    /// that has no rule.
    fn step(&mut self, thread: u8) -> Option<Entry> {
        let began = self.run.table.thread(thread).phase == Phase::Idle;
        if began {
            self.begin_next(thread)?;
        }
        let event = Event::step(thread);
        let outcome = apply(&mut self.run.table, event);
        if !self.is_step(outcome.returned) {
            self.run.without_rule += u64::from(outcome.returned == Returned::NoRule);
            return None;
        }
        self.run.events.push(event);
        let has_ended = self.run.table.thread(thread).phase == Phase::Idle;
        if has_ended && self.makes(Mistake::CursorMovesAtTheEnd) {
            self.cursor(thread).take_next();
        }
        Some(Entry {
            thread,
            began,
            outcome,
        })
    }

    fn is_step(&self, returned: Returned) -> bool {
        match returned {
            Returned::NoRule => self.makes(Mistake::NoRuleIsAStep),
            Returned::ThreadParked => self.makes(Mistake::TurnGoesOnParked),
            _ => is_own_step(returned),
        }
    }

    /// Beginning is no step, and moves the cursor on. Nothing at the script's end.
    fn begin_next(&mut self, thread: u8) -> Option<()> {
        let mut script = *self.cursor(thread);
        let place = script.take_next()?;
        if !self.makes(Mistake::CursorMovesAtTheEnd) {
            *self.cursor(thread) = script;
        }
        let event = self.input.begin_of(thread, place);
        let outcome = apply(&mut self.run.table, event);
        assert_eq!(outcome.returned, Returned::GoneOn);
        self.run.events.push(event);
        Some(())
    }

    fn cursor(&mut self, thread: u8) -> &mut Script {
        &mut self.run.cursors[usize::from(thread) - 1]
    }
}
