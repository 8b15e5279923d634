//! Holds a run of the dispatcher to what request L6 says of it, from its events one by one: whose step comes next, what begins, how long an unparked
//! thread with work left goes without a step, how many steps there are, and who is left at the end; and to request L8's order of chains. It knows no
//! rounds.

use crate::chain_order::ChainOrder;
use crate::dispatch::{Entry, Input, Run, Script, MAX_QUANTUM};
use crate::engine::{apply, Event};
use crate::happened::Happened;
use crate::met::{Met, Rare};
use crate::outcome::Returned;
use crate::own_steps::is_own_step;
use crate::table::{Operation, Phase, Table, MAX_THREADS};
use crate::tally::Tally;

/// Where an input's table comes from.
#[derive(Clone, Copy, Debug, PartialEq, Eq)]
pub enum Origin {
    /// A fresh table and events: every step has a rule, and nobody is kept waiting.
    Schedule,
    /// Any sound table.
    Construction,
}

/// Describes what first goes wrong in a run that is not refused; else gives what happened in it.
pub fn check_run(input: &Input, run: &Run, origin: Origin) -> Result<Tally<Happened>, String> {
    if run.returned != Returned::GoneOn {
        return Err(format!("the run is refused with {:?}", run.returned));
    }
    let mut watch = Watch::new(input, origin);
    let mut events = run.events.iter();
    for (place, entry) in run.trace.iter().enumerate() {
        watch
            .step(entry, &mut events)
            .map_err(|wrong| format!("step {place}: {wrong}"))?;
    }
    watch.end(run, events.next())?;
    watch.note_start();
    watch.note_end(run);
    Ok(watch.happened)
}

/// Describes what is wrong with a run that must be refused with this number.
pub fn check_refused(input: &Input, run: &Run, returned: Returned) -> Result<(), String> {
    let found = (run.returned, run.trace.len(), run.events.len());
    if found != (returned, 0, 0) {
        return Err(format!("{found:?}, where {returned:?} was expected"));
    }
    match run.table == input.table && run.cursors == input.cursors {
        true => Ok(()),
        false => Err(format!(
            "refused with {returned:?}, but something is changed"
        )),
    }
}

struct Watch<'a> {
    input: &'a Input,
    origin: Origin,
    table: Table,
    cursors: Vec<Script>,
    /// The thread whose turn it is, and how many steps are left to it.
    thread: u8,
    left: u32,
    /// Of each unparked thread with work left, the steps of others since it last stepped or was unparked.
    waited: [Option<u64>; MAX_THREADS],
    chain_order: ChainOrder,
    met: Met,
    happened: Tally<Happened>,
}

impl Watch<'_> {
    /// Before the first turn, as behind the last thread's.
    fn new(input: &Input, origin: Origin) -> Watch<'_> {
        let mut watch = Watch {
            input,
            origin,
            table: input.table.clone(),
            cursors: input.cursors.clone(),
            thread: input.table.threads,
            left: 0,
            waited: [None; MAX_THREADS],
            chain_order: ChainOrder::new(&input.table),
            met: Met::default(),
            happened: Tally::default(),
        };
        for thread in 1..=input.table.threads {
            watch.waited[usize::from(thread) - 1] = watch.has_work(thread).then_some(0);
        }
        watch
    }

    fn phase(&self, thread: u8) -> Phase {
        self.table.thread(thread).phase
    }

    /// Whether the thread is unparked, and at an operation or not at its script's end.
    fn has_work(&self, thread: u8) -> bool {
        match self.phase(thread) {
            Phase::Idle => self.cursors[usize::from(thread) - 1].left() > 0,
            phase => !phase.is_parked(),
        }
    }

    /// Whether the thread's step is one.
    fn can_step(&self, thread: u8) -> bool {
        let has_rule = || {
            let mut table = self.table.clone();
            apply(&mut table, Event::step(thread)).returned != Returned::NoRule
        };
        let every_step_has = self.origin == Origin::Schedule || self.phase(thread) == Phase::Idle;
        self.has_work(thread) && (every_step_has || has_rule())
    }

    /// Who takes the next step: the thread whose turn it is, or else the first behind it that can, from the last thread on to the first.
    fn next_thread(&self) -> Option<u8> {
        let goes_on = (self.left > 0).then_some(self.thread).into_iter();
        let others = (self.thread + 1..=self.table.threads).chain(1..=self.thread);
        goes_on.chain(others).find(|thread| self.can_step(*thread))
    }

    fn step<'e>(
        &mut self,
        entry: &Entry,
        events: &mut impl Iterator<Item = &'e Event>,
    ) -> Result<(), String> {
        let (expected, thread) = (self.next_thread(), entry.thread);
        if expected != Some(thread) {
            return Err(format!("by thread {thread}, where {expected:?} is next"));
        }
        self.begin(entry, events)?;
        let step = Event::step(thread);
        let before = self.table.clone();
        let outcome = apply(&mut self.table, step);
        if events.next() != Some(&step) || outcome != entry.outcome {
            return Err(format!("{entry:?}, by itself {outcome:?}"));
        }
        if !is_own_step(outcome.returned) {
            return Err(format!("{outcome:?} is no step"));
        }
        self.chain_order
            .feed(&before, &self.table, step, &mut self.met)?;
        self.count_turn(thread, outcome.returned);
        self.note_step(&before, entry);
        self.count_waits(thread)
    }

    /// An idle thread begins the next operation of its script, any other nothing.
    fn begin<'e>(
        &mut self,
        entry: &Entry,
        events: &mut impl Iterator<Item = &'e Event>,
    ) -> Result<(), String> {
        let is_idle = self.phase(entry.thread) == Phase::Idle;
        if entry.began != is_idle {
            return Err(format!(
                "{entry:?}, of a thread in {:?}",
                self.phase(entry.thread)
            ));
        }
        if !is_idle {
            return Ok(());
        }
        let script = &mut self.cursors[usize::from(entry.thread) - 1];
        let place = script.take_next().ok_or("begun behind the script's end")?;
        let expected = self.input.begin_of(entry.thread, place);
        let returned = apply(&mut self.table, expected).returned;
        match (events.next() == Some(&expected), returned) {
            (true, Returned::GoneOn) => Ok(()),
            (is_next, _) => Err(format!("{expected:?}: {is_next}, {returned:?}")),
        }
    }

    /// A step behind the last one of a turn is the first of another, also of the same thread.
    fn count_turn(&mut self, thread: u8, returned: Returned) {
        let goes_on = thread == self.thread && self.left > 0;
        let before = if goes_on {
            self.left
        } else {
            self.input.quantum
        };
        self.thread = thread;
        self.left = match returned {
            Returned::Parked => 0,
            _ => before - 1,
        };
        if returned != Returned::Parked && self.left == 0 && self.input.quantum > 1 {
            self.note(Happened::WholeTurn);
        }
    }

    /// No unparked thread with work left sees more than (T - 1) times q steps of others before its own.
    fn count_waits(&mut self, stepped: u8) -> Result<(), String> {
        let others = u64::from(self.table.threads) - 1;
        let most = others * u64::from(self.input.quantum);
        for thread in 1..=self.table.threads {
            let has_work = self.has_work(thread);
            let waited = &mut self.waited[usize::from(thread) - 1];
            if waited.is_some() && !has_work && thread != stepped {
                return Err(format!("thread {thread} lost its work to another's step"));
            }
            *waited = match *waited {
                _ if !has_work => None,
                Some(steps) if thread != stepped => Some(steps + 1),
                _ => Some(0),
            };
            let steps = waited.unwrap_or(0);
            if steps > most && self.origin == Origin::Schedule {
                return Err(format!(
                    "thread {thread} has waited for {steps} steps, of at most {most}"
                ));
            }
            let is_longest = others > 0 && steps == most && self.origin == Origin::Schedule;
            self.happened.add(Happened::LongestWait, is_longest.into());
        }
        Ok(())
    }

    /// Nobody can step any more, and all is as the run left it.
    fn end(&self, run: &Run, event: Option<&Event>) -> Result<(), String> {
        let (steps, most) = (run.trace.len() as u64, self.input.most_steps());
        if let Some(thread) = self.next_thread() {
            return Err(format!("the run ends, but thread {thread} can step"));
        }
        if let Some(event) = event {
            return Err(format!("{event:?} behind the last step"));
        }
        if self.table != run.table || self.cursors != run.cursors {
            return Err("by its events alone the run ends otherwise".to_string());
        }
        if steps > most {
            return Err(format!("{steps} steps, of at most {most}"));
        }
        match run.without_rule {
            0 => Ok(()),
            _ if self.origin == Origin::Construction => Ok(()),
            times => Err(format!("{times} steps had no rule")),
        }
    }

    // What happened

    /// Once for each run.
    fn note(&mut self, happened: Happened) {
        let is_first = self.happened.number(happened) == 0;
        self.happened.add(happened, is_first.into());
    }

    fn note_if(&mut self, condition: bool, happened: Happened) {
        if condition {
            self.note(happened);
        }
    }

    fn note_start(&mut self) {
        let (table, quantum) = (&self.input.table, self.input.quantum);
        let phases = table.thread_records.map(|record| record.phase);
        let unfinished = |phase: &Phase| *phase != Phase::Idle && !phase.is_parked();
        let all_threads = usize::from(table.threads) == MAX_THREADS;
        let parked = phases.iter().any(|phase| phase.is_parked());
        self.note_if(table.threads == 1, Happened::OneThread);
        self.note_if(all_threads, Happened::AllThreads);
        self.note_if(quantum == 1, Happened::ShortestTurn);
        self.note_if(quantum == MAX_QUANTUM, Happened::LongestTurn);
        self.note_if(
            phases.iter().any(unfinished),
            Happened::UnfinishedAtTheStart,
        );
        self.note_if(parked, Happened::ParkedAtTheStart);
        self.note_scripts();
    }

    fn note_scripts(&mut self) {
        let cursors = &self.input.cursors;
        let some = |is: fn(&Script) -> bool| cursors.iter().any(is);
        let empty = some(|script| script.length == 0);
        let in_the_middle = some(|script| script.cursor > 0 && script.left() > 0);
        let at_the_end = some(|script| script.length > 0 && script.left() == 0);
        self.note_if(empty, Happened::EmptyScript);
        self.note_if(in_the_middle, Happened::CursorInTheMiddle);
        self.note_if(at_the_end, Happened::CursorAtTheEnd);
        self.note_if(overlap(cursors), Happened::OverlappingScripts);
    }

    fn note_step(&mut self, before: &Table, entry: &Entry) {
        let outcome = entry.outcome;
        let is_timed = before.thread(entry.thread).operation == Some(Operation::TimedWait);
        let let_out = |thread: u8| self.phase(thread) == Phase::Idle;
        let (out, handed): (Vec<u8>, Vec<u8>) = outcome
            .unparked
            .threads()
            .partition(|thread| let_out(*thread));
        self.note_if(!out.is_empty(), Happened::LetOut);
        self.note_if(!handed.is_empty(), Happened::HandOver);
        self.note_if(outcome.returned == Returned::Parked, Happened::Park);
        self.note_if(outcome.woken > 0 && !is_timed, Happened::Woken);
        self.note_if(outcome.returned == Returned::NotOwner, Happened::NotOwner);
        self.note_if(outcome.returned == Returned::TooDeep, Happened::TooDeep);
    }

    fn note_end(&mut self, run: &Run) {
        let records = &run.table.thread_records;
        let done = run.cursors.iter().all(|script| script.left() == 0);
        let idle = records.iter().all(|record| record.phase == Phase::Idle);
        let waits = records.iter().any(|record| record.phase == Phase::Waiting);
        self.note_if(run.trace.is_empty(), Happened::WithoutAStep);
        self.note_if(done && idle && !run.trace.is_empty(), Happened::AllDone);
        self.note_if(has_ring(&run.table), Happened::Deadlock);
        self.note_if(waits, Happened::WaitWithoutEnd);
        let passed = |rare: &Rare| self.met.number(*rare) > 0;
        self.note_if(Rare::by_rank().iter().any(passed), Happened::PassedByRank);
        self.note_if(run.without_rule > 0, Happened::NoRule);
    }
}

/// Whether two scripts share an operation.
fn overlap(cursors: &[Script]) -> bool {
    let mut pieces: Vec<(u32, u32)> = cursors
        .iter()
        .filter(|script| script.length > 0)
        .map(|script| (script.start, script.start + script.length))
        .collect();
    pieces.sort_unstable();
    pieces.windows(2).any(|pair| pair[1].0 < pair[0].1)
}

/// Whether threads that are parked for entry keep each other there: each by an object that the next one owns.
fn has_ring(table: &Table) -> bool {
    let keeper = |thread: &u8| {
        let record = table.thread(*thread);
        let enters =
            record.phase.is_parked_for_entry() && record.operation != Some(Operation::Exit);
        let owner = enters.then(|| table.owner(record.object).0);
        owner.filter(|owner| *owner != 0 && owner != thread)
    };
    (1..=table.threads).any(|thread| {
        let chain = std::iter::successors(keeper(&thread), keeper);
        chain.take(MAX_THREADS).any(|kept_by| kept_by == thread)
    })
}
