//! Thirty-two threads of random operations and ranks through the wrapper, behind events that aim at exits which end without going in, at contenders told
//! while others are queued and at ticks that hand several monitors, with the second engine, the plain monitors, an interpreter's run queue, the count of
//! own steps and the order of chains as checks. Every other table takes the threads to be stepped from that queue alone. On the first tables all events
//! aim at six steps of a thread.
//! Usage: stress [STEPS] [SEED]

use duskclamp::{Answer, Operation, Phase, Refusal, Table, Words};
use reference::arguments::count_and_seed;
use reference::chain_order::ChainOrder;
use reference::checked::check_table;
use reference::engine::{apply, Event};
use reference::given::draw_given;
use reference::met::{Met, Rare};
use reference::outcome::{Outcome, Returned};
use reference::own_steps::{OwnSteps, Phases, Start, IDLE, PARKED};
use reference::plain::PlainMonitors;
use reference::random::Random;
use reference::report::Report;
use reference::run_queue::CheckedQueue;
use reference::table::{self, MAX_OBJECTS};
use reference::thread_set::ThreadSet;
use reference::{aimed_exits, aimed_steps, aimed_ticks, aimed_told};
use std::collections::BTreeMap;
use std::process::ExitCode;
use tables::compare::compare_bytes;
use tables::layout::{decode, encode, phase_byte};

const DEFAULT_STEPS: u64 = 10_000_000;
const THREADS: u32 = 32;
/// A table is left for a fresh one after so many events, or when all its threads are parked and no tick lets one go on soon.
const ROUND: u64 = 100_000;
/// Events between two comparisons of the whole table with plain monitors and run queue.
const COMPARED: u64 = 64;
/// On so many tables, the first, all events aim at exits and waits of six steps, once at each object. Few come up at random, since an object's
/// reservation is cancelled for good.
const STEP_TABLES: u64 = 12;
/// How often each other table is begun with events that aim at exits which end without going in, at contenders told while others are queued, and at ticks
/// that hand several monitors. From so many steps on, a run must have met what is rare.
const EXIT_AIMS: u64 = 12;
const TOLD_AIMS: u64 = 12;
const TICK_AIMS: u64 = 16;
const WHOLE_RUN: u64 = 1_000_000;
/// The phase of a thread about to go in.
const GO_IN: u8 = 4;
/// Ticks in percent of events.
const TICKS: u64 = 5;
/// Limits up to which most timed waits go, and up to which a few do.
const SHORT_LIMIT: u64 = 12;
const LONG_LIMIT: u64 = 65_535;
/// With all threads parked the clock goes on while one of them has at most so many ticks left.
const SOON: u32 = 1_000;

fn main() -> ExitCode {
    let Some((_, steps, seed)) = count_and_seed(DEFAULT_STEPS, "stress [STEPS] [SEED]") else {
        return ExitCode::FAILURE;
    };
    let mut report = Report::default();
    let total = run_tables(steps, seed, &mut report);
    total.print();
    if steps >= WHOLE_RUN {
        total.met.check(&Rare::ALL, &mut report);
    }
    report.finish()
}

/// One table after another, until there are so many steps or one fails.
fn run_tables(steps: u64, seed: u64, report: &mut Report) -> Tally {
    let mut total = Tally::default();
    while total.steps < steps {
        let round_seed = seed.wrapping_add(total.tables);
        let (aims_at_steps, by_queue) = (total.tables < STEP_TABLES, total.tables % 2 == 0);
        let mut round = Round::new(round_seed, aims_at_steps, by_queue);
        let result = round.run(ROUND.min(steps - total.steps));
        let failed = result.is_err();
        report.check(&format!("round of seed {round_seed}"), result);
        total.add(&round.tally);
        if failed {
            break;
        }
    }
    total
}

#[derive(Default)]
struct Tally {
    tables: u64,
    steps: u64,
    begins: u64,
    finished: u64,
    parked: u64,
    woken: u64,
    ticks: u64,
    run_out: u64,
    /// The most steps of its own that a thread took from each start.
    own_steps: BTreeMap<Start, u32>,
    met: Met,
}

impl Tally {
    fn add(&mut self, other: &Tally) {
        self.tables += 1;
        self.steps += other.steps;
        self.begins += other.begins;
        self.finished += other.finished;
        self.parked += other.parked;
        self.woken += other.woken;
        self.ticks += other.ticks;
        self.run_out += other.run_out;
        for (start, taken) in &other.own_steps {
            self.note_own_steps(*start, *taken);
        }
        self.met.add_all(&other.met);
    }

    fn note_own_steps(&mut self, start: Start, taken: u32) {
        let most = self.own_steps.entry(start).or_default();
        *most = taken.max(*most);
    }

    fn print(&self) {
        println!(
            "{} steps, {} begins, {} tables",
            self.steps, self.begins, self.tables
        );
        println!(
            "{} finished, {} parked, {} woken, {} ticks, {} run out",
            self.finished, self.parked, self.woken, self.ticks, self.run_out
        );
        println!("most own steps: {:?}", self.own_steps);
        self.met.print(&Rare::ALL);
    }
}

struct Round {
    random: Random,
    objects: u32,
    table: Table,
    /// The second engine's, to which every event is put too.
    second: table::Table,
    plain: PlainMonitors,
    queue: CheckedQueue,
    own_steps: OwnSteps,
    chain_order: ChainOrder,
    /// Whether all events aim at six steps.
    aims_at_steps: bool,
    /// Whether threads are chosen by the run queue and their answers, and not by their phases.
    by_queue: bool,
    /// The threads at an operation, by their own answers: one that was let out is among them until its step is refused with 15.
    at_work: ThreadSet,
    /// The phases, and the parked threads, by the bytes behind the last event.
    phases: Phases,
    parked: ThreadSet,
    /// The operation and the object that a thread last began.
    operations_of: [Operation; THREADS as usize],
    objects_of: [u32; THREADS as usize],
    tally: Tally,
}

impl Round {
    fn new(seed: u64, aims_at_steps: bool, by_queue: bool) -> Round {
        let mut random = Random::new(seed);
        let (objects, words) = match aims_at_steps {
            true => (MAX_OBJECTS as u32, Words::Reserved),
            false => (
                random.pick(&[1, 2, 4, 8, 64]),
                random.pick(&[Words::Free, Words::Reserved]),
            ),
        };
        let ranks = (1..).zip(draw_given(&mut random, THREADS as u8).ranks);
        let builder = Table::builder(THREADS, objects).words(words);
        let table = ranks.fold(builder, |builder, (thread, rank)| {
            builder.rank(thread, rank.into())
        });
        let table = table.build().expect("sizes and ranks in range");
        let second = decode(table.bytes()).expect("the bytes of a table");
        Round {
            random,
            objects,
            table,
            plain: PlainMonitors::new(objects as u8),
            queue: CheckedQueue::default(),
            own_steps: OwnSteps::default(),
            chain_order: ChainOrder::new(&second),
            second,
            aims_at_steps,
            by_queue,
            at_work: ThreadSet::default(),
            phases: [IDLE; THREADS as usize],
            parked: ThreadSet::default(),
            operations_of: [Operation::Enter; THREADS as usize],
            objects_of: [1; THREADS as usize],
            tally: Tally::default(),
        }
    }

    fn run(&mut self, steps: u64) -> Result<(), String> {
        self.aim(steps)?;
        let mut events = 0;
        while self.tally.steps < steps && !self.aims_at_steps {
            let result = match self.choose_thread() {
                None if !self.one_is_due_soon() => break,
                Some(thread) if !self.random.percent(TICKS) => self.turn(thread),
                _ => self.tick(),
            };
            result.map_err(|wrong| format!("event {events}: {wrong}"))?;
            events += 1;
            if events % COMPARED == 0 {
                self.compare()?;
            }
        }
        self.compare()
    }

    /// Takes the events that aim; plain monitors and run queue are compared after each.
    fn aim(&mut self, steps: u64) -> Result<(), String> {
        for (place, event) in self.aimed_events().into_iter().enumerate() {
            if self.tally.steps == steps {
                break;
            }
            self.aimed_event(event)
                .and_then(|()| self.compare())
                .map_err(|wrong| format!("aimed event {place}, {event:?}: {wrong}"))?;
        }
        Ok(())
    }

    /// Events that aim, made by the second engine.
    fn aimed_events(&mut self) -> Vec<Event> {
        let threads: Vec<u8> = (1..=THREADS as u8).collect();
        let mut table = self.second.clone();
        let (random, objects) = (&mut self.random, self.objects as u8);
        if self.aims_at_steps {
            return aimed_steps::events(random, &mut table, &threads, objects);
        }
        let object = random.between(1, objects.into()) as u8;
        let mut events = aimed_exits::events(random, &mut table, &threads, object, EXIT_AIMS);
        events.extend(aimed_told::events(
            random, &mut table, &threads, object, TOLD_AIMS,
        ));
        if objects >= aimed_ticks::LEAST {
            events.extend(aimed_ticks::events(random, &mut table, &threads, TICK_AIMS));
        }
        events
    }

    fn aimed_event(&mut self, event: Event) -> Result<(), String> {
        match event {
            Event::Begin {
                thread,
                operation,
                object,
                limit,
            } => {
                let operation = Operation::from_number(operation.into()).ok_or("no operation")?;
                self.begin(thread.into(), operation, object.into(), limit)
            }
            Event::Step { thread } => self.step(thread.into()),
            Event::Tick => self.tick(),
        }
    }

    /// A thread that may begin or step; nothing where all are parked.
    fn choose_thread(&mut self) -> Option<u32> {
        let ready = match self.by_queue {
            true => !self.at_work.bits() | self.queue.queue.threads().bits(),
            false => !self.parked.bits(),
        };
        let ready: Vec<u8> = ThreadSet::from_bits(ready).threads().collect();
        (!ready.is_empty()).then(|| self.random.pick(&ready).into())
    }

    fn one_is_due_soon(&self) -> bool {
        let mut threads = self.table.threads();
        threads.any(|thread| thread.phase == Phase::Waiting && (1..=SOON).contains(&thread.ticks))
    }

    /// By the bytes, since most threads are asked most of the time.
    fn phase(&self, thread: u32) -> u8 {
        phase_byte(self.table.bytes(), thread as usize)
    }

    fn compare(&self) -> Result<(), String> {
        let table = decode(self.table.bytes()).ok_or("the bytes are no table")?;
        check_table(&table, &self.plain)?;
        self.queue.check(&table)
    }

    /// Puts an event to the second engine: the same answer and the same bytes, and what it does to the chains is in order.
    fn compare_second(&mut self, event: Event, outcome: Outcome) -> Result<(), String> {
        let before = self.second.clone();
        let expected = apply(&mut self.second, event);
        if outcome != expected {
            return Err(format!("{outcome:?}, by the second engine {expected:?}"));
        }
        compare_bytes(self.table.bytes(), &encode(&self.second))?;
        let met = &mut self.tally.met;
        self.chain_order.feed(&before, &self.second, event, met)
    }

    /// The thread begins something if it is idle, else takes a step. By its answers alone one that was let out is not idle before a step of it.
    fn turn(&mut self, thread: u32) -> Result<(), String> {
        let is_idle = match self.by_queue {
            true => !self.at_work.contains(thread as u8),
            false => self.phase(thread) == IDLE,
        };
        match is_idle {
            true => self.begin_any(thread),
            false => self.step(thread),
        }
    }

    fn begin_any(&mut self, thread: u32) -> Result<(), String> {
        let object = self.choose_object(thread);
        let operation = self.choose(self.table.owner(object) == Ok(thread));
        let limit = self.choose_limit();
        self.begin(thread, operation, object, limit)
    }

    fn begin(
        &mut self,
        thread: u32,
        operation: Operation,
        object: u32,
        limit: u32,
    ) -> Result<(), String> {
        self.operations_of[thread as usize - 1] = operation;
        self.objects_of[thread as usize - 1] = object;
        match operation {
            Operation::TimedWait => self.table.timed_wait(thread, object, limit),
            _ => self.table.begin(thread, operation, object),
        }
        .map_err(|refusal| format!("begin refused with {refusal:?}"))?;
        self.tally.begins += 1;
        let event = Event::Begin {
            thread: thread as u16,
            operation: operation as u8,
            object: object as u16,
            limit,
        };
        self.feed(event, Some(IDLE), Outcome::of(Returned::GoneOn))
    }

    fn tick(&mut self) -> Result<(), String> {
        let answer = self.table.tick();
        let unparked = answer.map_err(|refusal| format!("tick refused with {refusal:?}"))?;
        self.tally.ticks += 1;
        let accepted = Outcome::of(Returned::GoneOn);
        let unparked = ThreadSet::from_bits(unparked.bits());
        self.feed(Event::Tick, None, accepted.unparking(unparked))
    }

    /// An owner mostly stays with its object, and goes only to later ones, so that few owners park for each other.
    fn choose_object(&mut self, thread: u32) -> u32 {
        let last = self.objects_of[thread as usize - 1];
        let owns = self.table.owner(last) == Ok(thread);
        match (owns, self.random.percent(98)) {
            (true, true) => last,
            (true, false) => self.random.between(last.into(), self.objects.into()) as u32,
            (false, _) => self.random.between(1, self.objects.into()) as u32,
        }
    }

    /// An owner mostly exits, waits at times and wakes others; whoever does not own the object mostly enters.
    fn choose(&mut self, owns: bool) -> Operation {
        let chance = self.random.between(1, 100);
        match (owns, chance) {
            (true, 1..=20) => Operation::Enter,
            (true, 21..=70) => Operation::Exit,
            (true, 71..=72) => Operation::Wait,
            (true, 73..=76) => Operation::TimedWait,
            (true, 77..=88) => Operation::Notify,
            (true, _) => Operation::NotifyAll,
            (false, 1..=92) => Operation::Enter,
            (false, 93..=95) => Operation::Exit,
            (false, 96) => Operation::Wait,
            (false, 97) => Operation::TimedWait,
            (false, _) => Operation::Notify,
        }
    }

    fn choose_limit(&mut self) -> u32 {
        let longest = match self.random.percent(10) {
            true => LONG_LIMIT,
            false => SHORT_LIMIT,
        };
        self.random.between(1, longest) as u32
    }

    fn step(&mut self, thread: u32) -> Result<(), String> {
        let phase = self.phase(thread);
        let outcome = outcome(self.table.step(thread))?;
        self.tally.steps += 1;
        let was_let_out = self.queue.let_out.contains(thread as u8);
        if (outcome.returned == Returned::ThreadIdle) != was_let_out {
            return Err(format!("thread {thread} was answered {outcome:?}"));
        }
        self.count_step(thread, phase, outcome)?;
        self.feed(Event::step(thread as u8), Some(phase), outcome)
    }

    fn count_step(&mut self, thread: u32, phase: u8, outcome: Outcome) -> Result<(), String> {
        let is_finished = outcome.returned == Returned::Finished;
        let woken = u64::from(outcome.woken);
        self.tally.finished += u64::from(is_finished);
        self.tally.parked += u64::from(outcome.returned == Returned::Parked);
        match self.operations_of[thread as usize - 1] {
            Operation::TimedWait => self.tally.run_out += woken,
            Operation::Exit if phase == GO_IN && is_finished => {
                self.tally.met.note_ended(phase, 1)?;
            }
            _ => self.tally.woken += woken,
        }
        Ok(())
    }

    /// Holds an event to the second engine, to the plain monitors, to the run queue and to the count of own steps: a thread's in the phase, or a tick.
    fn feed(&mut self, event: Event, phase: Option<u8>, outcome: Outcome) -> Result<(), String> {
        self.compare_second(event, outcome)?;
        self.plain.feed(event, outcome)?;
        let before = self.phases;
        self.phases = std::array::from_fn(|place| self.phase(place as u32 + 1));
        self.count_own_steps(event, outcome.returned, &before)?;
        self.check_set(outcome)?;
        self.tally.met.note_unparked(phase, outcome)?;
        match (event, outcome.returned) {
            (Event::Begin { thread, .. }, _) => self.at_work.extend([thread as u8]),
            (Event::Step { .. }, Returned::GoneOn | Returned::Parked) | (Event::Tick, _) => {}
            (Event::Step { thread }, _) => self.at_work.remove(thread as u8),
        }
        let let_out = self.let_out();
        for thread in &let_out {
            self.plain.ended_by_another(*thread)?;
            self.tally.met.note_ended(phase.unwrap_or(IDLE), 1)?;
        }
        let met = &mut self.tally.met;
        self.queue.feed(event, outcome, &let_out, met);
        Ok(())
    }

    fn count_own_steps(
        &mut self,
        event: Event,
        returned: Returned,
        before: &Phases,
    ) -> Result<(), String> {
        let met = &mut self.tally.met;
        self.own_steps
            .feed(event, returned, before, &self.phases, met);
        if let Event::Step { thread } = event {
            let count = self.own_steps.count(thread as u8);
            self.tally.note_own_steps(count.start, count.taken);
        }
        self.own_steps.check(&self.phases)
    }

    /// The set of the last event, by the bytes before and behind it.
    fn check_set(&mut self, outcome: Outcome) -> Result<(), String> {
        let is_parked = |thread: &u8| PARKED.contains(&self.phases[usize::from(*thread) - 1]);
        let parked: ThreadSet = (1..=THREADS as u8).filter(is_parked).collect();
        let (given, expected) = (outcome.unparked.bits(), self.parked.bits() & !parked.bits());
        self.parked = parked;
        match given == expected {
            true => Ok(()),
            false => Err(format!(
                "the set is {given:08x}, by the bytes {expected:08x}"
            )),
        }
    }

    /// The threads that the last event has let out: idle by the bytes, but not by their own answers.
    fn let_out(&self) -> Vec<u8> {
        let known = self.queue.let_out;
        let is_new = |thread: &u8| !known.contains(*thread) && self.phase((*thread).into()) == IDLE;
        self.at_work.threads().filter(is_new).collect()
    }
}

/// The outcome as the second program has it; an error where it is one that no event of a run has.
fn outcome(given: duskclamp::Outcome) -> Result<Outcome, String> {
    let (returned, woken) = match given.result {
        Ok(Answer::GoneOn) => (Returned::GoneOn, 0),
        Ok(Answer::Finished { woken }) => (Returned::Finished, woken),
        Ok(Answer::Parked) => (Returned::Parked, 0),
        Err(Refusal::NotOwner) => (Returned::NotOwner, 0),
        Err(Refusal::TooDeep) => (Returned::TooDeep, 0),
        Err(Refusal::ThreadIdle) => (Returned::ThreadIdle, 0),
        Err(refusal) => return Err(format!("refused with {refusal:?}")),
    };
    Ok(Outcome {
        returned,
        woken,
        committed: given.commits,
        unparked: ThreadSet::from_bits(given.unparked.bits()),
    })
}
