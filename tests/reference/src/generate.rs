//! Makes schedules from a seed: few threads and objects in the thick of it, so that they collide in many orders.
//! It follows the engine's table to choose events that go somewhere, with some refused and malformed ones on purpose.

use crate::engine::{apply, Event};
use crate::given::{draw_given, write_given};
use crate::random::Random;
use crate::table::{Given, Operation, Phase, Table, MAX_LIMIT, MAX_OBJECTS, MAX_THREADS};
use crate::word::MAX_COUNT;
use crate::{aimed_exits, aimed_steps, aimed_ticks, aimed_told};
use std::io::Write;

/// Sizes up to which most tables go.
const FEW_THREADS: u64 = 6;
const FEW_OBJECTS: u64 = 3;
/// Limits up to which most timed waits go, so that they run out within the schedule.
const FEW_TICKS: u64 = 6;
/// With every thread parked the clock goes on alone while one of them has at most so many ticks left.
const TICKS_ALONE: u16 = 20;

/// What a schedule aims at before it goes on at random.
#[derive(Clone, Copy)]
enum Target {
    Nothing,
    /// Exits that end without going in, so many times.
    Exits(u64),
    /// Ticks that hand several monitors, so many times.
    Ticks(u64),
    /// Exits and waits of six steps, at so many objects.
    Steps(u8),
    /// Contenders told while others are queued, so many times.
    Told(u64),
}

impl Target {
    /// Three schedules in ten aim at exits, two at ticks, one at steps, and one at contenders told.
    fn draw(random: &mut Random) -> Target {
        match random.between(1, 10) {
            1..=3 => Target::Exits(random.between(1, 3)),
            4..=5 => Target::Ticks(random.between(1, 2)),
            6 => Target::Steps(random.between(2, 5) as u8),
            7 => Target::Told(random.between(1, 3)),
            _ => Target::Nothing,
        }
    }

    /// The least numbers of threads and of objects.
    fn least_sizes(self) -> (u8, u8) {
        match self {
            Target::Nothing => (1, 1),
            Target::Exits(_) => (aimed_exits::LEAST_THREADS, 1),
            Target::Ticks(_) => (aimed_ticks::LEAST, aimed_ticks::LEAST),
            Target::Steps(objects) => (aimed_steps::LEAST_THREADS, objects),
            Target::Told(_) => (aimed_told::LEAST_THREADS, 1),
        }
    }

    fn needs_reserved(self) -> bool {
        matches!(self, Target::Steps(_))
    }
}

/// What one schedule is to be like. Chances are in percent of events.
struct Plan {
    threads: u8,
    objects: u8,
    reserved: bool,
    given: Given,
    /// Threads and objects that the schedule uses; the rest only by stray events.
    busy_threads: Vec<u8>,
    busy_objects: Vec<u8>,
    length: u64,
    /// How often the same thread goes on.
    sticky: u64,
    stray: u64,
    noise: u64,
    /// How often an idle thread starts a run of enters or exits.
    burst: u64,
    /// How often an owner waits. Waiters keep a monitor from going back to a flat word.
    wait: u64,
    /// How often a wait has a limit, and how often that is a long one.
    timed: u64,
    long_limit: u64,
    aim: Target,
    /// How often the clock ticks. Without timed waits and ticks no number is drawn for them: the schedules of benchmarks stay the same.
    tick: u64,
}

impl Plan {
    fn draw(random: &mut Random) -> Plan {
        let aim = Target::draw(random);
        let (least_threads, least_objects) = aim.least_sizes();
        let threads = size(random, FEW_THREADS, MAX_THREADS).max(least_threads);
        let objects = size(random, FEW_OBJECTS, MAX_OBJECTS).max(least_objects);
        let all_busy = random.percent(5);
        let most_threads = if all_busy { threads } else { FEW_THREADS as u8 };
        let most_objects = random.pick(&[1, 1, 1, 2, FEW_OBJECTS as u8]);
        Plan {
            threads,
            objects,
            reserved: aim.needs_reserved() || random.percent(50),
            given: Given::default(),
            busy_threads: some_of(random, threads, least_threads, most_threads),
            busy_objects: some_of(random, objects, 1, most_objects),
            aim,
            length: match random.between(1, 100) {
                1..=2 => random.between(2_000, 6_000),
                3..=25 => random.between(300, 1_000),
                _ => random.between(10, 300),
            },
            sticky: random.pick(&[0, 30, 60, 85]),
            stray: random.pick(&[0, 2, 10]),
            noise: random.pick(&[0, 0, 0, 3, 15]),
            burst: random.pick(&[0, 0, 0, 4]),
            wait: random.pick(&[0, 4, 15]),
            timed: random.pick(&[0, 50, 50, 90]),
            long_limit: random.pick(&[0, 0, 30]),
            tick: random.pick(&[0, 2, 10, 25]),
        }
    }
}

/// A size that is mostly small, at times anything and at times the largest.
pub(crate) fn size(random: &mut Random, few: u64, largest: usize) -> u8 {
    let largest = largest as u64;
    match random.between(1, 10) {
        1 => largest as u8,
        2..=3 => random.between(1, largest) as u8,
        _ => random.between(1, few) as u8,
    }
}

/// Some neighbours among the numbers from 1 to the last, half of the time with the last.
pub(crate) fn some_of(random: &mut Random, last: u8, least: u8, most: u8) -> Vec<u8> {
    let number = random.between(least.into(), most.min(last).into()) as u8;
    let highest = last - number + 1;
    let any = random.between(1, highest.into()) as u8;
    let first = random.pick(&[any, highest]);
    (first..first + number).collect()
}

/// A run of one operation by one thread, to reach depths where counts end and monitors begin.
struct Burst {
    thread: u8,
    operation: Operation,
    object: u8,
    left: u64,
    /// How often the burst has its way, in percent of events.
    share: u64,
}

impl Burst {
    /// Some schedules begin with one thread nesting to about where the count of a flat or reserved word ends.
    fn at_the_start(random: &mut Random, plan: &Plan) -> Option<Burst> {
        let wanted = random.percent(8);
        let end_of_count = u64::from(MAX_COUNT);
        wanted.then(|| Burst {
            thread: plan.busy_threads[0],
            operation: Operation::Enter,
            object: plan.busy_objects[0],
            left: random.between(end_of_count - 3, end_of_count + 8),
            share: 98,
        })
    }
}

struct Generator {
    random: Random,
    plan: Plan,
    table: Table,
    last_thread: u8,
    burst: Option<Burst>,
    text: Vec<u8>,
}

/// The schedule of a seed, as input of the replay.
pub fn schedule(seed: u64) -> Vec<u8> {
    let mut random = Random::new(seed);
    let plan = Plan::draw(&mut random);
    let burst = Burst::at_the_start(&mut random, &plan);
    planned(random, plan, burst)
}

/// The schedule of a seed, at times with ranks behind its header, which no replay takes.
pub fn given_schedule(seed: u64) -> Vec<u8> {
    let mut random = Random::new(seed);
    let mut plan = Plan::draw(&mut random);
    plan.given = draw_given(&mut random, plan.threads);
    let burst = Burst::at_the_start(&mut random, &plan);
    planned(random, plan, burst)
}

/// A long schedule for benchmarks: so many events of so many threads that collide over so many objects, so many percent of them ticks. With ticks
/// there are timed waits too.
pub fn long_schedule(seed: u64, length: u64, threads: u8, objects: u8, ticks: u64) -> Vec<u8> {
    let waits = ticks > 0;
    let plan = Plan {
        threads,
        objects,
        reserved: true,
        given: Given::default(),
        busy_threads: (1..=threads).collect(),
        // With one busy object and no waits, or none but short timed ones, the threads cannot block each other for good.
        busy_objects: vec![1],
        aim: Target::Nothing,
        length,
        sticky: 30,
        stray: 0,
        noise: 0,
        burst: 0,
        wait: if waits { 10 } else { 0 },
        timed: if waits { 100 } else { 0 },
        long_limit: 0,
        tick: ticks,
    };
    planned(Random::new(seed), plan, None)
}

fn planned(random: Random, plan: Plan, burst: Option<Burst>) -> Vec<u8> {
    let (threads, objects) = (plan.threads.into(), plan.objects.into());
    let table = Table::fresh_given(threads, objects, plan.reserved, &plan.given);
    let mut generator = Generator {
        random,
        plan,
        table: table.expect("sizes and ranks in range"),
        last_thread: 0,
        burst,
        text: Vec::new(),
    };
    generator.write();
    generator.text
}

impl Generator {
    fn write(&mut self) {
        self.write_header();
        self.write_aimed();
        for _ in 0..self.plan.length {
            if self.random.percent(self.plan.noise) {
                self.write_noise();
                continue;
            }
            let Some(event) = self.choose_event() else {
                break;
            };
            self.write_event(event);
        }
        // A last step of every thread shows what the table was left at.
        for thread in self.plan.busy_threads.clone() {
            self.write_event(Event::step(thread));
        }
        let cut = self.plan.noise > 0 && self.random.percent(20);
        if cut {
            self.text.pop();
        }
    }

    fn write_header(&mut self) {
        let plan = &self.plan;
        let (threads, objects, kind) = (plan.threads, plan.objects, u8::from(plan.reserved));
        let mut header = format!("L {threads} {objects} {kind}\n");
        if plan.noise > 0 && self.random.percent(5) {
            header = self.random.pick(&ODD_HEADERS).to_string();
        }
        self.text.extend_from_slice(header.as_bytes());
        write_given(&self.plan.given, &mut self.text);
    }

    fn write_aimed(&mut self) {
        let (threads, object) = (&self.plan.busy_threads, self.plan.busy_objects[0]);
        let (random, table) = (&mut self.random, &mut self.table);
        let events = match self.plan.aim {
            Target::Nothing => return,
            Target::Exits(times) => aimed_exits::events(random, table, threads, object, times),
            Target::Ticks(times) => aimed_ticks::events(random, table, threads, times),
            Target::Steps(objects) => aimed_steps::events(random, table, threads, objects),
            Target::Told(times) => aimed_told::events(random, table, threads, object, times),
        };
        for event in events {
            write_event_line(event, &mut self.text);
        }
    }

    fn write_event(&mut self, event: Event) {
        apply(&mut self.table, event);
        write_event_line(event, &mut self.text);
    }

    /// Nothing where every thread is parked for good, or for very long.
    fn choose_event(&mut self) -> Option<Event> {
        if self.plan.tick > 0 && self.random.percent(self.plan.tick) {
            return Some(Event::Tick);
        }
        if self.random.percent(self.plan.stray) {
            return Some(self.stray_event());
        }
        let share = self.burst.as_ref().map_or(0, |burst| burst.share);
        if self.random.percent(share) {
            if let Some(event) = self.burst_event() {
                return Some(event);
            }
        }
        let Some(thread) = self.choose_thread() else {
            return self.tick_alone();
        };
        self.last_thread = thread;
        match self.table.thread(thread).phase {
            Phase::Idle => Some(self.choose_begin(thread)),
            _ => Some(Event::step(thread)),
        }
    }

    /// Any event at all, at times of threads and objects that there are not.
    fn stray_event(&mut self) -> Event {
        let thread = self.random.between(0, u64::from(self.plan.threads) + 1) as u16;
        if self.random.percent(50) {
            return Event::Step { thread };
        }
        let operation = self.any_operation();
        Event::Begin {
            thread,
            operation: operation.number(),
            object: self.random.between(0, u64::from(self.plan.objects) + 1) as u16,
            limit: match operation {
                Operation::TimedWait => self.random.pick(&[0, 0, 1, MAX_LIMIT]).into(),
                _ => 0,
            },
        }
    }

    /// A tick, where a waiting thread runs out soon.
    fn tick_alone(&self) -> Option<Event> {
        let soon = |thread: u8| {
            let record = self.table.thread(thread);
            record.phase == Phase::Waiting && (1..=TICKS_ALONE).contains(&record.ticks)
        };
        let goes_on = self.plan.tick > 0 && (1..=self.plan.threads).any(soon);
        goes_on.then_some(Event::Tick)
    }

    fn burst_event(&mut self) -> Option<Event> {
        let burst = self.burst.as_mut()?;
        let phase = self.table.thread(burst.thread).phase;
        if phase.is_parked() || (phase == Phase::Idle && burst.left == 0) {
            self.burst = None;
            return None;
        }
        if phase != Phase::Idle {
            return Some(Event::step(burst.thread));
        }
        burst.left -= 1;
        Some(Event::begin(burst.thread, burst.operation, burst.object, 0))
    }

    fn choose_thread(&mut self) -> Option<u8> {
        let ready = |thread: &u8| !self.table.thread(*thread).phase.is_parked();
        let busy = self.plan.busy_threads.iter().copied();
        let threads: Vec<u8> = busy.filter(ready).collect();
        if threads.is_empty() {
            return self.newcomer();
        }
        if threads.contains(&self.last_thread) && self.random.percent(self.plan.sticky) {
            return Some(self.last_thread);
        }
        Some(self.random.pick(&threads))
    }

    /// A thread not in use yet, which may still wake or let in the others.
    fn newcomer(&mut self) -> Option<u8> {
        let busy = &mut self.plan.busy_threads;
        let ready = |thread: &u8| self.table.thread(*thread).phase == Phase::Idle;
        let thread =
            (1..=self.plan.threads).find(|thread| !busy.contains(thread) && ready(thread))?;
        busy.push(thread);
        Some(thread)
    }

    fn choose_begin(&mut self, thread: u8) -> Event {
        let owns = |object: &u8| self.table.owner(*object).0 == thread;
        let busy = self.plan.busy_objects.iter().copied();
        let owned: Vec<u8> = busy.filter(owns).collect();
        let object = if !owned.is_empty() && self.random.percent(90) {
            self.random.pick(&owned)
        } else {
            self.random.pick(&self.plan.busy_objects)
        };
        if self.random.percent(self.plan.burst) {
            self.burst = Some(Burst {
                thread,
                operation: self.random.pick(&BURST_CHOICES),
                object,
                left: self.random.between(30, 90),
                share: 80,
            });
        }
        let operation = self.choose_operation(owned.contains(&object));
        let limit = match operation {
            Operation::TimedWait => self.choose_limit(),
            _ => 0,
        };
        Event::begin(thread, operation, object, limit)
    }

    fn choose_operation(&mut self, owner: bool) -> Operation {
        if owner && self.random.percent(self.plan.wait) {
            self.choose_wait()
        } else if owner {
            self.random.pick(&OWNER_CHOICES)
        } else if self.random.percent(95) {
            Operation::Enter
        } else {
            self.any_operation()
        }
    }

    fn choose_wait(&mut self) -> Operation {
        match self.plan.timed > 0 && self.random.percent(self.plan.timed) {
            true => Operation::TimedWait,
            false => Operation::Wait,
        }
    }

    fn choose_limit(&mut self) -> u16 {
        if !self.random.percent(self.plan.long_limit) {
            return self.random.between(1, FEW_TICKS) as u16;
        }
        let any = self.random.between(1, MAX_LIMIT.into()) as u16;
        self.random.pick(&[MAX_LIMIT, any, any])
    }

    fn any_operation(&mut self) -> Operation {
        match self.plan.timed {
            0 => self.random.pick(&UNTIMED),
            _ => self.random.pick(&Operation::ALL),
        }
    }

    fn write_noise(&mut self) {
        match self.random.between(1, 10) {
            1 => {
                let digits = self.random.between(6, 400) as usize;
                self.text.extend_from_slice(b"S ");
                self.text.extend(std::iter::repeat_n(b'1', digits));
            }
            2 => {
                for _ in 0..self.random.between(1, 30) {
                    let byte = self.random.draw() as u8;
                    self.text.push(if byte == b'\n' { 0 } else { byte });
                }
            }
            _ => {
                let noise = self.random.pick(&NOISE_LINES);
                self.text.extend_from_slice(noise.as_bytes());
            }
        }
        self.text.push(b'\n');
    }
}

/// The operations that have no limit.
pub const UNTIMED: [Operation; 5] = [
    Operation::Enter,
    Operation::Exit,
    Operation::Wait,
    Operation::Notify,
    Operation::NotifyAll,
];

/// What an owner does next: exits lead, so that objects pass from hand to hand.
const OWNER_CHOICES: [Operation; 10] = [
    Operation::Enter,
    Operation::Enter,
    Operation::Enter,
    Operation::Exit,
    Operation::Exit,
    Operation::Exit,
    Operation::Exit,
    Operation::Exit,
    Operation::Notify,
    Operation::NotifyAll,
];

const BURST_CHOICES: [Operation; 3] = [Operation::Enter, Operation::Enter, Operation::Exit];

const ODD_HEADERS: [&str; 12] = [
    "\n",
    "L 1 1\n",
    "L 0 1 0\n",
    "L 1 0 0\n",
    "L 33 1 1\n",
    "L 1 65 0\n",
    "L 33 65 2\n",
    "L 2 2 2\n",
    "L 65536 1 0\n",
    "L 65535 65535 1\n",
    "l 2 2 0\n",
    "E 1 1\n",
];

const NOISE_LINES: [&str; 34] = [
    "",
    " ",
    "S",
    "S ",
    "S 01",
    "S 1 ",
    " S 1",
    "S  1",
    "s 1",
    "S 1 1",
    "E 1",
    "E 1 1 1",
    "E 1 1\r",
    "E\t1 1",
    "E +1 1",
    "E -1 1",
    "E 1 00",
    "X 65536 1",
    "W 1 99999",
    "Q 1 1",
    "L 2 2 0",
    "EX 1 1",
    "A 1 1x",
    "N 1,1",
    "V 1 1",
    "V 1 1 1 1",
    "V 1 1 65536",
    "V 1 1 01",
    "V 1 1 1 ",
    "E 1 1 65535",
    "C ",
    "C 1",
    "CC",
    "c",
];

/// Appends an event as a line of the replay's input.
pub fn write_event_line(event: Event, text: &mut Vec<u8>) {
    let written = match event {
        Event::Step { thread } => writeln!(text, "S {thread}"),
        Event::Begin {
            thread,
            operation,
            object,
            limit,
        } => match b"EXWNA".get(usize::from(operation) - 1) {
            Some(letter) => writeln!(text, "{} {thread} {object}", char::from(*letter)),
            None => writeln!(text, "V {thread} {object} {limit}"),
        },
        Event::Tick => writeln!(text, "C"),
    };
    written.expect("a vector takes any text");
}
