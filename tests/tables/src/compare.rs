//! The library beside the second engine: bytes and answers of events and of fresh tables, and answers to questions; and runs beside single calls.

use crate::cases::{asked_about, cases};
use crate::damage::{fields, Field};
use crate::layout::{decode, encode, TABLE_SIZE};
use crate::made::{any_bytes, random_bytes, KINDS};
use crate::questions::QUESTIONS;
use duskclamp::raw;
use reference::chain_order::ChainOrder;
use reference::engine::{apply, Event};
use reference::met::{Met, Rare};
use reference::outcome::{Outcome, Returned};
use reference::random::Random;
use reference::report::{compare_outputs, Report};
use reference::table::{Given, Table, MAX_RANK, MAX_THREADS};
use reference::thread_set::ThreadSet;
use reference::unparked::unparked;
use reference::{generate, program, replay};
use std::process::ExitCode;

pub const NOT_SOUND: u8 = 11;
/// The number of the operation that has a call of its own.
pub const TIMED_WAIT: u8 = 6;
/// Questions put to each table; the next table of its kind gets the next ones.
const ASKED: u64 = 5;

pub struct Run {
    random: Random,
    fields: Vec<Field>,
    report: Report,
    /// How often each number was returned.
    returned: [u64; 256],
    /// What was met that is rare.
    met: Met,
}

impl Run {
    pub fn new(seed: u64) -> Run {
        Run {
            random: Random::new(seed),
            fields: fields(),
            report: Report::default(),
            returned: [0; 256],
            met: Met::default(),
        }
    }

    /// The table and event made for each number, by both engines and by its number.
    pub fn check_cases(&mut self) {
        for case in cases() {
            let bytes = encode(&case.table);
            let result = self
                .check_event(&bytes, Some(case.table), case.event)
                .and_then(|returned| match returned == case.number {
                    true => Ok(()),
                    false => Err(format!("returned {returned}")),
                });
            self.note(|| format!("the case for {}", case.number), result);
        }
        for (place, table) in asked_about().iter().enumerate() {
            let bytes = encode(table);
            for (question, asked) in QUESTIONS.iter().flat_map(|each| [(each, 1), (each, 2)]) {
                let result = question.check(&bytes, Some(table), asked);
                self.note(|| format!("table {place} to be asked about"), result);
            }
        }
        let above = Some(vec![0, MAX_RANK + 1]);
        for length in [TABLE_SIZE - 1, TABLE_SIZE] {
            for (threads, given) in [(33, None), (33, above.clone()), (2, above.clone())] {
                self.check_fresh(vec![0; length], threads, 1, false, given);
            }
        }
    }

    pub fn check_table(&mut self, place: u64) {
        let bytes = any_bytes(&mut self.random, &self.fields, place);
        let table = decode(&bytes);
        let numbers = table.as_ref().map(|table| (table.threads, table.objects));
        for event in self.events(numbers.unwrap_or((3, 3))) {
            let result = self.check_event(&bytes, table.clone(), event).map(|_| ());
            let name = || format!("table {place}, {event:?}");
            self.note(name, result);
        }
        let (threads, objects) = numbers.unwrap_or((3, 3));
        let last = self.random.pick(&[threads, objects]);
        let asked = self.near(last).into();
        for turn in 0..ASKED {
            let question = &QUESTIONS[(place / KINDS * ASKED + turn) as usize % QUESTIONS.len()];
            let result = question.check(&bytes, table.as_ref(), asked);
            self.note(|| format!("table {place}"), result);
        }
    }

    fn note(&mut self, name: impl Fn() -> String, result: Result<(), String>) {
        let name = if result.is_err() {
            name()
        } else {
            String::new()
        };
        self.report.check(&name, result);
    }

    /// A step, a begin and a tick.
    fn events(&mut self, (threads, objects): (u8, u8)) -> [Event; 3] {
        let step = Event::Step {
            thread: self.near(threads),
        };
        let begin = Event::Begin {
            thread: self.near(threads),
            operation: self.random.pick(&[0, 1, 1, 2, 2, 3, 3, 4, 5, 6, 6, 7, 255]),
            object: self.near(objects),
            limit: self.limit(),
        };
        [step, begin, Event::Tick]
    }

    /// Mostly a limit that a timed wait may have, at times one beside that range, or one that looks good if it is cut off.
    fn limit(&mut self) -> u32 {
        let any = self.random.between(1, 65_535) as u32;
        let cut_off = self.random.between(1, 65_535) as u32 * 65_536 + any;
        self.random
            .pick(&[1, 2, 65_535, any, any, 0, 65_536, cut_off, u32::MAX])
    }

    /// Mostly a number from 1 to the last, at times one beside that range or far from it.
    fn near(&mut self, last: u8) -> u16 {
        let last = u16::from(last).max(1);
        let inside = self.random.between(1, last.into()) as u16;
        self.random.pick(&[
            inside,
            inside,
            inside,
            inside,
            inside,
            0,
            last + 1,
            256 + inside,
            u16::MAX,
        ])
    }

    /// Bytes and answer of one event, by both engines; the number that both returned.
    fn check_event(
        &mut self,
        bytes: &[u8],
        table: Option<Table>,
        event: Event,
    ) -> Result<u8, String> {
        let (expected, expected_bytes) = match &table {
            None => (NOT_SOUND.into(), bytes.to_vec()),
            Some(before) => {
                let mut after = before.clone();
                let outcome = apply(&mut after, event);
                if !outcome.returned.is_refusal() {
                    self.met.note(before, &after, event, outcome)?;
                    ChainOrder::new(before).feed(before, &after, event, &mut self.met)?;
                }
                (packed(outcome), encode(&after))
            }
        };
        let mut given_bytes = bytes.to_vec();
        let given = call(&mut given_bytes, event);
        self.returned[given as u8 as usize] += 1;
        if given != expected {
            return Err(format!(
                "answer {given:#x}, by the second engine {expected:#x}"
            ));
        }
        compare_bytes(&given_bytes, &expected_bytes)?;
        check_set(table, &given_bytes, given).map(|()| given as u8)
    }

    /// Events by one call beside the same events by calls of their own, on a table of any kind: answers, bytes, and what is left alone where there are
    /// more events than room for answers, or the other way round.
    pub fn check_run(&mut self, place: u64) {
        let before = any_bytes(&mut self.random, &self.fields, place);
        let (threads, objects) =
            decode(&before).map_or((3, 3), |table| (table.threads, table.objects));
        let events: Vec<[u8; raw::EVENT_SIZE]> = (0..self.random.between(0, 40))
            .map(|_| self.event_bytes(threads, objects))
            .collect();
        let room = match self.random.percent(50) {
            true => events.len(),
            false => self.random.between(0, 40) as usize,
        };
        let mut encoded = events.concat();
        let spare = self.random.between(0, raw::EVENT_SIZE as u64 - 1);
        encoded.extend((0..spare).map(|_| 1));
        let mut expected_bytes = before.clone();
        let mut expected: Vec<u64> = (0..room as u64).map(|untouched| !untouched).collect();
        let mut answers = expected.clone();
        let count = events.len().min(room);
        for (answer, event) in expected.iter_mut().zip(&events) {
            *answer = single_call(&mut expected_bytes, event);
        }
        let mut bytes = before;
        let given = raw::run(&mut bytes, &encoded, &mut answers);
        let result = match given == count && answers == expected {
            true => compare_bytes(&bytes, &expected_bytes),
            false => Err(format!(
                "{given} run with {answers:x?}, by single calls {count} with {expected:x?}"
            )),
        };
        self.note(|| format!("run {place} of {events:?}"), result);
    }

    /// An event of a run. At times its kind is none, and what no event reads is not 0.
    fn event_bytes(&mut self, threads: u8, objects: u8) -> [u8; raw::EVENT_SIZE] {
        let kind = self.random.pick(&[0, 0, 0, 1, 1, 1, 1, 1, 1, 2, 2, 3, 255]);
        let thread = self.near(threads).min(255) as u8;
        let operation = self.random.pick(&[0, 1, 1, 1, 2, 2, 3, 4, 5, 6, 6, 7, 255]);
        let object = self.near(objects).min(255) as u8;
        let [low, second, third, high] = self.limit().to_le_bytes();
        [kind, thread, operation, object, low, second, third, high]
    }

    /// A fresh table of sizes in range or not, with ranks in range or not, over bytes of any length.
    pub fn check_any_fresh(&mut self) {
        let threads = self
            .random
            .pick(&[0, 1, 2, 31, 32, 33, 255, 256, 257, 65_535]);
        let objects = self
            .random
            .pick(&[0, 1, 2, 63, 64, 65, 255, 256, 257, 65_535]);
        let reserved = self.random.percent(50);
        let before = random_bytes(&mut self.random);
        let given = self.given_bytes();
        self.check_fresh(before.clone(), threads, objects, reserved, None);
        self.check_fresh(before, threads, objects, reserved, Some(given));
    }

    /// What a fresh table is given: as many bytes as it reads, or fewer or more. Mostly all are ranks; else a few are not.
    fn given_bytes(&mut self) -> Vec<u8> {
        let any = self.random.between(0, 2 * MAX_THREADS as u64) as usize;
        let length = self.random.pick(&[MAX_THREADS, MAX_THREADS, any]);
        let above = self.random.pick(&[0, 0, 2, 20]);
        let mut given = Vec::new();
        for place in 0..length {
            let rank = self.random.between(0, MAX_RANK.into()) as u8;
            let is_above = place >= MAX_THREADS || self.random.percent(above);
            given.push(if is_above {
                self.random.pick(&[MAX_RANK + 1, 0x80, 0xff])
            } else {
                rank
            });
        }
        given
    }

    /// By the call that takes what is given, or where nothing is by the one that does not.
    fn check_fresh(
        &mut self,
        before: Vec<u8>,
        threads: u16,
        objects: u16,
        reserved: bool,
        given: Option<Vec<u8>>,
    ) {
        let mut ranks = [0; MAX_THREADS];
        for (rank, byte) in ranks.iter_mut().zip(given.iter().flatten()) {
            *rank = *byte;
        }
        let made = Table::fresh_given(threads, objects, reserved, &Given { ranks });
        let (expected, expected_bytes) = match made {
            _ if before.len() != TABLE_SIZE => (NOT_SOUND, before.clone()),
            Ok(table) => (0, encode(&table)),
            Err(returned) => (returned.number(), before.clone()),
        };
        let mut bytes = before;
        let (number, objects, words) = (threads.into(), objects.into(), reserved.into());
        let returned = match &given {
            None => raw::fresh(&mut bytes, number, objects, words),
            Some(given) => raw::fresh_given(&mut bytes, number, objects, words, given),
        };
        self.returned[returned as usize] += 1;
        let result = match returned == expected.into() {
            true => compare_bytes(&bytes, &expected_bytes),
            false => Err(format!(
                "answer {returned}, by the second engine {expected}"
            )),
        };
        let name = || format!("fresh table of {threads} and {objects}, given {given:?}");
        self.note(name, result);
    }

    /// A generated schedule with malformed lines strewn in, by both replays.
    pub fn check_replay(&mut self, program: &str, seed: u64) {
        let mut input = generate::schedule(seed);
        input.extend(b"E 01 1\nS\n\nQ 1 1\nS 1 1\nV 1 1\nV 1 1 65536\nC 1\n");
        let expected = replay::replay(&input);
        let result = program::run(program, &input).and_then(|output| {
            let lines = output.split(|byte| *byte == b'\n');
            self.returned[21] += lines.filter(|line| *line == b"21").count() as u64;
            compare_outputs(&output, &expected)
        });
        self.note(|| format!("malformed lines behind schedule {seed}"), result);
    }

    /// A whole run must have met each kind of set and of exits often enough.
    pub fn check_met(&mut self) {
        self.met.check(Rare::of_events(), &mut self.report);
    }

    /// Each number must have come up, which `check_cases` sees to.
    pub fn finish(mut self, replayed: bool) -> ExitCode {
        let numbers = [0, 1, 2].into_iter().chain(11..=23).chain([27]);
        for number in numbers.filter(|number| *number != 21 || replayed) {
            let times = self.returned[number];
            println!("returned {number}: {times}");
            let result = match times {
                0 => Err("never returned".to_string()),
                _ => Ok(()),
            };
            self.report.check(&format!("number {number}"), result);
        }
        self.met.print(Rare::of_events());
        self.report.finish()
    }
}

/// The answer as the library gives it.
pub fn packed(outcome: Outcome) -> u64 {
    let returned = u64::from(outcome.returned.number());
    let woken = u64::from(outcome.woken) << 8;
    let commits = u64::from(outcome.committed) << 16;
    let set = u64::from(outcome.unparked.bits()) << 32;
    returned | woken | commits | set
}

/// The second program's outcome for an answer of the library; nothing where it returned no number.
pub fn unpacked(answer: u64) -> Option<Outcome> {
    let unparked = ThreadSet::from_bits((answer >> 32) as u32);
    let outcome = Outcome {
        woken: (answer >> 8) as u8,
        committed: answer >> 16 & 1 == 1,
        ..Outcome::of(Returned::from_number(answer as u8)?).unparking(unparked)
    };
    (packed(outcome) == answer).then_some(outcome)
}

/// The library's set by the tables around its event alone. One that is not sound may have numbers past its records, and stays as it is.
fn check_set(before: Option<Table>, after: &[u8], answer: u64) -> Result<(), String> {
    let expected = match (before, decode(after)) {
        (Some(before), Some(after)) if answer as u8 != NOT_SOUND => unparked(&before, &after),
        _ => 0,
    };
    match (answer >> 32) as u32 {
        set if set == expected => Ok(()),
        set => Err(format!(
            "the set is {set:08x}, by the tables {expected:08x}"
        )),
    }
}

/// The event by its call. A timed wait without a limit is begun as any other operation is, which passes the limit 0.
pub fn call(bytes: &mut [u8], event: Event) -> u64 {
    match event {
        Event::Begin {
            thread,
            operation: TIMED_WAIT,
            object,
            limit,
        } if limit != 0 => raw::timed_wait(bytes, thread.into(), object.into(), limit),
        Event::Begin {
            thread,
            operation,
            object,
            ..
        } => raw::begin(bytes, thread.into(), operation.into(), object.into()),
        Event::Step { thread } => raw::step(bytes, thread.into()),
        Event::Tick => raw::tick(bytes),
    }
}

/// The event of a run by a call of its own; one of no kind is the begin of no operation.
fn single_call(bytes: &mut [u8], event: &[u8; raw::EVENT_SIZE]) -> u64 {
    let [kind, thread, operation, object, limit @ ..] = *event;
    let limit = u32::from_le_bytes(limit);
    let (thread, object) = (thread.into(), object.into());
    match (kind, operation) {
        (0, TIMED_WAIT) => raw::timed_wait(bytes, thread, object, limit),
        (0, _) => raw::begin(bytes, thread, operation.into(), object),
        (1, _) => raw::step(bytes, thread),
        (2, _) => raw::tick(bytes),
        _ => raw::begin(bytes, thread, 0, object),
    }
}

pub fn compare_bytes(given: &[u8], expected: &[u8]) -> Result<(), String> {
    let differs = given.iter().zip(expected).position(|(a, b)| a != b);
    match differs {
        None if given.len() == expected.len() => Ok(()),
        None => Err("the lengths differ".to_string()),
        Some(place) => Err(format!(
            "byte {place} is {}, by the second engine {}",
            given[place], expected[place]
        )),
    }
}
