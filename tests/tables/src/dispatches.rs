//! The library's dispatcher beside the second one: answers, traces, tables and records; and its runs beside the events that their traces tell of.

use crate::compare::{compare_bytes, packed, NOT_SOUND};
use crate::damage::{fields, Field};
use crate::drawn::Drawn;
use crate::layout::{encode, encode_event};
use duskclamp::{raw, ScriptCursor};
use reference::dispatch::{dispatch, Entry, Input, Run, Script};
use reference::dispatch_check::{check_run, Origin};
use reference::engine::Event;
use reference::generate::write_event_line;
use reference::happened::Happened;
use reference::outcome::Returned;
use reference::program;
use reference::random::Random;
use reference::replay::replay;
use reference::report::{compare_outputs, Report};
use reference::script_inputs::fresh_input;
use reference::tally::Tally;
use std::process::ExitCode;

const BEGAN: u64 = 1 << 17;
const THREAD_SHIFT: u32 = 24;
const THREAD: u64 = 0xff << THREAD_SHIFT;
/// What a dispatcher returns.
const NUMBERS: [usize; 4] = [0, 11, 25, 26];
/// How much room a trace has, by turns.
const ROOMS: [&str; 4] = [
    "no room",
    "too little room",
    "just enough room",
    "more room",
];

/// What a call gives back, or must.
struct Called {
    answer: u64,
    bytes: Vec<u8>,
    trace: Vec<u64>,
    cursors: Vec<ScriptCursor>,
}

impl Called {
    /// Before the call, with so much room for a trace.
    fn before(drawn: &Drawn, room: usize) -> Called {
        let record = |script: &Script| ScriptCursor {
            start: script.start,
            length: script.length,
            cursor: script.cursor,
        };
        Called {
            answer: 0,
            bytes: drawn.bytes.clone(),
            trace: (0..room as u64).map(|untouched| !untouched).collect(),
            cursors: drawn.input.cursors.iter().map(record).collect(),
        }
    }

    fn by_library(drawn: &Drawn, room: usize) -> Called {
        let Input {
            quantum, scripts, ..
        } = &drawn.input;
        let mut called = Called::before(drawn, room);
        called.answer = raw::dispatch(
            &mut called.bytes,
            *quantum,
            scripts,
            &mut called.cursors,
            &mut called.trace,
        );
        called
    }

    /// By the second dispatcher's run, where the bytes are a table.
    fn by_run(drawn: &Drawn, run: Option<&Run>, room: usize) -> Called {
        let mut called = Called::before(drawn, room);
        let Some(run) = run else {
            called.answer = NOT_SOUND.into();
            return called;
        };
        called.answer = (run.trace.len() as u64) << 8 | u64::from(run.returned.number());
        called.bytes = encode(&run.table);
        for (given, entry) in called.trace.iter_mut().zip(&run.trace) {
            *given = packed_entry(entry);
        }
        for (given, script) in called.cursors.iter_mut().zip(&run.cursors) {
            given.cursor = script.cursor;
        }
        called
    }

    fn compare(&self, expected: &Called) -> Result<(), String> {
        if self.answer != expected.answer {
            return Err(format!(
                "answer {:#x}, by the second dispatcher {:#x}",
                self.answer, expected.answer
            ));
        }
        let mut entries = self.trace.iter().zip(&expected.trace);
        if let Some(place) = entries.position(|(given, wanted)| given != wanted) {
            let (given, wanted) = (self.trace[place], expected.trace[place]);
            return Err(format!(
                "entry {place} is {given:#x}, by the second dispatcher {wanted:#x}"
            ));
        }
        if self.cursors != expected.cursors {
            return Err(format!(
                "the records are {:?}, by the second dispatcher {:?}",
                self.cursors, expected.cursors
            ));
        }
        compare_bytes(&self.bytes, &expected.bytes)
    }
}

/// An entry as the library writes it.
fn packed_entry(entry: &Entry) -> u64 {
    let began = if entry.began { BEGAN } else { 0 };
    packed(entry.outcome) | began | u64::from(entry.thread) << THREAD_SHIFT
}

/// The events that a trace tells of, with the answer of each: before a step whose thread began, the begin of the next operation of its script.
fn events_of(input: &Input, trace: &[u64]) -> Result<Vec<(Event, u64)>, String> {
    let mut cursors = input.cursors.clone();
    let mut events = Vec::new();
    for entry in trace {
        let thread = (entry >> THREAD_SHIFT) as u8;
        let script = cursors.get_mut(usize::from(thread).wrapping_sub(1));
        if entry & BEGAN != 0 {
            let place = script.and_then(Script::take_next);
            let place = place.ok_or(format!("nothing to begin before {entry:#x}"))?;
            events.push((input.begin_of(thread, place), 0));
        }
        events.push((Event::step(thread), entry & !(BEGAN | THREAD)));
    }
    Ok(events)
}

pub struct Dispatches {
    fields: Vec<Field>,
    report: Report,
    happened: Tally<Happened>,
    /// How often each number was returned, and how often a trace of some steps had each room.
    returned: [u64; 256],
    rooms: [u64; ROOMS.len()],
}

impl Default for Dispatches {
    fn default() -> Dispatches {
        Dispatches {
            fields: fields(),
            report: Report::default(),
            happened: Tally::default(),
            returned: [0; 256],
            rooms: [0; ROOMS.len()],
        }
    }
}

impl Dispatches {
    /// The input of a seed.
    pub fn check(&mut self, seed: u64) {
        let mut random = Random::new(seed);
        let drawn = Drawn::any(&mut random, &self.fields, seed);
        let result = self.compare(&mut random, &drawn);
        self.report.check(&format!("input of seed {seed}"), result);
    }

    /// The library's call and run of an input beside the second dispatcher's, which is held to the request.
    pub fn compare(&mut self, random: &mut Random, drawn: &Drawn) -> Result<(), String> {
        let input = &drawn.input;
        let run = drawn.is_table.then(|| dispatch(input));
        let accepted = run.as_ref().filter(|run| run.returned == Returned::GoneOn);
        if let Some(run) = accepted {
            let happened = check_run(input, run, drawn.origin);
            let happened = happened.map_err(|wrong| format!("the second dispatcher: {wrong}"))?;
            self.happened.add_all(&happened);
        }
        let steps = accepted.map_or(0, |run| run.trace.len());
        let room = self.draw_room(random, steps);
        let called = Called::by_library(drawn, room);
        self.returned[called.answer as u8 as usize] += 1;
        called.compare(&Called::by_run(drawn, run.as_ref(), room))?;
        match steps <= room {
            true => check_events(drawn, &called, steps),
            false => Ok(()),
        }
    }

    fn draw_room(&mut self, random: &mut Random, steps: usize) -> usize {
        let kind = random.between(0, ROOMS.len() as u64 - 1) as usize;
        self.rooms[kind] += u64::from(steps > 0);
        match kind {
            0 => 0,
            1 => random.between(0, (steps as u64).saturating_sub(1)) as usize,
            2 => steps,
            _ => steps + random.between(1, 5) as usize,
        }
    }

    /// The events of a run from a fresh table, by the trace, as a schedule through both replays.
    pub fn check_replay(&mut self, program: &str, seed: u64) {
        let result = replay_trace(program, Drawn::of(fresh_input(seed), Origin::Schedule));
        let name = format!("replay of the trace of seed {seed}");
        self.report.check(&name, result);
    }

    /// A whole run has met all that may happen often enough, each number, and each room.
    pub fn finish(mut self, is_whole: bool) -> ExitCode {
        self.happened.print(&Happened::ALL);
        if is_whole {
            self.happened.check(&Happened::ALL, &mut self.report);
        }
        let returned = NUMBERS.map(|number| (format!("returned {number}"), self.returned[number]));
        let rooms = ROOMS.iter().zip(self.rooms);
        let rooms = rooms.map(|(room, times)| (format!("traces with {room}"), times));
        for (name, times) in returned.into_iter().chain(rooms) {
            println!("{name}: {times}");
            let result = match times {
                0 if is_whole => Err("never".to_string()),
                _ => Ok(()),
            };
            self.report.check(&name, result);
        }
        self.report.finish()
    }
}

/// The events of a run that the library made, by one call of duskclamp_run on the table before: the same answers, and the same table after.
fn check_events(drawn: &Drawn, called: &Called, steps: usize) -> Result<(), String> {
    if called.answer as u8 != 0 {
        return Ok(());
    }
    let events = events_of(&drawn.input, &called.trace[..steps])?;
    let encoded: Vec<u8> = events
        .iter()
        .flat_map(|(event, _)| encode_event(*event))
        .collect();
    let mut bytes = drawn.bytes.clone();
    let mut answers = vec![0; events.len()];
    raw::run(&mut bytes, &encoded, &mut answers);
    for (given, (event, expected)) in answers.iter().zip(&events) {
        if given != expected {
            return Err(format!(
                "{event:?} is answered {given:#x} by itself, {expected:#x} by the trace"
            ));
        }
    }
    compare_bytes(&called.bytes, &bytes)
}

fn replay_trace(program: &str, drawn: Drawn) -> Result<(), String> {
    let (table, steps) = (&drawn.input.table, dispatch(&drawn.input).trace.len());
    let called = Called::by_library(&drawn, steps);
    let events = events_of(&drawn.input, &called.trace)?;
    let reserved = u8::from(table.object(1).word != 0);
    let mut text = format!("L {} {} {reserved}\n", table.threads, table.objects).into_bytes();
    for (event, _) in &events {
        write_event_line(*event, &mut text);
    }
    let output = program::run(program, &text)?;
    compare_outputs(&output, &replay(&text))?;
    let lines = output.split(|byte| *byte == b'\n');
    for (line, (event, answer)) in lines.zip(&events) {
        let line = String::from_utf8_lossy(line);
        let fields: Vec<&str> = line.split(' ').collect();
        let (returned, woken, set) = (*answer as u8, (answer >> 8) as u8, answer >> 32);
        let agrees = match fields[..] {
            [number] => number == returned.to_string(),
            [number, _, times, _, unparked] => {
                let given = [number.to_string(), times.to_string(), unparked.to_string()];
                given
                    == [
                        returned.to_string(),
                        woken.to_string(),
                        format!("{set:08x}"),
                    ]
            }
            _ => false,
        };
        if !agrees {
            return Err(format!("{event:?}: {line}, by the trace {answer:#x}"));
        }
    }
    Ok(())
}
