//! What the tests share: schedules in a short form, runs on the proved library, and what `explain` writes.
#![allow(dead_code)] // each test file uses some of it

use duskclamp::Table;
use schedule_view::engine::Engine;
use schedule_view::explain::{explain, Ended};
use schedule_view::line::{self, Line};
use schedule_view::ranks::Ranks;
use schedule_view::run::{Happened, ObjectSeen, Run, State, ThreadSeen};
use schedule_view::schedule::Schedule;
use std::fs;
use std::path::{Path, PathBuf};

/// A file of the repository.
pub fn repository(path: &str) -> PathBuf {
    Path::new(env!("CARGO_MANIFEST_DIR"))
        .join("../..")
        .join(path)
}

pub fn contents(path: &str) -> Vec<u8> {
    fs::read(repository(path)).expect("a file of the repository")
}

/// The files of a folder of the repository whose names end so.
pub fn files(folder: &str, extension: &str) -> Vec<PathBuf> {
    let entries = fs::read_dir(repository(folder)).expect("a folder of the repository");
    let mut paths: Vec<PathBuf> = entries
        .map(|entry| entry.expect("an entry").path())
        .filter(|path| path.extension().is_some_and(|end| end == extension))
        .collect();
    paths.sort();
    paths
}

/// A schedule from its short form, in parts: lines are parted by commas, and `E 1 1 + S 1 x63` stands for 63 times these two lines.
pub fn schedule(parts: &[&str]) -> String {
    let whole = parts.join(", ");
    whole.split(", ").map(repeated).collect()
}

fn repeated(part: &str) -> String {
    let (lines, times) = match part.rsplit_once(" x") {
        Some((lines, times)) => (lines, times.parse().expect("a number of times")),
        None => (part, 1),
    };
    format!("{}\n", lines.replace(" + ", "\n")).repeat(times)
}

/// Runs a schedule whose lines all have the form. With what happened at its last line, if that is no header.
pub fn run(text: &str) -> (Run<Table>, Option<Happened>) {
    run_ranked(text, "0")
}

/// The same with ranks.
pub fn run_ranked(text: &str, ranks: &str) -> (Run<Table>, Option<Happened>) {
    let mut lines = text
        .lines()
        .map(|line| line::read(line.as_bytes()).expect("a line of the form"));
    let Some(Line::Header(header)) = lines.next() else {
        panic!("no header: {text}");
    };
    let ranks = Ranks::read(ranks).expect("ranks");
    let mut run = Run::new(header, &ranks).expect("sizes in range");
    let happened = lines.map(|line| match line {
        Line::Event(event) => run.take(event),
        Line::Header(_) => panic!("a second header: {text}"),
    });
    let last = happened.last();
    (run, last)
}

/// What the engine says when it is asked for everything.
pub fn asked(run: &Run<Table>) -> State {
    let (engine, state) = (run.engine(), run.state());
    let thread = |number: u32| {
        let record = Engine::thread(engine, number);
        ThreadSeen {
            number,
            operation: record.operation,
            object: record.object,
            phase: record.phase,
            ticks: record.ticks,
            rank: record.rank,
        }
    };
    let object = |number: u32| ObjectSeen {
        record: Engine::object(engine, number),
        word: Engine::lock_word(engine, number),
    };
    State {
        threads: (1..=state.threads.len() as u32).map(thread).collect(),
        objects: (1..=state.objects.len() as u32).map(object).collect(),
    }
}

/// What `explain` writes, and how it ends.
pub fn explained(input: &[u8]) -> (String, Ended) {
    explanation(Schedule::whole(input))
}

/// The same with ranks.
pub fn explained_ranked(input: &[u8], ranks: &str) -> String {
    let ranks = Ranks::read(ranks).expect("ranks");
    explanation(Schedule::whole(input).ranked(ranks)).0
}

fn explanation(schedule: Schedule<&[u8]>) -> (String, Ended) {
    let mut output = Vec::new();
    let ended = explain::<Table>(schedule, &mut output).expect("memory to write to");
    (String::from_utf8(output).expect("text"), ended)
}

/// What `explain` wrote of the line with this number: the line with its answer, and the words under it.
pub fn paragraph(output: &str, number: u64) -> Option<(String, String)> {
    let first = format!("{number:>5}  ");
    let mut lines = output.lines().skip_while(|line| !line.starts_with(&first));
    let line = lines.next()?.strip_prefix(&first)?;
    let words = lines.map_while(|line| line.strip_prefix("       "));
    let words: Vec<&str> = words.collect();
    Some((line.to_string(), words.join(" ")))
}
