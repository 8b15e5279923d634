//! A schedule as a picture: what `./timeline` reads, and which of its lines are drawn.

use crate::command::{self, Arguments, Status};
use crate::document::{self, Heading};
use crate::drawing::{Collector, Drawing, Mark, Row};
use crate::engine::Engine;
use crate::explain::Counts;
use crate::input::RawLine;
use crate::line::Event;
use crate::malformed::Cause;
use crate::page;
use crate::run::{printed, Run};
use crate::schedule::{Read, Schedule};
use crate::start::{fresh, malformed, start, MALFORMED};
use crate::words;
use std::io::{self, BufRead, Write};
use std::ops::RangeInclusive;

/// The most lines that a picture has. A page with more would take long to open.
pub const MOST_DRAWN: usize = 20_000;

/// So much of a line is shown.
const SHOWN: usize = 20;

/// Why there is no picture.
#[derive(Debug)]
pub enum Failure {
    Read(io::Error),
    /// The header is missing, malformed or has sizes that no table has: the sentence that says so.
    Header(String),
    TooMany,
    /// None of the schedule's lines is in the range.
    NoLines,
}

/// Runs the schedule and draws the lines whose numbers are in the range.
pub fn draw<E: Engine>(
    mut schedule: Schedule<impl BufRead>,
    lines: RangeInclusive<u64>,
) -> Result<Drawing, Failure> {
    let started = start::<E>(&mut schedule).map_err(Failure::Read)?;
    let started = started.map_err(|failed| Failure::Header(failed.sentence))?;
    let (header, mut run) = (started.header, started.run);
    let mut counts = Counts::default();
    let mut collector = None;
    let mut whole = lines.contains(&started.line.number);
    if whole {
        let begun = collector.insert(Collector::new(header, run.state()));
        let table = fresh(header, run.state());
        begun.other_line(row(&started.line, String::new(), table));
    }
    while let Some(read) = schedule.next().map_err(Failure::Read)? {
        if read.line.number > *lines.end() {
            whole = false;
            break;
        }
        if lines.contains(&read.line.number) {
            let begun = collector.get_or_insert_with(|| Collector::new(header, run.state()));
            if begun.rows() == MOST_DRAWN {
                return Err(Failure::TooMany);
            }
        }
        take_line(read, &mut run, &mut counts, collector.as_mut());
    }
    let collector = collector.ok_or(Failure::NoLines)?;
    Ok(collector.finish(&run, counts, whole))
}

/// Runs a line behind the header, counts it, and draws it where there is a drawing to add it to.
fn take_line<E: Engine>(
    read: Read<Event>,
    run: &mut Run<E>,
    counts: &mut Counts,
    drawn: Option<&mut Collector>,
) {
    match read.says {
        Ok(event) => {
            let happened = run.take(event);
            counts.note(&happened);
            if let Some(drawn) = drawn {
                let answer = printed(&happened, run.state());
                let words = words::describe(&happened, run.state());
                drawn.event(row(&read.line, answer, words), &happened, run.state());
            }
        }
        Err(cause) => {
            counts.malformed += 1;
            if let Some(drawn) = drawn {
                drawn.other_line(malformed_row(&read.line, &cause));
            }
        }
    }
}

/// All that a program does once its arguments are read: opens, draws and writes.
pub fn program<E: Engine>(
    arguments: &Arguments,
    title: String,
    warning: Option<String>,
) -> Result<Status, (String, Status)> {
    let schedule = command::open(arguments)?;
    let drawing = draw::<E>(schedule, arguments.lines.clone()).map_err(no_picture)?;
    let heading = Heading { title, warning };
    let written = command::output().and_then(|mut output| {
        match arguments.svg {
            true => document::write(&drawing, &heading, &mut output)?,
            false => page::write(&drawing, &heading, &mut output)?,
        }
        output.flush()
    });
    written.map_err(|error| command::write_failed(&error))?;
    Ok(Status::Done)
}

fn no_picture(failure: Failure) -> (String, Status) {
    let sentence = match failure {
        Failure::Read(error) => return command::read_failed(&error),
        Failure::Header(sentence) => sentence,
        Failure::NoLines => "no line of the schedule is in this range".to_string(),
        Failure::TooMany => format!(
            "there are more than {MOST_DRAWN} lines to draw: choose some by --lines FROM-TO"
        ),
    };
    (sentence, Status::EndedEarly)
}

fn row(line: &RawLine, answer: String, words: String) -> Row {
    Row {
        number: line.number,
        text: line.shown(SHOWN),
        answer,
        words,
        tick: false,
        actor: None,
        marks: Vec::new(),
        arrows: Vec::new(),
        overrun: false,
    }
}

fn malformed_row(line: &RawLine, cause: &Cause) -> Row {
    Row {
        marks: vec![(None, Mark::Refused(MALFORMED.into()))],
        ..row(line, MALFORMED.to_string(), malformed(cause))
    }
}
