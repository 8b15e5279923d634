//! The start of a schedule: its header makes a table, or there is nothing to run.

use crate::engine::Engine;
use crate::input::RawLine;
use crate::line::Header;
use crate::malformed::Cause;
use crate::ranks;
use crate::refused;
use crate::run::{Run, State};
use crate::schedule::Schedule;
use crate::words::count;
use duskclamp::{Refusal, Words};
use std::io::{self, BufRead};

/// The number that the replay prints for a malformed line.
pub const MALFORMED: u8 = 21;

/// A run that has not taken an event yet, and its header's line.
pub struct Started<E> {
    pub line: RawLine,
    pub header: Header,
    pub run: Run<E>,
}

/// Why there is no run.
pub struct NotStarted {
    /// Nothing where the input is empty.
    pub line: Option<RawLine>,
    /// The number that the replay prints.
    pub number: u8,
    pub sentence: String,
}

/// Reads the header and makes its table.
pub fn start<E: Engine>(
    schedule: &mut Schedule<impl BufRead>,
) -> io::Result<Result<Started<E>, NotStarted>> {
    let Some(read) = schedule.header()? else {
        return Ok(Err(no_header(None, &Cause::NoInput)));
    };
    let line = read.line;
    let header = match read.says {
        Ok(header) => header,
        Err(cause) => return Ok(Err(no_header(Some(line), &cause))),
    };
    Ok(match Run::new(header, schedule.ranks()) {
        Ok(run) => Ok(Started { line, header, run }),
        Err(_) => Err(NotStarted {
            line: Some(line),
            number: Refusal::SizeOutOfRange.number(),
            sentence: refused::sizes(header.threads, header.objects),
        }),
    })
}

fn no_header(line: Option<RawLine>, cause: &Cause) -> NotStarted {
    let place = match &line {
        Some(line) => format!("Line {}", line.number),
        None => "The input".to_string(),
    };
    NotStarted {
        sentence: format!(
            "{place} is no header, `L threads objects r` ({MALFORMED}): {cause}. Nothing is run."
        ),
        number: MALFORMED,
        line,
    }
}

/// What a fresh table of the header is, and who has which rank where somebody has one above 0.
pub fn fresh(header: Header, state: &State) -> String {
    let words = match header.words {
        Words::Free => "free",
        Words::Reserved => "reserved for nobody yet",
    };
    let threads = count(header.threads.into(), "thread");
    let objects = count(header.objects.into(), "object");
    let table = format!("A fresh table: {threads}, {objects}, every lock word {words}.");
    match ranks::sentence(state) {
        None => table,
        Some(ranks) => format!("{table} {ranks}"),
    }
}

/// The sentence for a line that is malformed.
pub fn malformed(cause: &Cause) -> String {
    format!("Malformed ({MALFORMED}): {cause}. The line is passed over.")
}
