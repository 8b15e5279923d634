//! A schedule in words, line by line: what `./explain` prints.

use crate::ending;
use crate::engine::Engine;
use crate::input::RawLine;
use crate::run::{printed, Happened};
use crate::schedule::Schedule;
use crate::start::{fresh, malformed, start, MALFORMED};
use crate::words::{count, describe};
use std::io::{self, BufRead, Write};

/// No line of words is longer.
const WIDTH: usize = 110;
const INDENT: usize = 7;
/// So much of a line is shown.
const SHOWN: usize = 40;

/// How a run ended.
#[derive(Clone, Copy, Debug, PartialEq, Eq)]
pub enum Ended {
    AllRead,
    /// The header is missing, malformed or has sizes that no table has.
    BadHeader,
}

/// What went wrong, and with which side.
#[derive(Debug)]
pub enum Failure {
    Read(io::Error),
    Write(io::Error),
}

/// How many lines there were behind the header, by what became of them.
#[derive(Clone, Copy, Debug, Default, PartialEq, Eq)]
pub struct Counts {
    pub accepted: u64,
    pub refused: u64,
    pub malformed: u64,
}

impl Counts {
    /// One event more.
    pub fn note(&mut self, happened: &Happened) {
        match happened.refusal() {
            Some(_) => self.refused += 1,
            None => self.accepted += 1,
        }
    }

    pub fn words(self) -> String {
        let Counts {
            accepted,
            refused,
            malformed,
        } = self;
        let events = count(accepted + refused + malformed, "event line");
        format!("{events}: {accepted} accepted, {refused} refused, {malformed} malformed")
    }
}

/// Explains a schedule.
pub fn explain<E: Engine>(
    mut schedule: Schedule<impl BufRead>,
    output: &mut impl Write,
) -> Result<Ended, Failure> {
    let mut say = |text: String| output.write_all(text.as_bytes()).map_err(Failure::Write);
    let started = match start::<E>(&mut schedule).map_err(Failure::Read)? {
        Ok(started) => started,
        Err(failed) => {
            say(match &failed.line {
                Some(line) => paragraph(line, &failed.number.to_string(), &failed.sentence),
                None => wrapped(&failed.sentence, 0),
            })?;
            return Ok(Ended::BadHeader);
        }
    };
    let mut run = started.run;
    let table = fresh(started.header, run.state());
    say(paragraph(&started.line, "", &table))?;
    let mut counts = Counts::default();
    while let Some(read) = schedule.next().map_err(Failure::Read)? {
        say(match read.says {
            Err(cause) => {
                counts.malformed += 1;
                paragraph(&read.line, &MALFORMED.to_string(), &malformed(&cause))
            }
            Ok(event) => {
                let happened = run.take(event);
                counts.note(&happened);
                let answer = printed(&happened, run.state());
                paragraph(&read.line, &answer, &describe(&happened, run.state()))
            }
        })?;
    }
    say(format!("\nAt the end, after {}:\n", counts.words()))?;
    let ending = ending::lines(&run);
    say(ending.iter().map(|line| wrapped(line, 2)).collect())?;
    Ok(Ended::AllRead)
}

/// A line of the schedule with what the replay prints for it, and the words under it.
fn paragraph(line: &RawLine, printed: &str, words: &str) -> String {
    let text = line.shown(SHOWN);
    let printed = match printed {
        "" => String::new(),
        _ => format!("  ->  {printed}"),
    };
    let first = format!("{:>5}  {text}{printed}\n", line.number);
    first + &wrapped(words, INDENT)
}

/// Words in lines of at most the width, all indented.
fn wrapped(words: &str, indent: usize) -> String {
    let mut lines = String::new();
    let mut length = 0;
    for word in words.split(' ') {
        let needed = word.chars().count() + 1;
        if length == 0 || length + needed > WIDTH {
            if length > 0 {
                lines.push('\n');
            }
            lines.push_str(&" ".repeat(indent));
            lines.push_str(word);
            length = indent + needed - 1;
        } else {
            lines.push(' ');
            lines.push_str(word);
            length += needed;
        }
    }
    lines + "\n"
}
