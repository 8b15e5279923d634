//! A schedule as it stands in an input: its header, and then event after event. An input may hold several schedules, as ./report takes them.

use crate::input::{Lines, RawLine};
use crate::line::{self, Event, Header, Line};
use crate::malformed::{likely_cause, Cause};
use crate::ranks::Ranks;
use std::io::{self, BufRead};

/// A line that was read, and what it says or what is likely wrong with it.
pub struct Read<T> {
    pub line: RawLine,
    pub says: Result<T, Cause>,
}

pub struct Schedule<R> {
    lines: Lines<R>,
    /// A line that is already taken from the input: the header of a schedule that was looked for.
    ahead: Option<RawLine>,
    /// Whether the next line that begins with L ends the schedule, and is not a malformed line of it.
    one_of_many: bool,
    ranks: Ranks,
}

impl<R: BufRead> Schedule<R> {
    /// The input as one schedule, as ./replay takes it.
    pub fn whole(input: R) -> Schedule<R> {
        Schedule {
            lines: Lines::new(input),
            ahead: None,
            one_of_many: false,
            ranks: Ranks::default(),
        }
    }

    /// One of several schedules, the first of which is number 1: each line that begins with L is a header. Else how many there are.
    pub fn nth(input: R, number: u64) -> io::Result<Result<Schedule<R>, u64>> {
        let mut lines = Lines::new(input);
        let mut found = 0;
        while let Some(line) = lines.next()? {
            found += u64::from(begins_schedule(&line));
            if found == number {
                return Ok(Ok(Schedule {
                    lines,
                    ahead: Some(line),
                    one_of_many: true,
                    ranks: Ranks::default(),
                }));
            }
        }
        Ok(Err(found))
    }

    /// The same schedule, with ranks for its threads.
    pub fn ranked(self, ranks: Ranks) -> Schedule<R> {
        Schedule { ranks, ..self }
    }

    pub fn ranks(&self) -> &Ranks {
        &self.ranks
    }

    /// The first line; nothing where the input is empty.
    pub fn header(&mut self) -> io::Result<Option<Read<Header>>> {
        let line = match self.ahead.take() {
            Some(line) => Some(line),
            None => self.lines.next()?,
        };
        Ok(line.map(|line| Read {
            says: match read(&line) {
                Some(Line::Header(header)) => Ok(header),
                _ => Err(likely_cause(&line)),
            },
            line,
        }))
    }

    /// The next line behind the header; nothing at the end.
    pub fn next(&mut self) -> io::Result<Option<Read<Event>>> {
        let line = self.lines.next()?;
        let own = |line: &RawLine| !(self.one_of_many && begins_schedule(line));
        Ok(line.filter(own).map(|line| Read {
            says: match read(&line) {
                Some(Line::Event(event)) => Ok(event),
                _ => Err(likely_cause(&line)),
            },
            line,
        }))
    }
}

fn begins_schedule(line: &RawLine) -> bool {
    line.bytes.first() == Some(&b'L')
}

fn read(line: &RawLine) -> Option<Line> {
    let whole = line.ended && line.is_whole();
    line::read(&line.bytes).filter(|_| whole)
}
