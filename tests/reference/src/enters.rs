//! The report of request L4: in which way the enters of many schedules finished, for each object number and in all.

use crate::engine::{apply, Event};
use crate::outcome::{Outcome, Returned};
use crate::replay::{open_schedule, print_number_alone, read_ended_line, split_lines, Line};
use crate::table::{Operation, Phase, Table, MAX_OBJECTS};
use crate::word::LockWord;
use std::io::Write;

/// Lines that an input may have, headers not counted.
pub const MOST_LINES: usize = 60_000;
/// Shares are in parts of this whole.
pub const WHOLE: u32 = 10_000;
/// How many ways there are.
pub const WAYS: usize = 5;

/// The ways to finish an enter, in the order of a line's figures.
#[derive(Clone, Copy, Debug, PartialEq, Eq)]
pub enum Way {
    AnonymousReservation,
    ReservedStore,
    FreeWord,
    NestingInAFlatWord,
    ThroughTheMonitor,
}

/// The object and the way of an enter that an event has finished, by the table before it and its answer.
pub fn finished_enter(before: &Table, event: Event, outcome: Outcome) -> Option<(u8, Way)> {
    let Event::Step { thread } = event else {
        return None;
    };
    if outcome.returned != Returned::Finished {
        return None;
    }
    let record = before.thread(before.thread_number(thread)?);
    if record.operation != Some(Operation::Enter) {
        return None;
    }
    let word = LockWord::decode(before.object(record.object).word)?;
    let way = match (record.phase, word) {
        (Phase::Look, LockWord::Anonymous) => Way::AnonymousReservation,
        (Phase::Look, LockWord::Free) => Way::FreeWord,
        (Phase::Look, LockWord::Flat { .. }) => Way::NestingInAFlatWord,
        (Phase::Store, _) => Way::ReservedStore,
        (Phase::GoIn | Phase::Check | Phase::Try, _) => Way::ThroughTheMonitor,
        (phase, word) => unreachable!("an enter finished in {phase:?} on {word:?}"),
    };
    Some((record.object, way))
}

/// How many enters finished in each way.
type Figures = [u32; WAYS];

/// What is counted while the schedules of an input are run.
struct Count {
    /// Of the schedule that is under way; nothing before the first header and under one that is not good.
    table: Option<Table>,
    /// By object number; in place 0 all together.
    figures: [Figures; MAX_OBJECTS + 1],
    /// The largest number of objects in a good header.
    objects: u8,
}

impl Count {
    fn header(&mut self, line: &[u8]) {
        self.table = open_schedule(line).map(|(table, _)| table);
        if let Some(table) = &self.table {
            self.objects = self.objects.max(table.objects);
        }
    }

    /// Any other line. The last one may lack its newline, and is malformed then.
    fn line(&mut self, line: &[u8]) {
        let Some(table) = &mut self.table else {
            return;
        };
        let Some(Line::Event(event)) = read_ended_line(line) else {
            return;
        };
        let before = table.clone();
        let outcome = apply(table, event);
        if let Some((object, way)) = finished_enter(&before, event, outcome) {
            self.figures[usize::from(object)][way as usize] += 1;
            self.figures[0][way as usize] += 1;
        }
    }

    fn print(&self) -> Vec<u8> {
        let mut output = Vec::new();
        for number in (1..=usize::from(self.objects)).chain([0]) {
            print_line(number, &self.figures[number], &mut output);
        }
        output
    }
}

/// The whole report on a whole input.
pub fn report(input: &[u8]) -> Vec<u8> {
    let is_header = |line: &[u8]| line.starts_with(b"L");
    let others = split_lines(input).filter(|line| !is_header(line));
    if others.count() > MOST_LINES {
        let mut output = Vec::new();
        print_number_alone(Returned::TooManyLines, &mut output);
        return output;
    }
    let mut count = Count {
        table: None,
        figures: [Figures::default(); MAX_OBJECTS + 1],
        objects: 0,
    };
    for line in split_lines(input) {
        match is_header(line) {
            true => count.header(line),
            false => count.line(line),
        }
    }
    count.print()
}

/// A number, its figures, their shares of the line's sum, and what rounding the shares down has left over.
fn print_line(number: usize, figures: &Figures, output: &mut Vec<u8>) {
    let sum: u32 = figures.iter().sum();
    let share = |figure: &u32| (WHOLE * figure).checked_div(sum).unwrap_or(0);
    let remainder = |figure: &u32| (WHOLE * figure).checked_rem(sum).unwrap_or(0);
    let numbers = figures
        .iter()
        .copied()
        .chain(figures.iter().map(share))
        .chain(figures.iter().map(remainder));
    write!(output, "{number}").expect("a vector takes any text");
    for number in numbers {
        write!(output, " {number}").expect("a vector takes any text");
    }
    output.push(b'\n');
}
