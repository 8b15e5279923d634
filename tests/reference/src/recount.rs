//! What the events of a report's input say by themselves: how many enters finished, and what kinds of lines there are.
//! It takes the input apart in its own way, and knows an operation by its begin, so that it can be held against the report.

use crate::engine::{apply, Event};
use crate::enters::MOST_LINES;
use crate::outcome::{Outcome, Returned};
use crate::replay::{open_schedule, read_ended_line, split_lines, Line};
use crate::seen::Seen;
use crate::table::{Operation, Phase, Table, MAX_OBJECTS, MAX_THREADS};
use crate::tally::Tally;
use crate::word::LockWord;

/// Longer than any line of the form by far.
const LONG: usize = 1_000;

pub struct Recount {
    /// Lines that do not begin with `L`.
    pub lines: usize,
    /// The largest number of objects in a good header.
    pub objects: u8,
    /// Enters finished, by object number. None are counted where there are too many lines.
    pub enters: [u64; MAX_OBJECTS + 1],
    pub seen: Tally<Seen>,
}

/// An input with the place of each header.
struct Parted<'a> {
    before: &'a [u8],
    /// Each header with the lines below it.
    parts: Vec<&'a [u8]>,
}

impl Parted<'_> {
    fn new(input: &[u8]) -> Parted<'_> {
        let starts_line = |place: usize| place == 0 || input[place - 1] == b'\n';
        let is_header = |place: &usize| input[*place] == b'L' && starts_line(*place);
        let starts: Vec<usize> = (0..input.len()).filter(is_header).collect();
        let ends = starts.iter().copied().skip(1).chain([input.len()]);
        Parted {
            before: &input[..starts.first().copied().unwrap_or(input.len())],
            parts: starts
                .iter()
                .zip(ends)
                .map(|(start, end)| &input[*start..end])
                .collect(),
        }
    }

    /// The lines below the last header, with it; all lines where there is none.
    fn last(&self) -> &[u8] {
        self.parts.last().copied().unwrap_or(self.before)
    }
}

fn has_events(text: &[u8]) -> bool {
    split_lines(text).any(|line| matches!(read_ended_line(line), Some(Line::Event(_))))
}

fn is_good(part: &[u8]) -> bool {
    open_schedule(part).is_some()
}

pub fn recount(input: &[u8]) -> Recount {
    let parted = Parted::new(input);
    let mut recount = Recount {
        lines: split_lines(input).count() - parted.parts.len(),
        objects: 0,
        enters: [0; MAX_OBJECTS + 1],
        seen: Tally::default(),
    };
    recount.note_size(input, &parted);
    if recount.lines <= MOST_LINES {
        recount.note_lines(input, &parted);
        for part in &parted.parts {
            recount.run(part);
        }
    }
    recount
}

impl Recount {
    /// Notes a kind of input, once.
    fn note(&mut self, kind: Seen, is_so: bool) {
        if is_so && self.seen.number(kind) == 0 {
            self.seen.add(kind, 1);
        }
    }

    fn note_size(&mut self, input: &[u8], parted: &Parted) {
        let some_good = parted.parts.iter().any(|part| is_good(part));
        self.note(Seen::Full, self.lines == MOST_LINES && some_good);
        if self.lines != MOST_LINES + 1 || !some_good {
            return;
        }
        let last = parted.last();
        let unended = !input.ends_with(b"\n");
        let in_a_schedule = is_good(last);
        let behind = !in_a_schedule && split_lines(last).count() > 1;
        self.note(Seen::TooManyUnended, unended);
        self.note(Seen::TooManyInASchedule, in_a_schedule && !unended);
        self.note(Seen::TooManyBehind, behind && !unended);
    }

    fn note_lines(&mut self, input: &[u8], parted: &Parted) {
        let parts = &parted.parts;
        let is_long = |line: &&[u8]| line.len() > LONG;
        let long: Vec<&[u8]> = split_lines(input).filter(is_long).collect();
        let long_headers = long.iter().filter(|line| line.starts_with(b"L")).count();
        self.note(Seen::LongHeader, long_headers > 0);
        self.note(Seen::LongLine, long.len() > long_headers);
        self.note(Seen::BeforeTheFirst, has_events(parted.before));
        self.note(Seen::NoGoodHeader, !parts.iter().any(|part| is_good(part)));
        if let Some(last) = split_lines(input).last() {
            let is_header = last.starts_with(b"L");
            let unended = !last.ends_with(b"\n");
            self.note(Seen::UnendedHeader, unended && is_header);
            self.note(Seen::UnendedLine, unended && !is_header);
        }
        for pair in parts.windows(2) {
            let is_below = is_good(pair[0]) && !is_good(pair[1]) && has_events(pair[1]);
            let header = split_lines(pair[1]).next();
            let is_of_form = header.and_then(read_ended_line).is_some();
            self.note(Seen::BelowBadForm, is_below && !is_of_form);
            self.note(Seen::BelowBadSizes, is_below && is_of_form);
        }
    }

    /// Runs the schedule below a header, if that is good.
    fn run(&mut self, part: &[u8]) {
        let Some((mut table, lines)) = open_schedule(part) else {
            return;
        };
        let others = self.objects != 0 && self.objects != table.objects;
        self.note(Seen::SeveralSizes, others);
        self.note(Seen::LastObject, usize::from(table.objects) == MAX_OBJECTS);
        self.objects = self.objects.max(table.objects);
        let mut begun = [(0, 0); MAX_THREADS];
        let mut timed = false;
        for line in lines {
            let Some(Line::Event(event)) = line else {
                self.note(Seen::Malformed, true);
                continue;
            };
            let finishing = kind_of_finish(&table, event);
            let outcome = apply(&mut table, event);
            self.note(Seen::Refused, outcome.returned.is_refusal());
            self.note(Seen::Timed, timed && event == Event::Tick);
            timed |= begins(event, outcome) == Some(Operation::TimedWait.number());
            if let (true, Some(kind)) = (self.count(event, outcome, &mut begun), finishing) {
                self.seen.add(kind, 1);
            }
        }
    }

    /// Counts a step that returned 1 if its thread's last begin was an enter; of the table it sees nothing.
    fn count(&mut self, event: Event, outcome: Outcome, begun: &mut [(u8, u16)]) -> bool {
        match (event, outcome.returned) {
            (
                Event::Begin {
                    thread,
                    operation,
                    object,
                    ..
                },
                Returned::GoneOn,
            ) => {
                begun[usize::from(thread) - 1] = (operation, object);
                false
            }
            (Event::Step { thread }, Returned::Finished) => {
                let (operation, object) = begun[usize::from(thread) - 1];
                let is_enter = operation == Operation::Enter.number();
                self.enters[usize::from(object)] += u64::from(is_enter);
                is_enter
            }
            _ => false,
        }
    }
}

/// The operation that an event has begun.
fn begins(event: Event, outcome: Outcome) -> Option<u8> {
    match (event, outcome.returned) {
        (Event::Begin { operation, .. }, Returned::GoneOn) => Some(operation),
        _ => None,
    }
}

/// Where a step through the monitor would finish an enter, by the table before it.
fn kind_of_finish(table: &Table, event: Event) -> Option<Seen> {
    let Event::Step { thread } = event else {
        return None;
    };
    let record = table.thread(table.thread_number(thread)?);
    match record.phase {
        Phase::GoIn => Some(Seen::InGoIn),
        Phase::Check => match LockWord::decode(table.object(record.object).word)? {
            LockWord::Fat { .. } => Some(Seen::InCheckOnFat),
            _ => Some(Seen::InCheckOnFlat),
        },
        Phase::Try => Some(Seen::InTry),
        _ => None,
    }
}
