//! The replay program, from bytes to bytes: a header line, then one event a line, each answered by one line.
//! Input may come in blocks of any size; no line is held longer than the longest well-formed one.

use crate::engine::{apply, Event};
use crate::outcome::{Outcome, Returned};
use crate::table::{Given, Operation, Table};
use std::io::{self, Read, Write};

/// The length of `V 65535 65535 65535`, the longest line of the form, without its newline.
const LONGEST_LINE: usize = 19;
const MAX_DIGITS: usize = 5;
/// How many bytes a program reads at once.
const BLOCK: usize = 1 << 16;
const WORD_DIGITS: usize = 6;
const SET_DIGITS: usize = 8;
const BITS_PER_HEX_DIGIT: u32 = 4;

/// A line of the form.
#[derive(Clone, Copy, Debug, PartialEq, Eq)]
pub enum Line {
    Header {
        threads: u16,
        objects: u16,
        reserved: bool,
    },
    Event(Event),
}

/// The fresh table that a schedule's header asks for, and the lines behind it; nothing where there is no good header.
pub fn open_schedule(input: &[u8]) -> Option<(Table, impl Iterator<Item = Option<Line>> + '_)> {
    open_given(input, &Given::default())
}

/// The same, where the table is given more than the header says.
pub fn open_given<'a>(
    input: &'a [u8],
    given: &Given,
) -> Option<(Table, impl Iterator<Item = Option<Line>> + use<'a>)> {
    let mut lines = split_lines(input).map(read_ended_line);
    match lines.next()?? {
        Line::Header {
            threads,
            objects,
            reserved,
        } => {
            let table = Table::fresh_given(threads, objects, reserved, given);
            Some((table.ok()?, lines))
        }
        Line::Event(_) => None,
    }
}

/// The lines of an input, each with its newline; the last may lack it.
pub fn split_lines(input: &[u8]) -> impl Iterator<Item = &[u8]> {
    input.split_inclusive(|byte| *byte == b'\n')
}

/// Reads a line with its newline; nothing where it is malformed, as it is without one.
pub fn read_ended_line(line: &[u8]) -> Option<Line> {
    line.strip_suffix(b"\n").and_then(read_line)
}

/// Reads a line without its newline; nothing where it is malformed.
pub fn read_line(line: &[u8]) -> Option<Line> {
    let (letter, rest) = line.split_first()?;
    if *letter == b'C' {
        return rest.is_empty().then_some(Line::Event(Event::Tick));
    }
    let (first, rest) = read_field(rest)?;
    if *letter == b'S' {
        let event = Event::Step { thread: first };
        return rest.is_empty().then_some(Line::Event(event));
    }
    let (second, rest) = read_field(rest)?;
    let (third, rest) = match letter {
        b'L' | b'V' => read_field(rest)?,
        _ => (0, rest),
    };
    if !rest.is_empty() {
        return None;
    }
    match letter {
        b'L' => (third <= 1).then_some(Line::Header {
            threads: first,
            objects: second,
            reserved: third == 1,
        }),
        _ => Some(Line::Event(Event::Begin {
            thread: first,
            operation: read_operation(*letter)?.number(),
            object: second,
            limit: third.into(),
        })),
    }
}

fn read_operation(letter: u8) -> Option<Operation> {
    match letter {
        b'E' => Some(Operation::Enter),
        b'X' => Some(Operation::Exit),
        b'W' => Some(Operation::Wait),
        b'N' => Some(Operation::Notify),
        b'A' => Some(Operation::NotifyAll),
        b'V' => Some(Operation::TimedWait),
        _ => None,
    }
}

/// Reads one space and a number, and gives the number with what is behind it.
fn read_field(text: &[u8]) -> Option<(u16, &[u8])> {
    let text = text.strip_prefix(b" ")?;
    let length = text.iter().take_while(|byte| byte.is_ascii_digit()).count();
    let (digits, rest) = text.split_at(length);
    let leading_zero = length > 1 && digits[0] == b'0';
    if length == 0 || length > MAX_DIGITS || leading_zero {
        return None;
    }
    let value = digits
        .iter()
        .fold(0, |value, digit| value * 10 + u32::from(digit - b'0'));
    Some((u16::try_from(value).ok()?, rest))
}

enum State {
    Header,
    Running(Box<Table>),
    Ended,
}

/// A run of the program.
pub struct Replay {
    state: State,
    /// The start of a line whose newline has not come yet.
    partial: Vec<u8>,
}

impl Default for Replay {
    fn default() -> Replay {
        Replay {
            state: State::Header,
            partial: Vec::with_capacity(LONGEST_LINE + 1),
        }
    }
}

impl Replay {
    /// Takes the next block of input and appends what it prints.
    pub fn feed(&mut self, block: &[u8], output: &mut Vec<u8>) {
        for piece in block.split_inclusive(|byte| *byte == b'\n') {
            let Some(line) = piece.strip_suffix(b"\n") else {
                self.keep(piece);
                continue;
            };
            if self.partial.is_empty() {
                self.line(line, output);
            } else {
                self.keep(line);
                let mut whole = std::mem::take(&mut self.partial);
                self.line(&whole, output);
                whole.clear();
                self.partial = whole;
            }
        }
    }

    /// Takes the end of the input: a line without its newline is malformed, and so is a missing header.
    pub fn finish(&mut self, output: &mut Vec<u8>) {
        let missing_header = matches!(self.state, State::Header);
        let running = matches!(self.state, State::Running(_));
        if missing_header || (running && !self.partial.is_empty()) {
            print_number_alone(Returned::MalformedLine, output);
        }
        self.state = State::Ended;
    }

    /// Whether nothing more will be read or printed.
    pub fn has_ended(&self) -> bool {
        matches!(self.state, State::Ended)
    }

    /// One byte past the longest well-formed line is enough to know that a line is malformed.
    fn keep(&mut self, piece: &[u8]) {
        let room = LONGEST_LINE + 1 - self.partial.len();
        self.partial
            .extend_from_slice(&piece[..piece.len().min(room)]);
    }

    fn line(&mut self, line: &[u8], output: &mut Vec<u8>) {
        match &mut self.state {
            State::Header => self.state = header(line, output),
            State::Running(table) => match read_line(line) {
                Some(Line::Event(event)) => event_line(table, event, output),
                _ => print_number_alone(Returned::MalformedLine, output),
            },
            State::Ended => {}
        }
    }
}

/// The whole output for a whole input.
pub fn replay(input: &[u8]) -> Vec<u8> {
    let mut run = Replay::default();
    let mut output = Vec::new();
    run.feed(input, &mut output);
    run.finish(&mut output);
    output
}

/// What a program does: all of the input, block by block.
pub fn replay_stream(mut input: impl Read, mut output: impl Write) -> io::Result<()> {
    let mut run = Replay::default();
    let mut block = vec![0; BLOCK];
    let mut printed = Vec::with_capacity(8 * BLOCK);
    while !run.has_ended() {
        match input.read(&mut block)? {
            0 => run.finish(&mut printed),
            length => run.feed(&block[..length], &mut printed),
        }
        output.write_all(&printed)?;
        printed.clear();
    }
    output.flush()
}

fn header(line: &[u8], output: &mut Vec<u8>) -> State {
    let table = match read_line(line) {
        Some(Line::Header {
            threads,
            objects,
            reserved,
        }) => Table::fresh(threads, objects, reserved),
        _ => Err(Returned::MalformedLine),
    };
    match table {
        Ok(table) => State::Running(Box::new(table)),
        Err(returned) => {
            print_number_alone(returned, output);
            State::Ended
        }
    }
}

fn event_line(table: &mut Table, event: Event, output: &mut Vec<u8>) {
    let place = place_of(table, event);
    let outcome = apply(table, event);
    print_answer(place, outcome, table, output);
}

/// The thread of an event and its object, by the table before: a finishing step clears the record.
pub fn place_of(before: &Table, event: Event) -> Option<(u16, u8)> {
    match event {
        Event::Begin { thread, object, .. } => Some((thread, object as u8)),
        Event::Step { thread } => Some((thread, object_of(before, thread))),
        Event::Tick => None,
    }
}

/// Prints the answer to an event at a place, by the table after it.
pub fn print_answer(
    place: Option<(u16, u8)>,
    outcome: Outcome,
    after: &Table,
    output: &mut Vec<u8>,
) {
    if outcome.returned.is_refusal() {
        return print_number_alone(outcome.returned, output);
    }
    print_decimal(outcome.returned.number(), output);
    if let Some((thread, object)) = place {
        let phase = after.thread(thread as u8).phase.number();
        print_place(phase, outcome.woken, after.object(object).word, output);
    }
    output.push(b' ');
    print_hexadecimal::<SET_DIGITS>(outcome.unparked.bits(), output);
    output.push(b'\n');
}

/// The object that a thread is at; 0 where it is at none, or there is no such thread.
fn object_of(table: &Table, thread: u16) -> u8 {
    table
        .thread_number(thread)
        .map_or(0, |thread| table.thread(thread).object)
}

/// What the answer to a thread's event has more than that to a tick.
fn print_place(phase: u8, woken: u8, word: u32, output: &mut Vec<u8>) {
    for number in [phase, woken] {
        output.push(b' ');
        print_decimal(number, output);
    }
    output.push(b' ');
    print_hexadecimal::<WORD_DIGITS>(word, output);
}

pub fn print_number_alone(returned: Returned, output: &mut Vec<u8>) {
    print_decimal(returned.number(), output);
    output.push(b'\n');
}

/// Prints the lowest digits of a number, the highest of them first.
fn print_hexadecimal<const DIGITS: usize>(number: u32, output: &mut Vec<u8>) {
    let digits: [u8; DIGITS] = std::array::from_fn(|place| {
        let behind = DIGITS - 1 - place;
        let digit = number >> (behind as u32 * BITS_PER_HEX_DIGIT) & 0xf;
        b"0123456789abcdef"[digit as usize]
    });
    output.extend_from_slice(&digits);
}

/// Prints a number below 100: returned numbers, phases and woken counts all are.
fn print_decimal(number: u8, output: &mut Vec<u8>) {
    if number >= 10 {
        output.push(b'0' + number / 10);
    }
    output.push(b'0' + number % 10);
}
