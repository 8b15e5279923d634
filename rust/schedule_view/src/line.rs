//! The lines of a schedule, read by their form. What is likely wrong with a line that has none is in `malformed`.

use duskclamp::{Operation, Words};

/// The longest line of the form, `V 65535 65535 65535`, without its newline.
pub const LONGEST_LINE: usize = 19;

/// The largest number that a line may have.
pub const LARGEST_NUMBER: u32 = 65_535;

const MAX_DIGITS: usize = 5;

/// The first line: a fresh table.
#[derive(Clone, Copy, Debug, PartialEq, Eq)]
pub struct Header {
    pub threads: u32,
    pub objects: u32,
    pub words: Words,
}

/// What any other line asks for. Its numbers are as written, and may be those of no thread and no object.
#[derive(Clone, Copy, Debug, PartialEq, Eq)]
pub enum Event {
    Begin {
        thread: u32,
        operation: Operation,
        object: u32,
        /// In ticks, of a timed wait; 0 for any other operation.
        limit: u32,
    },
    Step {
        thread: u32,
    },
    Tick,
}

impl Event {
    /// Whose event it is; nobody's if it is a tick.
    pub fn thread(self) -> Option<u32> {
        match self {
            Event::Begin { thread, .. } | Event::Step { thread } => Some(thread),
            Event::Tick => None,
        }
    }
}

#[derive(Clone, Copy, Debug, PartialEq, Eq)]
pub enum Line {
    Header(Header),
    Event(Event),
}

/// The letter of a line that begins the operation.
pub fn letter(operation: Operation) -> char {
    match operation {
        Operation::Enter => 'E',
        Operation::Exit => 'X',
        Operation::Wait => 'W',
        Operation::Notify => 'N',
        Operation::NotifyAll => 'A',
        Operation::TimedWait => 'V',
    }
}

/// How many numbers stand behind a letter; nothing where no line begins with it.
pub fn numbers_behind(first: u8) -> Option<usize> {
    match first {
        b'L' | b'V' => Some(3),
        b'S' => Some(1),
        b'C' => Some(0),
        _ => operation_of(first).map(|_| 2),
    }
}

/// Reads a line without its newline; nothing where it is malformed.
pub fn read(text: &[u8]) -> Option<Line> {
    let mut fields = text.split(|byte| *byte == b' ');
    let [first] = *fields.next()? else {
        return None;
    };
    let numbers: Vec<u32> = fields.map(read_number).collect::<Option<_>>()?;
    if numbers_behind(first)? != numbers.len() {
        return None;
    }
    let number = |place: usize| numbers.get(place).copied().unwrap_or(0);
    let event = match first {
        b'L' => return read_header(number(0), number(1), number(2)),
        b'S' => Event::Step { thread: number(0) },
        b'C' => Event::Tick,
        _ => Event::Begin {
            thread: number(0),
            operation: operation_of(first)?,
            object: number(1),
            limit: number(2),
        },
    };
    Some(Line::Event(event))
}

fn read_header(threads: u32, objects: u32, reserved: u32) -> Option<Line> {
    let words = match reserved {
        0 => Words::Free,
        1 => Words::Reserved,
        _ => return None,
    };
    Some(Line::Header(Header {
        threads,
        objects,
        words,
    }))
}

fn operation_of(first: u8) -> Option<Operation> {
    Operation::ALL
        .into_iter()
        .find(|operation| letter(*operation) == char::from(first))
}

/// A decimal number without a leading zero, at most the largest.
pub fn read_number(digits: &[u8]) -> Option<u32> {
    let all_digits = digits.iter().all(u8::is_ascii_digit);
    let leading_zero = digits.len() > 1 && digits[0] == b'0';
    if digits.is_empty() || digits.len() > MAX_DIGITS || !all_digits || leading_zero {
        return None;
    }
    let value = digits
        .iter()
        .fold(0, |value, digit| value * 10 + u32::from(digit - b'0'));
    (value <= LARGEST_NUMBER).then_some(value)
}
