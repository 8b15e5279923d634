//! What is likely wrong with a line that has not the form, in words. A line may have several faults; the one that explains most comes first.

use crate::input::RawLine;
use crate::line::{self, Line, LARGEST_NUMBER, LONGEST_LINE};
use std::fmt;

/// The likely cause.
#[derive(Clone, Debug, PartialEq, Eq)]
pub enum Cause {
    NoInput,
    ByteOrderMark,
    WideCharacters,
    TooLong(u64),
    CarriageReturn,
    Tab,
    StrangeByte(u8),
    Empty,
    LeadingSpace,
    TrailingSpace,
    TwoSpaces,
    LowerCase(char),
    UnknownStart(String),
    LeadingZero(String),
    TooLarge(String),
    NoNumber(String),
    Fields {
        first: char,
        expected: usize,
        found: usize,
    },
    KindOfWord(String),
    NoNewline,
    NoHeader,
    SecondHeader,
}

impl Cause {
    /// The words, where they are the same for every line.
    fn fixed(&self) -> Option<&'static str> {
        Some(match self {
            Cause::NoInput => "there is no input",
            Cause::ByteOrderMark => "it begins with a byte order mark: save the file as UTF-8 without one",
            Cause::WideCharacters => "its characters have two bytes each, or one of them is zero: save the file as UTF-8 without a byte order mark",
            Cause::CarriageReturn => "there is a carriage return in it: lines end with a newline alone, not as on Windows",
            Cause::Tab => "there is a tab in it: single spaces stand between fields",
            Cause::Empty => "it is empty",
            Cause::LeadingSpace => "it begins with a space",
            Cause::TrailingSpace => "it ends with a space",
            Cause::TwoSpaces => "there are two spaces side by side",
            Cause::NoNewline => "there is no newline at its end, as if the file had been cut off",
            Cause::NoHeader => "it is an event, and the header comes first",
            Cause::SecondHeader => "it is a second header, and a schedule has one; `--schedule 2` takes the second of several schedules",
            _ => return None,
        })
    }

    /// The words about a part of the line, which they show.
    fn about_part(&self) -> Option<String> {
        Some(match self {
            Cause::LowerCase(letter) => {
                let capital = letter.to_ascii_uppercase();
                format!("letters are capitals: `{capital}`, not `{letter}`")
            }
            Cause::UnknownStart(start) => {
                let letters = "L, E, X, W, V, N, A, S or C";
                format!("the first field of a line is {letters}, not `{start}`")
            }
            Cause::LeadingZero(number) => format!("`{number}` has a leading zero"),
            Cause::TooLarge(number) => {
                format!("the number `{number}` is too large: {LARGEST_NUMBER} is the largest")
            }
            Cause::NoNumber(field) => format!("`{field}` is no number in plain digits"),
            Cause::KindOfWord(field) => {
                let kinds = "0, for free words, or 1, for reserved ones";
                format!("the last number of a header is {kinds}, not `{field}`")
            }
            _ => return None,
        })
    }
}

impl fmt::Display for Cause {
    fn fmt(&self, f: &mut fmt::Formatter<'_>) -> fmt::Result {
        match self {
            Cause::TooLong(length) => {
                let longest = format!("the longest line of the form has {LONGEST_LINE}");
                write!(f, "it has {length} bytes, and {longest}")
            }
            Cause::StrangeByte(byte) => {
                let strange = "is no character of the form";
                write!(f, "the byte {byte:02x} (hexadecimal) {strange}")
            }
            Cause::Fields {
                first,
                expected,
                found,
            } => write!(f, "`{first}` takes {}, and has {found}", numbers(*expected)),
            other => {
                let part = other.about_part();
                let words = part.as_deref().or(other.fixed());
                f.write_str(words.unwrap_or_default())
            }
        }
    }
}

fn numbers(count: usize) -> String {
    match count {
        0 => "no number".to_string(),
        1 => "1 number".to_string(),
        _ => format!("{count} numbers"),
    }
}

/// The likely cause of a line that is malformed where it stands.
pub fn likely_cause(line: &RawLine) -> Cause {
    let bytes = line.bytes.as_slice();
    if let Some(cause) = encoding(bytes) {
        return cause;
    }
    if bytes.contains(&b'\r') {
        return Cause::CarriageReturn;
    }
    if !line.is_whole() {
        return Cause::TooLong(line.length);
    }
    if let Some(cause) = characters(bytes)
        .or_else(|| spaces(bytes))
        .or_else(|| fields(bytes))
    {
        return cause;
    }
    match line::read(bytes) {
        _ if !line.ended => Cause::NoNewline,
        Some(Line::Header(_)) => Cause::SecondHeader,
        _ => Cause::NoHeader,
    }
}

fn encoding(bytes: &[u8]) -> Option<Cause> {
    match bytes {
        [0xef, 0xbb, 0xbf, ..] => Some(Cause::ByteOrderMark),
        [0xff, 0xfe, ..] | [0xfe, 0xff, ..] | [0, ..] | [_, 0, ..] => Some(Cause::WideCharacters),
        _ => None,
    }
}

fn characters(bytes: &[u8]) -> Option<Cause> {
    if bytes.contains(&b'\t') {
        return Some(Cause::Tab);
    }
    let strange = |byte: &&u8| !matches!(byte, b' '..=b'~');
    bytes
        .iter()
        .find(strange)
        .map(|byte| Cause::StrangeByte(*byte))
}

fn spaces(bytes: &[u8]) -> Option<Cause> {
    match bytes {
        [] => Some(Cause::Empty),
        [b' ', ..] => Some(Cause::LeadingSpace),
        [.., b' '] => Some(Cause::TrailingSpace),
        _ => bytes
            .windows(2)
            .any(|pair| pair == b"  ")
            .then_some(Cause::TwoSpaces),
    }
}

fn fields(bytes: &[u8]) -> Option<Cause> {
    let fields: Vec<&[u8]> = bytes.split(|byte| *byte == b' ').collect();
    let (start, numbers) = fields.split_first()?;
    let [first] = **start else {
        return Some(Cause::UnknownStart(text(start)));
    };
    let Some(expected) = line::numbers_behind(first) else {
        let capital = line::numbers_behind(first.to_ascii_uppercase());
        return Some(match capital {
            Some(_) => Cause::LowerCase(char::from(first)),
            None => Cause::UnknownStart(text(start)),
        });
    };
    if let Some(cause) = numbers.iter().find_map(|field| number(field)) {
        return Some(cause);
    }
    if numbers.len() != expected {
        return Some(Cause::Fields {
            first: char::from(first),
            expected,
            found: numbers.len(),
        });
    }
    let kind_of_word = numbers.last().filter(|_| first == b'L')?;
    (!matches!(*kind_of_word, b"0" | b"1")).then(|| Cause::KindOfWord(text(kind_of_word)))
}

fn number(field: &[u8]) -> Option<Cause> {
    if line::read_number(field).is_some() {
        return None;
    }
    Some(match field {
        _ if !field.iter().all(u8::is_ascii_digit) => Cause::NoNumber(text(field)),
        [b'0', ..] => Cause::LeadingZero(text(field)),
        _ => Cause::TooLarge(text(field)),
    })
}

fn text(field: &[u8]) -> String {
    String::from_utf8_lossy(field).into_owned()
}
