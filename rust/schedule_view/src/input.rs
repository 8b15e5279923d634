//! An input as numbered lines, each held only as far as a reader wants to see it, so that a line of any length costs no memory.

use std::io::{self, BufRead};

/// As many bytes of a line are kept; a line of the form has fewer.
const KEPT: usize = 64;

/// A line as it stands in the input.
#[derive(Clone, Debug, PartialEq, Eq)]
pub struct RawLine {
    /// From 1.
    pub number: u64,
    /// Without its newline, and no more than its first bytes if it is very long.
    pub bytes: Vec<u8>,
    /// How many bytes it has, without its newline.
    pub length: u64,
    /// Whether a newline ends it; only the input's last line can lack one.
    pub ended: bool,
}

impl RawLine {
    /// Whether `bytes` are all of it.
    pub fn is_whole(&self) -> bool {
        self.bytes.len() as u64 == self.length
    }

    /// The line as it can be shown in one line: what cannot be printed is a dot, and what is long is cut off.
    pub fn shown(&self, most: usize) -> String {
        let printable = |byte: &u8| match byte {
            b' '..=b'~' => char::from(*byte),
            _ => '·',
        };
        if self.is_whole() && self.bytes.len() <= most {
            return self.bytes.iter().map(printable).collect();
        }
        let kept = self.bytes.iter().take(most.saturating_sub(1));
        kept.map(printable).chain(['…']).collect()
    }
}

/// The lines of an input.
pub struct Lines<R> {
    input: R,
    number: u64,
}

impl<R: BufRead> Lines<R> {
    pub fn new(input: R) -> Lines<R> {
        Lines { input, number: 0 }
    }

    /// The next line; nothing at the end of the input.
    pub fn next(&mut self) -> io::Result<Option<RawLine>> {
        let mut line = RawLine {
            number: self.number + 1,
            bytes: Vec::new(),
            length: 0,
            ended: false,
        };
        while !line.ended {
            let part = self.input.fill_buf()?;
            if part.is_empty() {
                break;
            }
            let newline = part.iter().position(|byte| *byte == b'\n');
            let text = &part[..newline.unwrap_or(part.len())];
            let room = KEPT - line.bytes.len();
            line.bytes.extend_from_slice(&text[..text.len().min(room)]);
            line.length += text.len() as u64;
            line.ended = newline.is_some();
            let taken = text.len() + usize::from(line.ended);
            self.input.consume(taken);
        }
        if line.length == 0 && !line.ended {
            return Ok(None);
        }
        self.number += 1;
        Ok(Some(line))
    }
}
