//! Scripts of a dispatcher and the trace of its run, laid out as the library reads and writes them.

use crate::answer::{self, Operation, Outcome};
use crate::raw::OPERATION_SIZE;
use core::fmt;
use core::slice;

/// One operation of a script. [`Operation::TimedWait`] is none that a script may have.
///
/// Numbers of operations and objects above 255 are those of none, as 255 is.
#[derive(Clone, Copy, Debug, PartialEq, Eq, Hash)]
#[repr(C)]
pub struct Command {
    operation: u8,
    object: u8,
}

impl Command {
    /// The operation on the object.
    ///
    /// ```
    /// use duskclamp::{Command, Operation};
    /// let command = Command::new(Operation::Notify, 7);
    /// assert_eq!(command.bytes(), [4, 7]);
    /// assert_eq!((command.operation(), command.object()), (Some(Operation::Notify), 7));
    /// ```
    pub fn new(operation: Operation, object: u32) -> Command {
        Command::from_numbers(operation.number().into(), object)
    }

    /// The same with the operation's number, whatever it is.
    ///
    /// ```
    /// use duskclamp::Command;
    /// let command = Command::from_numbers(9, 300);
    /// assert_eq!(command.bytes(), [9, 255]);
    /// assert_eq!(command.operation(), None);
    /// ```
    pub fn from_numbers(operation: u32, object: u32) -> Command {
        let [operation, object] = [operation, object].map(answer::narrow);
        Command { operation, object }
    }

    /// What the thread is to do, where there is such an operation.
    pub fn operation(self) -> Option<Operation> {
        Operation::from_number(self.operation.into())
    }

    /// At which object.
    pub fn object(self) -> u32 {
        self.object.into()
    }

    /// The command's two bytes: the operation's number and the object.
    pub fn bytes(self) -> [u8; OPERATION_SIZE] {
        [self.operation, self.object]
    }
}

/// A thread's script, and how far it came: `length` commands of those that are lent, from the one at `start` on, of which `cursor` have been begun.
#[derive(Clone, Copy, Debug, Default, PartialEq, Eq, Hash)]
#[repr(C)]
pub struct ScriptCursor {
    /// The place of the script's first command among all that are lent, from 0.
    pub start: u32,
    /// How many commands the script has.
    pub length: u32,
    /// How many of them have been begun.
    pub cursor: u32,
}

impl ScriptCursor {
    /// A script of which nothing has been begun.
    pub fn new(start: u32, length: u32) -> ScriptCursor {
        ScriptCursor {
            start,
            length,
            cursor: 0,
        }
    }

    /// How many commands have not been begun.
    ///
    /// ```
    /// use duskclamp::ScriptCursor;
    /// let mut script = ScriptCursor::new(5, 2);
    /// assert_eq!(script.left(), 2);
    /// script.cursor = 2;
    /// assert_eq!(script.left(), 0);
    /// ```
    pub fn left(self) -> u32 {
        self.length.saturating_sub(self.cursor)
    }
}

const BEGAN_BIT: u32 = 17;
const THREAD_SHIFT: u32 = 24;
/// What an entry has more than the answer to its step.
const BESIDE_THE_ANSWER: u64 = 1 << BEGAN_BIT | 0xff << THREAD_SHIFT;

/// A step of a dispatcher's run. `default` is that of no step: its thread is 0.
#[derive(Clone, Copy, Default, PartialEq, Eq, Hash)]
#[repr(transparent)]
pub struct TraceEntry {
    number: u64,
}

impl TraceEntry {
    /// The thread that took the step.
    pub fn thread(self) -> u32 {
        (self.number >> THREAD_SHIFT) as u32 & 0xff
    }

    /// Whether the thread began its operation just before.
    pub fn began(self) -> bool {
        self.number >> BEGAN_BIT & 1 == 1
    }

    /// What the step answered, as [`Table::step`](crate::Table::step) would have.
    pub fn outcome(self) -> Outcome {
        answer::outcome(self.number & !BESIDE_THE_ANSWER)
    }

    /// The entry's number, as the library gives it.
    pub fn number(self) -> u64 {
        self.number
    }
}

impl fmt::Debug for TraceEntry {
    fn fmt(&self, formatter: &mut fmt::Formatter<'_>) -> fmt::Result {
        write!(formatter, "TraceEntry({:#x})", self.number)
    }
}

pub(crate) fn bytes(scripts: &[Command]) -> &[u8] {
    // SAFETY: a command is its two bytes and nothing else, so commands one behind the other are so many bytes, borrowed as long.
    unsafe { slice::from_raw_parts(scripts.as_ptr().cast(), scripts.len() * OPERATION_SIZE) }
}

pub(crate) fn numbers(trace: &mut [TraceEntry]) -> &mut [u64] {
    // SAFETY: an entry is its number and nothing else, every number is one of an entry, and the borrow is handed on whole.
    unsafe { slice::from_raw_parts_mut(trace.as_mut_ptr().cast(), trace.len()) }
}

#[cfg(test)]
mod tests {
    use super::*;
    use crate::{Answer, ThreadSet};

    #[test]
    fn an_entry_is_read_by_its_bits() {
        let entry = TraceEntry {
            number: 0x8000_0001_2003_0501,
        };
        assert_eq!((entry.thread(), entry.began()), (32, true));
        let outcome = Outcome {
            result: Ok(Answer::Finished { woken: 5 }),
            commits: true,
            unparked: ThreadSet::from_bits(0x8000_0001),
        };
        assert_eq!(entry.outcome(), outcome);
        let other = TraceEntry {
            number: 0x0102_0002,
        };
        assert_eq!((other.thread(), other.began()), (1, true));
        assert!(!other.outcome().commits);
        let none = TraceEntry::default();
        assert_eq!((none.thread(), none.began()), (0, false));
    }

    #[test]
    fn commands_and_records_are_laid_out_as_in_c() {
        let commands = [
            Command::new(Operation::Enter, 3),
            Command::from_numbers(256, 64),
        ];
        assert_eq!(bytes(&commands), [1, 3, 255, 64]);
        assert_eq!(size_of::<ScriptCursor>(), 12);
        let script = ScriptCursor {
            start: 1,
            length: 2,
            cursor: 3,
        };
        assert_eq!(script.left(), 0);
    }
}
