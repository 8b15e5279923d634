//! What a lock word says, under names.

use core::fmt;

/// An object's lock word, by [`Table::lock_word`](crate::Table::lock_word).
///
/// ```
/// use duskclamp::{LockWord, Operation, Table, Words};
/// let mut table = Table::fresh(1, 1, Words::Free)?;
/// assert_eq!(table.lock_word(1), Ok(LockWord::Free));
/// table.begin(1, Operation::Enter, 1)?;
/// table.step(1).result?;
/// let word = table.lock_word(1)?;
/// assert_eq!(word, LockWord::Flat { thread: 1, depth: 1 });
/// assert_eq!(word.to_string(), "flat");
/// # Ok::<(), duskclamp::Refusal>(())
/// ```
#[derive(Clone, Copy, Debug, PartialEq, Eq, Hash)]
pub enum LockWord {
    /// Nobody owns the object, and nobody has it reserved.
    Free,
    /// The thread owns the object.
    Flat {
        /// The thread that the word names.
        thread: u32,
        /// How deep it owns the object, from 1.
        depth: u32,
    },
    /// Reserved for whoever enters first.
    Anonymous,
    /// Reserved for the thread, which alone may own the object as long as it is.
    Reserved {
        /// The thread that the word names.
        thread: u32,
        /// How deep it owns the object; 0 where nobody does.
        depth: u32,
    },
    /// Grown into the object's monitor, which says the rest: see [`Object`](crate::Object).
    Monitor,
    /// No lock word, which no sound table has.
    Invalid,
}

impl LockWord {
    /// The name of the word's kind, as in `no lock word`.
    pub fn name(self) -> &'static str {
        match self {
            LockWord::Free => "free",
            LockWord::Flat { .. } => "flat",
            LockWord::Anonymous => "anonymous",
            LockWord::Reserved { .. } => "reserved",
            LockWord::Monitor => "monitor",
            LockWord::Invalid => "no lock word",
        }
    }

    /// The word of this kind, with the thread that it names and the depth at which the object is owned.
    pub(crate) fn from_numbers(kind: u32, thread: u32, depth: u32) -> LockWord {
        match kind {
            0 => LockWord::Free,
            1 => LockWord::Flat { thread, depth },
            2 => LockWord::Anonymous,
            3 => LockWord::Reserved { thread, depth },
            4 => LockWord::Monitor,
            5 => LockWord::Invalid,
            _ => unreachable!("the library answered kind {kind}"),
        }
    }
}

impl fmt::Display for LockWord {
    fn fmt(&self, formatter: &mut fmt::Formatter<'_>) -> fmt::Result {
        formatter.write_str(self.name())
    }
}
