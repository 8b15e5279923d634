//! Lock words: 32 bits read into their one meaning, and each meaning written as its one word.

/// The largest nested count that the six count bits hold.
pub const MAX_COUNT: u8 = 63;

const SHAPE_BIT: u32 = 1;
const RESERVED_BIT: u32 = 1 << 1;
const COUNT_SHIFT: u32 = 2;
const NUMBER_SHIFT: u32 = 8;
/// The first bit behind the fifteen of the number; from here up all bits are zero.
const NUMBER_END: u32 = 23;

/// What a valid lock word means.
#[derive(Clone, Copy, Debug, PartialEq, Eq)]
pub enum LockWord {
    Free,
    /// Owned by the thread at depth count + 1.
    Flat {
        thread: u16,
        count: u8,
    },
    /// Reserved, but not yet for any thread.
    Anonymous,
    /// Reserved for the thread, which owns it at depth count if that is above 0.
    Reserved {
        thread: u16,
        count: u8,
    },
    /// Grown into a monitor. That the number is the object's own is a matter of soundness.
    Fat {
        monitor: u16,
    },
}

impl LockWord {
    /// The meaning of a word, or nothing where it is no lock word.
    pub fn decode(word: u32) -> Option<LockWord> {
        if word >> NUMBER_END != 0 {
            return None;
        }
        let fat = word & SHAPE_BIT != 0;
        let reserved = word & RESERVED_BIT != 0;
        let count = (word >> COUNT_SHIFT) as u8 & MAX_COUNT;
        let number = (word >> NUMBER_SHIFT) as u16;
        match (fat, reserved, number, count) {
            (true, false, monitor, 0) => Some(LockWord::Fat { monitor }),
            (true, _, _, _) => None,
            (false, false, 0, 0) => Some(LockWord::Free),
            (false, true, 0, 0) => Some(LockWord::Anonymous),
            (false, _, 0, _) => None,
            (false, false, thread, count) => Some(LockWord::Flat { thread, count }),
            (false, true, thread, count) => Some(LockWord::Reserved { thread, count }),
        }
    }

    /// The word that is written for this meaning.
    pub fn encode(self) -> u32 {
        let bits = |number: u16, count: u8, kind: u32| {
            u32::from(number) << NUMBER_SHIFT | u32::from(count) << COUNT_SHIFT | kind
        };
        match self {
            LockWord::Free => 0,
            LockWord::Flat { thread, count } => bits(thread, count, 0),
            LockWord::Anonymous => RESERVED_BIT,
            LockWord::Reserved { thread, count } => bits(thread, count, RESERVED_BIT),
            LockWord::Fat { monitor } => bits(monitor, 0, SHAPE_BIT),
        }
    }
}
