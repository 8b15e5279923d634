//! Sets of threads as request L3 has them: 32 bits, bit n − 1 for thread n.

use crate::table::MAX_THREADS;

#[derive(Clone, Copy, Debug, Default, PartialEq, Eq)]
pub struct ThreadSet(u32);

fn bit(thread: u8) -> u32 {
    1 << (thread - 1)
}

impl ThreadSet {
    pub fn from_bits(bits: u32) -> ThreadSet {
        ThreadSet(bits)
    }

    pub fn bits(self) -> u32 {
        self.0
    }

    pub fn is_empty(self) -> bool {
        self.0 == 0
    }

    pub fn len(self) -> usize {
        self.0.count_ones() as usize
    }

    pub fn contains(self, thread: u8) -> bool {
        self.0 & bit(thread) != 0
    }

    pub fn remove(&mut self, thread: u8) {
        self.0 &= !bit(thread);
    }

    /// The threads in rising order.
    pub fn threads(self) -> impl Iterator<Item = u8> {
        (1..=MAX_THREADS as u8).filter(move |thread| self.contains(*thread))
    }
}

impl Extend<u8> for ThreadSet {
    fn extend<Threads: IntoIterator<Item = u8>>(&mut self, threads: Threads) {
        for thread in threads {
            self.0 |= bit(thread);
        }
    }
}

impl FromIterator<u8> for ThreadSet {
    fn from_iter<Threads: IntoIterator<Item = u8>>(threads: Threads) -> ThreadSet {
        let mut set = ThreadSet::default();
        set.extend(threads);
        set
    }
}
