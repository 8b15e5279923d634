//! A set of threads, as an answer carries it.

use crate::MAX_THREADS;
use core::fmt;
use core::iter::FusedIterator;

/// A set of thread numbers, 1 to [`MAX_THREADS`], in as many bits: bit n - 1 for thread n. It iterates over the numbers, rising.
///
/// ```
/// use duskclamp::ThreadSet;
/// let set = ThreadSet::from_bits(0x8000_0005);
/// assert!(set.contains(3));
/// assert_eq!(set.len(), 3);
/// assert!(set.iter().eq([1, 3, 32]));
/// assert_eq!(format!("{set:?}"), "{1, 3, 32}");
///
/// let mut queue = vec![7];
/// queue.extend(set);
/// assert_eq!(queue, [7, 1, 3, 32]);
/// ```
///
/// To drop one unseen is a warning:
///
/// ```compile_fail
/// #![deny(unused_must_use)]
/// fn tick(table: &mut duskclamp::Table) -> Result<(), duskclamp::Refusal> {
///     table.tick()?;
///     Ok(())
/// }
/// ```
///
/// To look at it is none:
///
/// ```
/// #![deny(unused_must_use)]
/// fn tick(table: &mut duskclamp::Table) -> Result<bool, duskclamp::Refusal> {
///     let set = table.tick()?;
///     Ok(set.is_empty())
/// }
/// ```
#[derive(Clone, Copy, Default, PartialEq, Eq, Hash)]
#[must_use = "the threads in it can run again"]
pub struct ThreadSet {
    bits: u32,
}

impl ThreadSet {
    /// The set of these bits.
    pub const fn from_bits(bits: u32) -> ThreadSet {
        ThreadSet { bits }
    }

    /// Its bits.
    pub const fn bits(self) -> u32 {
        self.bits
    }

    /// Whether there is no thread in it.
    pub const fn is_empty(self) -> bool {
        self.bits == 0
    }

    /// How many threads are in it.
    pub const fn len(self) -> usize {
        self.bits.count_ones() as usize
    }

    /// Whether the thread is in it. A number that no thread has is not.
    ///
    /// ```
    /// use duskclamp::ThreadSet;
    /// let all = ThreadSet::from_bits(u32::MAX);
    /// assert!(all.contains(1) && all.contains(32));
    /// assert!(!all.contains(0) && !all.contains(33));
    /// ```
    pub const fn contains(self, thread: u32) -> bool {
        1 <= thread && thread <= MAX_THREADS && (self.bits >> (thread - 1)) & 1 == 1
    }

    /// The threads in it, the lowest number first.
    pub fn iter(self) -> ThreadSetIter {
        ThreadSetIter { left: self.bits }
    }
}

impl IntoIterator for ThreadSet {
    type Item = u32;
    type IntoIter = ThreadSetIter;

    fn into_iter(self) -> ThreadSetIter {
        self.iter()
    }
}

impl fmt::Debug for ThreadSet {
    fn fmt(&self, formatter: &mut fmt::Formatter<'_>) -> fmt::Result {
        formatter.debug_set().entries(*self).finish()
    }
}

/// The threads of a [`ThreadSet`], rising.
#[derive(Clone, Debug)]
pub struct ThreadSetIter {
    left: u32,
}

impl Iterator for ThreadSetIter {
    type Item = u32;

    fn next(&mut self) -> Option<u32> {
        let below = self.left.trailing_zeros();
        let rest = self.left.checked_sub(1)?;
        self.left &= rest;
        Some(below + 1)
    }

    fn size_hint(&self) -> (usize, Option<usize>) {
        let length = self.left.count_ones() as usize;
        (length, Some(length))
    }
}

impl ExactSizeIterator for ThreadSetIter {}

impl FusedIterator for ThreadSetIter {}

#[cfg(test)]
mod tests {
    use super::*;

    #[test]
    fn iterates_over_what_it_contains() {
        for bits in [0, 1, 2, 1 << 31, 0x8000_0001, 0x0f0f_1234, u32::MAX] {
            let set = ThreadSet::from_bits(bits);
            assert_eq!(set.bits(), bits);
            assert_eq!(set.is_empty(), bits == 0);
            let contained = (0..=u32::from(u8::MAX)).filter(|thread| set.contains(*thread));
            assert!(set.iter().eq(contained));
        }
    }

    #[test]
    fn counts_what_is_left() {
        let mut numbers = ThreadSet::from_bits(0b1_0110).iter();
        for (left, next) in [
            (3, Some(2)),
            (2, Some(3)),
            (1, Some(5)),
            (0, None),
            (0, None),
        ] {
            assert_eq!(numbers.len(), left);
            assert_eq!(numbers.next(), next);
        }
    }
}
