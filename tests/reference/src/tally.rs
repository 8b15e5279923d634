//! How often each kind of a thing came up in a run, and that a whole run met each often enough.

use crate::report::Report;
use std::marker::PhantomData;

/// No enumeration that is counted has more kinds.
const MOST_KINDS: usize = 32;

/// One of an enumeration that is counted.
pub trait Kind: Copy {
    /// Its place among all of them, from 0.
    fn place(self) -> usize;

    /// What is counted.
    fn name(self) -> &'static str;

    /// A whole run has at least so many.
    fn least(self) -> u64;
}

/// A kind with its name, and how many of it a whole run has at least.
pub type Named<K> = (K, &'static str, u64);

/// One of an enumeration that has its kinds in a list, each at its place.
pub trait Listed: Copy + 'static {
    const LIST: &'static [Named<Self>];

    /// Its place in the list.
    fn index(self) -> usize;
}

impl<K: Listed> Kind for K {
    fn place(self) -> usize {
        self.index()
    }

    fn name(self) -> &'static str {
        K::LIST[self.index()].1
    }

    fn least(self) -> u64 {
        K::LIST[self.index()].2
    }
}

/// The kinds of a list.
pub const fn kinds<K: Copy, const NUMBER: usize>(named: &[Named<K>; NUMBER]) -> [K; NUMBER] {
    let mut kinds = [named[0].0; NUMBER];
    let mut place = 0;
    while place < NUMBER {
        kinds[place] = named[place].0;
        place += 1;
    }
    kinds
}

/// How often each came up.
#[derive(Clone, Copy, Debug, PartialEq, Eq)]
pub struct Tally<K> {
    numbers: [u64; MOST_KINDS],
    kinds: PhantomData<K>,
}

impl<K> Default for Tally<K> {
    fn default() -> Tally<K> {
        Tally {
            numbers: [0; MOST_KINDS],
            kinds: PhantomData,
        }
    }
}

impl<K: Kind> Tally<K> {
    pub fn add(&mut self, kind: K, number: u64) {
        self.numbers[kind.place()] += number;
    }

    pub fn add_all(&mut self, other: &Tally<K>) {
        for (number, more) in self.numbers.iter_mut().zip(other.numbers) {
            *number += more;
        }
    }

    pub fn number(&self, kind: K) -> u64 {
        self.numbers[kind.place()]
    }

    pub fn print(&self, kinds: &[K]) {
        for kind in kinds {
            println!("{}: {}", kind.name(), self.number(*kind));
        }
    }

    /// A whole run must have met each of these often enough.
    pub fn check(&self, kinds: &[K], report: &mut Report) {
        for kind in kinds {
            let (number, least) = (self.number(*kind), kind.least());
            let result = match number >= least {
                true => Ok(()),
                false => Err(format!("{number} met, of at least {least}")),
            };
            report.check(kind.name(), result);
        }
    }
}
