//! A fresh table, with what it is given.

use crate::answer::{self, Refusal};
use crate::{raw, Table, Words, MAX_THREADS, TABLE_SIZE};

/// What a fresh table is given, by [`Table::builder`]. What is not said is as [`Table::fresh`] has it, with every word free.
///
/// A rank, 0 to [`MAX_RANK`](crate::MAX_RANK), says where its thread joins an object's entry chain: ahead of all threads of a lower rank, behind those of
/// its own and of higher ones. Here thread 1 owns the object, thread 2 queues for it to write a report, and thread 3, at a screen, passes thread 2:
///
/// ```
/// use duskclamp::{Answer, Chain, Operation, Table};
/// let mut table = Table::builder(3, 1).rank(3, 3).build()?;
///
/// // Thread 1 owns the object by its monitor: it entered, and waited there until its limit ran out.
/// table.begin(1, Operation::Enter, 1)?;
/// table.step(1).result?;
/// table.timed_wait(1, 1, 1)?;
/// while table.step(1).result? == Answer::GoneOn {}
/// table.tick()?;
/// table.step(1).result?;
///
/// for thread in [2, 3] {
///     table.begin(thread, Operation::Enter, 1)?;
///     while table.step(thread).result? == Answer::GoneOn {}
/// }
/// assert!(table.chain(1, Chain::Entry)?.eq([3, 2]));
/// # Ok::<(), duskclamp::Refusal>(())
/// ```
///
/// A rank does no more than that. The thread still waits for the object's owner and the monitor's holder, whatever their ranks, and they are not raised to
/// its own meanwhile. The contention and the waiting chain are kept by time: an exit tells the first contender, and a notify wakes the longest waiter, of
/// whatever rank. A thread that finds the word free takes it, and passes all who are queued. And nothing keeps a thread of a low rank from starving in the
/// entry chain, while others of a higher one keep joining it.
#[derive(Clone, Debug, PartialEq, Eq, Hash)]
#[must_use = "there is no table before `build`"]
pub struct TableBuilder {
    threads: u32,
    objects: u32,
    words: Words,
    /// Of thread n at n - 1.
    ranks: [u8; MAX_THREADS as usize],
    /// Whether something was said of thread 0.
    thread_0: bool,
}

impl TableBuilder {
    pub(crate) fn new(threads: u32, objects: u32) -> TableBuilder {
        TableBuilder {
            threads,
            objects,
            words: Words::Free,
            ranks: [0; MAX_THREADS as usize],
            thread_0: false,
        }
    }

    /// What every lock word is.
    ///
    /// ```
    /// use duskclamp::{LockWord, Table, Words};
    /// let table = Table::builder(1, 1).words(Words::Reserved).build()?;
    /// assert_eq!(table.lock_word(1), Ok(LockWord::Anonymous));
    /// # Ok::<(), duskclamp::Refusal>(())
    /// ```
    pub fn words(self, words: Words) -> TableBuilder {
        TableBuilder { words, ..self }
    }

    /// The thread's rank. Of a thread above the table's number of threads it is dropped unread, whatever it is.
    ///
    /// ```
    /// use duskclamp::{Refusal, Table};
    /// let table = Table::builder(2, 1).rank(2, 3).rank(3, 9).build()?;
    /// assert_eq!([1, 2].map(|thread| table.rank(thread)), [Ok(0), Ok(3)]);
    /// assert_eq!(table.rank(3), Err(Refusal::NoSuchThread));
    /// # Ok::<(), Refusal>(())
    /// ```
    pub fn rank(mut self, thread: u32, rank: u32) -> TableBuilder {
        match (thread as usize).checked_sub(1) {
            None => self.thread_0 = true,
            Some(place) => {
                if let Some(given) = self.ranks.get_mut(place) {
                    *given = answer::narrow(rank);
                }
            }
        }
        self
    }

    /// Makes the table. Refused are, in this order, sizes that no table has with `SizeOutOfRange`, a rank above [`MAX_RANK`](crate::MAX_RANK) with
    /// `RankOutOfRange`, and a rank of thread 0, which no table has, with `NoSuchThread`.
    ///
    /// ```
    /// use duskclamp::{Refusal, Table};
    /// assert_eq!(Table::builder(1, 65).rank(1, 4).build(), Err(Refusal::SizeOutOfRange));
    /// assert_eq!(Table::builder(1, 64).rank(1, 4).build(), Err(Refusal::RankOutOfRange));
    /// assert_eq!(Table::builder(1, 64).rank(0, 1).build(), Err(Refusal::NoSuchThread));
    /// ```
    pub fn build(&self) -> Result<Table, Refusal> {
        let mut bytes = [0; TABLE_SIZE];
        let (threads, objects) = (self.threads, self.objects);
        let reserved = u32::from(self.words == Words::Reserved);
        match raw::fresh_given(&mut bytes, threads, objects, reserved, &self.ranks) as u8 {
            0 if self.thread_0 => Err(Refusal::NoSuchThread),
            0 => Ok(Table::from_bytes(bytes)),
            number => Err(answer::refusal(number)),
        }
    }
}

#[cfg(test)]
mod tests {
    use super::*;
    use crate::{Answer, Chain, Operation, Phase, MAX_OBJECTS, MAX_RANK};
    use std::vec::Vec;

    fn ranks(table: &Table) -> Vec<u32> {
        table.threads().map(|thread| thread.rank).collect()
    }

    #[test]
    fn without_ranks_it_is_the_plain_fresh_table() {
        for (threads, objects) in [(1, 1), (7, 3), (MAX_THREADS, MAX_OBJECTS)] {
            for words in [Words::Free, Words::Reserved] {
                let built = Table::builder(threads, objects).words(words).build();
                assert_eq!(built, Table::fresh(threads, objects, words));
            }
        }
    }

    #[test]
    fn every_thread_can_have_every_rank() {
        for thread in 1..=MAX_THREADS {
            for rank in 0..=MAX_RANK {
                let table = Table::builder(MAX_THREADS, 1).rank(thread, rank).build();
                let expected = (1..=MAX_THREADS).map(|n| if n == thread { rank } else { 0 });
                assert!(ranks(&table.unwrap()).into_iter().eq(expected));
            }
        }
    }

    #[test]
    fn the_last_rank_said_of_a_thread_counts() {
        let table = Table::builder(2, 1).rank(2, 4).rank(2, 1).build();
        assert_eq!(ranks(&table.unwrap()), [0, 1]);
    }

    #[test]
    fn ranks_above_the_highest_are_refused_and_not_cut_off() {
        for rank in [MAX_RANK + 1, 255, 256, 257, u32::MAX] {
            let refused = Table::builder(2, 1).rank(2, rank).build();
            assert_eq!(refused, Err(Refusal::RankOutOfRange));
        }
    }

    #[test]
    fn ranks_past_the_threads_are_dropped_unread() {
        let plain = Table::builder(2, 1).build().unwrap();
        for thread in [3, MAX_THREADS, MAX_THREADS + 1, u32::MAX] {
            let built = Table::builder(2, 1).rank(thread, MAX_RANK + 1).build();
            assert_eq!(built.as_ref(), Ok(&plain));
        }
    }

    #[test]
    fn refusals_come_in_order() {
        let builder = Table::builder(0, 1).rank(0, 1).rank(1, 4);
        assert_eq!(builder.build(), Err(Refusal::SizeOutOfRange));
        let builder = Table::builder(1, 1).rank(0, 1).rank(1, 4);
        assert_eq!(builder.build(), Err(Refusal::RankOutOfRange));
        assert_eq!(builder.rank(1, 3).build(), Err(Refusal::NoSuchThread));
    }

    #[test]
    fn what_is_not_given_is_rank_0_and_what_is_behind_is_unread() {
        let longest = [[1; MAX_THREADS as usize], [0xff; MAX_THREADS as usize]].concat();
        for length in [0, 1, 31, 32, 33, 64] {
            let mut bytes = [0xa5; TABLE_SIZE];
            let given = &longest[..length];
            assert_eq!(raw::fresh_given(&mut bytes, MAX_THREADS, 1, 0, given), 0);
            let given = length.min(MAX_THREADS as usize) as u32;
            let expected = (1..=MAX_THREADS).map(|n| u32::from(n <= given));
            assert!(ranks(&Table::from_bytes(bytes)).into_iter().eq(expected));
        }
    }

    #[test]
    fn a_refused_table_leaves_the_bytes() {
        for (threads, given, number) in [(33, [4, 0], 22), (2, [0, 4], 27)] {
            let mut bytes = [0xa5; TABLE_SIZE];
            assert_eq!(raw::fresh_given(&mut bytes, threads, 1, 0, &given), number);
            assert_eq!(bytes, [0xa5; TABLE_SIZE]);
        }
    }

    /// The thread takes its steps until it parks or has finished.
    fn run(table: &mut Table, thread: u32, operation: Operation) {
        table.begin(thread, operation, 1).unwrap();
        while table.step(thread).result.unwrap() == Answer::GoneOn {}
    }

    #[test]
    fn a_rank_stays_in_every_phase() {
        let mut table = Table::builder(2, 1).rank(1, 2).rank(2, 1).build().unwrap();
        run(&mut table, 1, Operation::Enter);
        run(&mut table, 1, Operation::Wait);
        run(&mut table, 2, Operation::Enter);
        run(&mut table, 2, Operation::Notify);
        assert!(table.phase(1).unwrap().is_parked());
        assert_eq!(ranks(&table), [2, 1]);
        run(&mut table, 2, Operation::Exit);
        assert_eq!(table.step(1).result, Ok(Answer::Finished { woken: 0 }));
        assert_eq!(table.phase(1), Ok(Phase::Idle));
        assert_eq!(ranks(&table), [2, 1]);
    }

    #[test]
    fn the_entry_chain_falls_in_rank_and_the_contention_chain_is_by_time() {
        let ranks = [0, 1, 3, 0, 3, 2];
        let given = ranks.iter().zip(1..);
        let builder = given.fold(Table::builder(6, 1), |builder, (rank, thread)| {
            builder.rank(thread, *rank)
        });
        let mut table = builder.build().unwrap();
        for thread in 1..=6 {
            run(&mut table, thread, Operation::Enter);
        }
        assert!(table.chain(1, Chain::Contention).unwrap().eq(2..=6));
        // The wait of thread 1 inflates its lock, and all contenders join the entry chain; the first is handed the monitor.
        run(&mut table, 1, Operation::Wait);
        assert_eq!(table.object(1).unwrap().holder, 3);
        assert!(table.chain(1, Chain::Entry).unwrap().eq([5, 6, 2, 4]));
    }
}
