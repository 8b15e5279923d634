//! The table of threads and objects that every event works on, and its chains of threads.

use crate::outcome::Returned;
use crate::word::LockWord;

pub const MAX_THREADS: usize = 32;
pub const MAX_OBJECTS: usize = 64;
/// The deepest that one thread may own an object.
pub const MAX_DEPTH: u16 = u16::MAX;
/// The longest limit of a timed wait, in ticks.
pub const MAX_LIMIT: u16 = u16::MAX;
/// The rank that goes before all others; the lowest is 0.
pub const MAX_RANK: u8 = 3;

#[derive(Clone, Copy, Debug, PartialEq, Eq, PartialOrd, Ord)]
pub enum Operation {
    Enter,
    Exit,
    Wait,
    Notify,
    NotifyAll,
    /// A wait that gives up by itself after a number of ticks.
    TimedWait,
}

impl Operation {
    pub const ALL: [Operation; 6] = [
        Operation::Enter,
        Operation::Exit,
        Operation::Wait,
        Operation::Notify,
        Operation::NotifyAll,
        Operation::TimedWait,
    ];

    pub fn number(self) -> u8 {
        self as u8 + 1
    }

    pub fn from_number(number: u8) -> Option<Operation> {
        Operation::ALL
            .into_iter()
            .find(|operation| operation.number() == number)
    }

    pub fn is_wait(self) -> bool {
        matches!(self, Operation::Wait | Operation::TimedWait)
    }
}

/// The phase that a thread queued for entry goes on with.
#[derive(Clone, Copy, Debug, PartialEq, Eq)]
pub enum Onward {
    Check,
    Tell,
    Inflate,
    Resume,
}

impl Onward {
    pub fn phase(self) -> Phase {
        match self {
            Onward::Check => Phase::Check,
            Onward::Tell => Phase::Tell,
            Onward::Inflate => Phase::Inflate,
            Onward::Resume => Phase::Resume,
        }
    }
}

/// Where a thread is in its operation, in the order of document 01's phase numbers 0 to 15.
#[derive(Clone, Copy, Debug, Default, PartialEq, Eq)]
pub enum Phase {
    #[default]
    Idle,
    Look,
    Store,
    Cancel,
    GoIn,
    Queued(Onward),
    Check,
    Try,
    Contending,
    Test,
    Tell,
    Leave,
    Inflate,
    Wait,
    Waiting,
    Resume,
}

impl Phase {
    pub fn number(self) -> u8 {
        match self {
            Phase::Idle => 0,
            Phase::Look => 1,
            Phase::Store => 2,
            Phase::Cancel => 3,
            Phase::GoIn => 4,
            Phase::Queued(_) => 5,
            Phase::Check => 6,
            Phase::Try => 7,
            Phase::Contending => 8,
            Phase::Test => 9,
            Phase::Tell => 10,
            Phase::Leave => 11,
            Phase::Inflate => 12,
            Phase::Wait => 13,
            Phase::Waiting => 14,
            Phase::Resume => 15,
        }
    }

    /// The chain that a parked thread stands in; an unparked one stands in none.
    pub fn chain(self) -> Option<Chain> {
        match self {
            Phase::Queued(_) => Some(Chain::Entry),
            Phase::Contending => Some(Chain::Contention),
            Phase::Waiting => Some(Chain::Waiting),
            _ => None,
        }
    }

    pub fn is_parked(self) -> bool {
        self.chain().is_some()
    }

    pub fn is_parked_for_entry(self) -> bool {
        matches!(self, Phase::Queued(_) | Phase::Contending)
    }

    pub fn is_woken(self) -> bool {
        matches!(self, Phase::Queued(Onward::Resume) | Phase::Resume)
    }

    pub fn uses_saved_depth(self) -> bool {
        self == Phase::Waiting || self.is_woken()
    }
}

/// The three chains of a monitor.
#[derive(Clone, Copy, Debug, PartialEq, Eq)]
pub enum Chain {
    Entry,
    Contention,
    Waiting,
}

impl Chain {
    pub const ALL: [Chain; 3] = [Chain::Entry, Chain::Contention, Chain::Waiting];
}

#[derive(Clone, Copy, Debug, Default, PartialEq, Eq)]
pub struct ThreadRecord {
    /// Nothing where the thread is idle.
    pub operation: Option<Operation>,
    pub object: u8,
    pub phase: Phase,
    pub kept_word: u32,
    pub saved_depth: u16,
    pub next: u8,
    /// What a timed wait has left of its limit, 0 once it ran out; 0 of any other operation.
    pub ticks: u16,
    /// Given with the fresh table, and the thread's in every phase.
    pub rank: u8,
}

impl ThreadRecord {
    /// Whether it is a timed wait that ran out: in every other phase than those of a woken thread it has ticks left.
    pub fn has_run_out(&self) -> bool {
        self.operation == Some(Operation::TimedWait) && self.ticks == 0
    }
}

/// Thread numbers throughout; 0 means none.
#[derive(Clone, Copy, Debug, Default, PartialEq, Eq)]
pub struct Monitor {
    pub holder: u8,
    pub depth: u16,
    pub entry: u8,
    pub contention: u8,
    pub waiting: u8,
}

impl Monitor {
    pub fn first(&self, chain: Chain) -> u8 {
        match chain {
            Chain::Entry => self.entry,
            Chain::Contention => self.contention,
            Chain::Waiting => self.waiting,
        }
    }

    fn first_mut(&mut self, chain: Chain) -> &mut u8 {
        match chain {
            Chain::Entry => &mut self.entry,
            Chain::Contention => &mut self.contention,
            Chain::Waiting => &mut self.waiting,
        }
    }

    pub fn chains_empty(&self) -> bool {
        Chain::ALL.into_iter().all(|chain| self.first(chain) == 0)
    }
}

#[derive(Clone, Copy, Debug, Default, PartialEq, Eq)]
pub struct ObjectRecord {
    pub word: u32,
    pub contention_flag: bool,
    pub monitor: Monitor,
}

/// What a fresh table is given besides its sizes and its kind of words.
#[derive(Clone, Copy, Debug, Default, PartialEq, Eq)]
pub struct Given {
    /// The rank of thread n at place n − 1.
    pub ranks: [u8; MAX_THREADS],
}

/// Threads and objects are numbered from 1; records past the two counts are all zero.
#[derive(Clone, Debug, PartialEq, Eq)]
pub struct Table {
    pub threads: u8,
    pub objects: u8,
    pub thread_records: [ThreadRecord; MAX_THREADS],
    pub object_records: [ObjectRecord; MAX_OBJECTS],
}

impl Table {
    /// A table with every thread idle, of rank 0, and every word free or anonymously reserved.
    pub fn fresh(threads: u16, objects: u16, reserved: bool) -> Result<Table, Returned> {
        Table::fresh_given(threads, objects, reserved, &Given::default())
    }

    /// The same with what it is given. Nothing is read of what is given for threads that the table does not have.
    pub fn fresh_given(
        threads: u16,
        objects: u16,
        reserved: bool,
        given: &Given,
    ) -> Result<Table, Returned> {
        let sizes = (usize::from(threads), usize::from(objects));
        let (1..=MAX_THREADS, 1..=MAX_OBJECTS) = sizes else {
            return Err(Returned::SizesOutOfRange);
        };
        let ranks = &given.ranks[..usize::from(threads)];
        if ranks.iter().any(|rank| *rank > MAX_RANK) {
            return Err(Returned::RankOutOfRange);
        }
        let first_word = if reserved {
            LockWord::Anonymous
        } else {
            LockWord::Free
        };
        let mut table = Table {
            threads: threads as u8,
            objects: objects as u8,
            thread_records: [ThreadRecord::default(); MAX_THREADS],
            object_records: [ObjectRecord::default(); MAX_OBJECTS],
        };
        for (record, rank) in table.thread_records.iter_mut().zip(ranks) {
            record.rank = *rank;
        }
        for record in &mut table.object_records[..usize::from(objects)] {
            record.word = first_word.encode();
        }
        Ok(table)
    }

    /// The number as that of a thread of this table.
    pub fn thread_number(&self, number: u16) -> Option<u8> {
        (1..=u16::from(self.threads))
            .contains(&number)
            .then_some(number as u8)
    }

    /// The number as that of an object of this table.
    pub fn object_number(&self, number: u16) -> Option<u8> {
        (1..=u16::from(self.objects))
            .contains(&number)
            .then_some(number as u8)
    }

    pub fn thread(&self, thread: u8) -> &ThreadRecord {
        &self.thread_records[usize::from(thread) - 1]
    }

    pub fn thread_mut(&mut self, thread: u8) -> &mut ThreadRecord {
        &mut self.thread_records[usize::from(thread) - 1]
    }

    pub fn object(&self, object: u8) -> &ObjectRecord {
        &self.object_records[usize::from(object) - 1]
    }

    pub fn object_mut(&mut self, object: u8) -> &mut ObjectRecord {
        &mut self.object_records[usize::from(object) - 1]
    }

    /// Owner and depth of an object by its word; 0 and 0 with no owner.
    pub fn owner(&self, object: u8) -> (u8, u16) {
        let record = self.object(object);
        match LockWord::decode(record.word) {
            Some(LockWord::Flat { thread, count }) => (thread as u8, u16::from(count) + 1),
            Some(LockWord::Reserved { thread, count }) if count > 0 => {
                (thread as u8, u16::from(count))
            }
            Some(LockWord::Fat { .. }) if record.monitor.depth > 0 => {
                (record.monitor.holder, record.monitor.depth)
            }
            _ => (0, 0),
        }
    }

    /// The threads of a chain in order. At most as many as there are records, so that a ring of links ends too.
    pub fn chain(&self, object: u8, chain: Chain) -> impl Iterator<Item = u8> + '_ {
        let some = |thread: u8| (thread != 0).then_some(thread);
        let first = self.object(object).monitor.first(chain);
        std::iter::successors(some(first), move |thread| some(self.thread(*thread).next))
            .take(MAX_THREADS)
    }

    /// Puts a thread into a chain: at the end, but in the entry chain behind the last thread of its own rank or a higher one.
    pub fn join(&mut self, object: u8, chain: Chain, thread: u8) {
        let rank = self.thread(thread).rank;
        let goes_first = |other: &u8| chain != Chain::Entry || self.thread(*other).rank >= rank;
        let link = match self.chain(object, chain).filter(goes_first).last() {
            Some(before) => &mut self.thread_mut(before).next,
            None => self.object_mut(object).monitor.first_mut(chain),
        };
        let behind = std::mem::replace(link, thread);
        self.thread_mut(thread).next = behind;
    }

    /// Takes the first thread out of a chain.
    pub fn take_first(&mut self, object: u8, chain: Chain) -> Option<u8> {
        self.take_behind(object, chain, None)
    }

    /// Takes out of a chain the thread right behind another of it, or the first.
    fn take_behind(&mut self, object: u8, chain: Chain, before: Option<u8>) -> Option<u8> {
        let thread = match before {
            Some(before) => self.thread(before).next,
            None => self.object(object).monitor.first(chain),
        };
        if thread == 0 {
            return None;
        }
        let behind = std::mem::take(&mut self.thread_mut(thread).next);
        match before {
            Some(before) => self.thread_mut(before).next = behind,
            None => *self.object_mut(object).monitor.first_mut(chain) = behind,
        }
        Some(thread)
    }

    /// Takes the threads out of a chain that are picked; they come in their order, and the others keep theirs. Each record is picked or not just once.
    pub fn take_out(
        &mut self,
        object: u8,
        chain: Chain,
        picked: impl Fn(&mut ThreadRecord) -> bool,
    ) -> Vec<u8> {
        let (mut out, mut last_kept) = (Vec::new(), None);
        for thread in self.chain(object, chain).collect::<Vec<u8>>() {
            if picked(self.thread_mut(thread)) {
                self.take_behind(object, chain, last_kept);
                out.push(thread);
            } else {
                last_kept = Some(thread);
            }
        }
        out
    }

    /// Ends what the thread is at: all its fields are zero but what it was given with the fresh table. It must be in no chain.
    pub fn make_idle(&mut self, thread: u8) {
        let record = self.thread_mut(thread);
        *record = ThreadRecord {
            rank: record.rank,
            ..ThreadRecord::default()
        };
    }

    /// Parks a thread in the entry chain, with the phase it goes on with.
    pub fn queue(&mut self, object: u8, thread: u8, onward: Onward) {
        self.thread_mut(thread).phase = Phase::Queued(onward);
        self.join(object, Chain::Entry, thread);
    }

    /// Gives the monitor to the first thread queued for entry, and names it; to nobody where none is.
    pub fn hand(&mut self, object: u8) -> Option<u8> {
        let next = self.take_first(object, Chain::Entry);
        if let Some(thread) = next {
            let record = self.thread_mut(thread);
            if let Phase::Queued(onward) = record.phase {
                record.phase = onward.phase();
            }
        }
        let monitor = &mut self.object_mut(object).monitor;
        monitor.holder = next.unwrap_or(0);
        monitor.depth = 0;
        next
    }
}
