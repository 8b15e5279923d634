//! Request L8's order, from the tables around each event alone: when each thread joined the chain it is in, that an entry chain goes by falling rank and
//! then by that time, and the other two by time; that contenders are moved from the front; and that no thread gets a monitor while one that goes before
//! it is queued there. It knows no rule.

use crate::engine::Event;
use crate::met::{Met, Rare};
use crate::table::{Chain, Phase, Table, MAX_THREADS};

#[derive(Clone, Debug)]
pub struct ChainOrder {
    /// When each thread last joined a chain, in joins of all; 0 where it never did.
    joined: [u64; MAX_THREADS],
    joins: u64,
}

impl ChainOrder {
    /// Begins with any sound table: whoever is in a chain has joined in its order.
    pub fn new(table: &Table) -> ChainOrder {
        let mut order = ChainOrder {
            joined: [0; MAX_THREADS],
            joins: 0,
        };
        for (object, chain) in chains(table) {
            for thread in table.chain(object, chain) {
                order.join(thread);
            }
        }
        order
    }

    /// Takes the tables around an event. Notes the threads that passed somebody in an entry chain.
    pub fn feed(
        &mut self,
        before: &Table,
        after: &Table,
        event: Event,
        met: &mut Met,
    ) -> Result<(), String> {
        check_ranks(before, after)?;
        let joiners = joiners(before, after);
        for (thread, _) in &joiners {
            self.join(*thread);
        }
        for (thread, _) in joiners.iter().filter(|(_, chain)| *chain == Chain::Entry) {
            let way = way(before, event).ok_or(format!("thread {thread} joined by {event:?}"))?;
            met.add(way, self.has_passed(after, *thread).into());
        }
        for (object, chain) in chains(after) {
            self.check_chain(after, object, chain)?;
            match chain {
                Chain::Entry => self.check_holder(before, after, object)?,
                Chain::Contention => check_contenders(before, after, object)?,
                Chain::Waiting => {}
            }
        }
        Ok(())
    }

    fn join(&mut self, thread: u8) {
        self.joins += 1;
        self.joined[usize::from(thread) - 1] = self.joins;
    }

    fn joined(&self, thread: u8) -> u64 {
        self.joined[usize::from(thread) - 1]
    }

    /// In an entry chain a higher rank goes first. Of two with the same one, and in the other chains, it is who joined earlier.
    fn goes_before(&self, table: &Table, chain: Chain, thread: u8, other: u8) -> bool {
        let (rank, other_rank) = match chain {
            Chain::Entry => (table.thread(thread).rank, table.thread(other).rank),
            _ => (0, 0),
        };
        rank > other_rank || (rank == other_rank && self.joined(thread) < self.joined(other))
    }

    /// Whether a thread that has just joined an entry chain goes before one that was there.
    fn has_passed(&self, after: &Table, thread: u8) -> bool {
        let is_passed = |other: u8| {
            self.joined(other) < self.joined(thread)
                && self.goes_before(after, Chain::Entry, thread, other)
        };
        let mut queued = after.chain(after.thread(thread).object, Chain::Entry);
        queued.any(is_passed)
    }

    fn check_chain(&self, after: &Table, object: u8, chain: Chain) -> Result<(), String> {
        let threads: Vec<u8> = after.chain(object, chain).collect();
        match threads.is_sorted_by(|one, other| self.goes_before(after, chain, *one, *other)) {
            true => Ok(()),
            false => Err(format!("object {object}: chain {chain:?} is {threads:?}")),
        }
    }

    /// Where the monitor has another holder than before, that one was parked, and goes before all that are still queued.
    fn check_holder(&self, before: &Table, after: &Table, object: u8) -> Result<(), String> {
        let holder = after.object(object).monitor.holder;
        if holder == 0 || holder == before.object(object).monitor.holder {
            return Ok(());
        }
        let goes_first = |queued: &u8| {
            before.thread(holder).phase.is_parked()
                && self.goes_before(after, Chain::Entry, holder, *queued)
        };
        let mut queued = after.chain(object, Chain::Entry);
        match queued.find(|thread| !goes_first(thread)) {
            None => Ok(()),
            Some(thread) => Err(format!(
                "object {object}: thread {holder} gets the monitor before thread {thread}"
            )),
        }
    }
}

/// No contender is moved before one that joined earlier, of whatever rank. Of waiters the plain monitors say so.
fn check_contenders(before: &Table, after: &Table, object: u8) -> Result<(), String> {
    let first = after.object(object).monitor.contention;
    let mut behind = before
        .chain(object, Chain::Contention)
        .skip_while(|thread| *thread != first);
    match behind.find(|thread| after.thread(*thread).phase != Phase::Contending) {
        None => Ok(()),
        Some(thread) => Err(format!(
            "object {object}: contender {thread} is moved before thread {first}"
        )),
    }
}

/// The chains with somebody in them, and their objects.
fn chains(table: &Table) -> impl Iterator<Item = (u8, Chain)> + '_ {
    (1..=table.objects)
        .flat_map(|object| Chain::ALL.map(|chain| (object, chain)))
        .filter(|(object, chain)| table.object(*object).monitor.first(*chain) != 0)
}

/// What a table was given stays, whatever the event.
fn check_ranks(before: &Table, after: &Table) -> Result<(), String> {
    let ranks = |table: &Table| table.thread_records.map(|record| record.rank);
    match (ranks(before), ranks(after)) {
        (old, new) if old == new => Ok(()),
        (old, new) => Err(format!("the ranks were {old:?}, and are {new:?}")),
    }
}

/// The threads that joined a chain, and which. Those that an event moves join in the order of the chain that they were in.
fn joiners(before: &Table, after: &Table) -> Vec<(u8, Chain)> {
    let joined = |thread: u8| Some((thread, joined_chain(before, after, thread)?));
    let mut joiners: Vec<(u8, Chain)> = (1..=after.threads).filter_map(joined).collect();
    joiners.sort_by_key(|(thread, _)| place(before, *thread));
    joiners
}

/// The chain that a thread has joined. One that a tick has moved may have left the entry chain again, as the first to be handed the monitor.
fn joined_chain(before: &Table, after: &Table, thread: u8) -> Option<Chain> {
    let (old, new) = (before.thread(thread).phase, after.thread(thread).phase);
    match (old, new) {
        (Phase::Waiting, Phase::Resume) => Some(Chain::Entry),
        _ if old.chain() == new.chain() => None,
        _ => new.chain(),
    }
}

/// Where a thread stands in its chain, from 0; nothing where it is in none.
fn place(table: &Table, thread: u8) -> Option<usize> {
    let record = table.thread(thread);
    let mut chain = table.chain(record.object, record.phase.chain()?);
    chain.position(|other| other == thread)
}

/// The way in which threads join an entry chain by an event; nothing where none do.
fn way(before: &Table, event: Event) -> Option<Rare> {
    match event {
        Event::Tick => Some(Rare::PassedRunOut),
        Event::Begin { .. } => None,
        Event::Step { thread } => match before.thread(thread as u8).phase {
            Phase::Look => Some(Rare::PassedNotified),
            Phase::GoIn => Some(Rare::PassedGoingIn),
            Phase::Check | Phase::Try | Phase::Inflate => Some(Rare::PassedInflated),
            Phase::Tell => Some(Rare::PassedTold),
            _ => None,
        },
    }
}
