//! The second program's engine behind the questions that a picture asks, so that it can be drawn like the proved one.

use duskclamp as proved;
use duskclamp::{Blocker, Chain, LockWord, Refusal, ThreadSet, Words};
use reference::engine;
use reference::outcome::{Outcome, Returned};
use reference::table::{self, Given, Onward, Operation, Phase, Table};
use reference::word;
use schedule_view::engine::Engine;
use schedule_view::line::{Event, Header};
use schedule_view::ranks::Ranks;

/// The second program's table.
pub struct Second {
    table: Table,
}

impl Engine for Second {
    fn fresh(header: Header, ranks: &Ranks) -> Result<Second, Refusal> {
        let (threads, objects) = (narrow(header.threads), narrow(header.objects));
        let reserved = header.words == Words::Reserved;
        let mut given = Given::default();
        for (place, (_, rank)) in given.ranks.iter_mut().zip(ranks.given()) {
            *place = rank as u8;
        }
        let table = Table::fresh_given(threads, objects, reserved, &given);
        Ok(Second {
            table: table.map_err(refusal)?,
        })
    }

    fn apply(&mut self, event: Event) -> proved::Outcome {
        let event = match event {
            Event::Begin {
                thread,
                operation,
                object,
                limit,
            } => engine::Event::Begin {
                thread: narrow(thread),
                operation: operation.number(),
                object: narrow(object),
                limit,
            },
            Event::Step { thread } => engine::Event::Step {
                thread: narrow(thread),
            },
            Event::Tick => engine::Event::Tick,
        };
        outcome(engine::apply(&mut self.table, event))
    }

    fn thread(&self, number: u32) -> proved::Thread {
        let record = self.table.thread(number as u8);
        proved::Thread {
            number,
            operation: record.operation.and_then(operation),
            object: record.object.into(),
            phase: phase(record.phase),
            kept: record.kept_word,
            saved_depth: record.saved_depth.into(),
            next: record.next.into(),
            ticks: record.ticks.into(),
            rank: record.rank.into(),
        }
    }

    fn phase(&self, thread: u32) -> proved::Phase {
        phase(self.table.thread(thread as u8).phase)
    }

    fn object(&self, number: u32) -> proved::Object {
        let record = self.table.object(number as u8);
        let (owner, depth) = self.table.owner(number as u8);
        let monitor = &record.monitor;
        proved::Object {
            number,
            word: record.word,
            owner: owner.into(),
            depth: depth.into(),
            flag: record.contention_flag,
            holder: monitor.holder.into(),
            monitor_depth: monitor.depth.into(),
            entry: monitor.entry.into(),
            contention: monitor.contention.into(),
            waiting: monitor.waiting.into(),
        }
    }

    fn lock_word(&self, object: u32) -> LockWord {
        let (_, depth) = self.table.owner(object as u8);
        let depth = u32::from(depth);
        match word::LockWord::decode(self.table.object(object as u8).word) {
            None => LockWord::Invalid,
            Some(word::LockWord::Free) => LockWord::Free,
            Some(word::LockWord::Anonymous) => LockWord::Anonymous,
            Some(word::LockWord::Fat { .. }) => LockWord::Monitor,
            Some(word::LockWord::Flat { thread, .. }) => LockWord::Flat {
                thread: thread.into(),
                depth,
            },
            Some(word::LockWord::Reserved { thread, .. }) => LockWord::Reserved {
                thread: thread.into(),
                depth,
            },
        }
    }

    fn chain(&self, object: u32, chain: Chain) -> Vec<u32> {
        let chain = match chain {
            Chain::Entry => table::Chain::Entry,
            Chain::Contention => table::Chain::Contention,
            Chain::Waiting => table::Chain::Waiting,
        };
        self.table
            .chain(object as u8, chain)
            .map(u32::from)
            .collect()
    }

    fn blocker(&self, thread: u32) -> Option<Blocker> {
        let record = self.table.thread(thread as u8);
        if !record.phase.is_parked_for_entry() {
            return None;
        }
        let other = |number: u32| number != 0 && number != thread;
        let enters = record.operation != Some(Operation::Exit);
        let (owner, _) = self.table.owner(record.object);
        let holder = self.table.object(record.object).monitor.holder;
        match (owner.into(), holder.into()) {
            (owner, _) if enters && other(owner) => Some(Blocker::Owner(owner)),
            (_, holder) if other(holder) => Some(Blocker::Holder(holder)),
            _ => None,
        }
    }
}

/// The numbers of a line fit; what does not is that of nothing, as the largest is.
fn narrow(number: u32) -> u16 {
    u16::try_from(number).unwrap_or(u16::MAX)
}

fn operation(operation: Operation) -> Option<proved::Operation> {
    proved::Operation::from_number(operation.number().into())
}

fn refusal(returned: Returned) -> Refusal {
    let number = returned.number();
    let found = Refusal::ALL
        .into_iter()
        .find(|refusal| refusal.number() == number);
    found.unwrap_or_else(|| unreachable!("the second program returned {number}"))
}

fn outcome(outcome: Outcome) -> proved::Outcome {
    proved::Outcome {
        result: match outcome.returned {
            Returned::GoneOn => Ok(proved::Answer::GoneOn),
            Returned::Finished => Ok(proved::Answer::Finished {
                woken: outcome.woken,
            }),
            Returned::Parked => Ok(proved::Answer::Parked),
            returned => Err(refusal(returned)),
        },
        commits: outcome.committed,
        unparked: ThreadSet::from_bits(outcome.unparked.bits()),
    }
}

fn phase(phase: Phase) -> proved::Phase {
    match phase {
        Phase::Idle => proved::Phase::Idle,
        Phase::Look => proved::Phase::Look,
        Phase::Store => proved::Phase::Store,
        Phase::Cancel => proved::Phase::Cancel,
        Phase::GoIn => proved::Phase::GoIn,
        Phase::Queued(carried) => proved::Phase::Queued(onward(carried)),
        Phase::Check => proved::Phase::Check,
        Phase::Try => proved::Phase::Try,
        Phase::Contending => proved::Phase::Contending,
        Phase::Test => proved::Phase::Test,
        Phase::Tell => proved::Phase::Tell,
        Phase::Leave => proved::Phase::Leave,
        Phase::Inflate => proved::Phase::Inflate,
        Phase::Wait => proved::Phase::GiveUp,
        Phase::Waiting => proved::Phase::Waiting,
        Phase::Resume => proved::Phase::Resume,
    }
}

fn onward(onward: Onward) -> proved::Onward {
    match onward {
        Onward::Check => proved::Onward::Check,
        Onward::Tell => proved::Onward::Tell,
        Onward::Inflate => proved::Onward::Inflate,
        Onward::Resume => proved::Onward::Resume,
    }
}
