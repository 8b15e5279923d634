//! Who passes whom on the way into a monitor, from the chains before and after an event.

use crate::engine::Engine;
use crate::run::Run;
use duskclamp::{Chain, Phase, ThreadSet};

/// A thread that joined an entry chain ahead of threads that had come before it.
#[derive(Clone, Debug, PartialEq, Eq)]
pub struct Passing {
    pub thread: u32,
    /// As they stand behind it.
    pub others: Vec<u32>,
}

/// The threads at an object before an event.
pub struct Arrivals {
    object: u32,
    /// In the order in which they came: those of the entry chain, those of the other two, and last the thread whose event it is.
    came: Vec<u32>,
}

impl Arrivals {
    /// Before an event of the thread, or of nobody.
    pub fn before(engine: &impl Engine, object: u32, actor: Option<u32>) -> Arrivals {
        let chains = [Chain::Entry, Chain::Contention, Chain::Waiting];
        let parked = chains.map(|chain| engine.chain(object, chain));
        let came = parked.into_iter().flatten().chain(actor).collect();
        Arrivals { object, came }
    }

    /// Who passed whom, after the event has unparked these.
    pub fn passings<E: Engine>(&self, run: &Run<E>, unparked: ThreadSet) -> Vec<Passing> {
        // Who was handed the monitor was first in the chain; who was let out is in no order any more.
        let handed = |thread: &u32| {
            let seen = run.state().thread(*thread);
            seen.is_some_and(|seen| seen.phase != Phase::Idle)
        };
        let mut order: Vec<u32> = unparked.iter().filter(handed).collect();
        order.extend(run.engine().chain(self.object, Chain::Entry));
        let passing = |place: usize| self.passing(order[place], &order[place + 1..]);
        (0..order.len()).filter_map(passing).collect()
    }

    /// Whom the thread passed, of those that are behind it now.
    fn passing(&self, thread: u32, behind: &[u32]) -> Option<Passing> {
        let place = |thread: u32| self.came.iter().position(|came| *came == thread);
        let own = place(thread)?;
        let earlier = |other: &u32| place(*other).is_some_and(|place| place < own);
        let others: Vec<u32> = behind.iter().copied().filter(earlier).collect();
        (!others.is_empty()).then_some(Passing { thread, others })
    }
}
