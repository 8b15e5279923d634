//! Runs a schedule through the engine and holds every event to demands 1 and 3, as the requests amend them.

use crate::chain_order::ChainOrder;
use crate::engine::{apply, Event};
use crate::exits::{check_parked, let_out};
use crate::given::read_given;
use crate::met::Met;
use crate::outcome::{Outcome, Returned};
use crate::own_steps::{phases, OwnSteps};
use crate::plain::PlainMonitors;
use crate::replay::{open_given, Line};
use crate::run_queue::CheckedQueue;
use crate::sound::is_sound;
use crate::table::Table;
use crate::unparked::check_unparked;

/// A run of the engine with the plain monitors, an interpreter's run queue, the count of own steps and the order of chains beside it.
pub struct Checked {
    pub table: Table,
    pub plain: PlainMonitors,
    pub queue: CheckedQueue,
    pub own_steps: OwnSteps,
    pub chain_order: ChainOrder,
    pub met: Met,
}

/// Describes the first event at which a demand does not hold; else gives what was met. A schedule without a good header has no events; one with ranks
/// behind its header has a table with these.
pub fn check_schedule(input: &[u8]) -> Result<Met, String> {
    let Some((table, lines)) = open_given(input, &read_given(input)) else {
        return Ok(Met::default());
    };
    let mut run = Checked::new(table);
    for (place, line) in lines.enumerate() {
        if let Some(Line::Event(event)) = line {
            run.event(event)
                .map_err(|wrong| format!("event on line {}: {wrong}", place + 2))?;
        }
    }
    Ok(run.met)
}

impl Checked {
    /// Begins with a fresh table.
    pub fn new(table: Table) -> Checked {
        Checked {
            plain: PlainMonitors::new(table.objects),
            chain_order: ChainOrder::new(&table),
            table,
            queue: CheckedQueue::default(),
            own_steps: OwnSteps::default(),
            met: Met::default(),
        }
    }

    /// Applies one event to the table and to the plain monitors, and checks all that must hold after it.
    pub fn event(&mut self, event: Event) -> Result<Outcome, String> {
        let before = self.table.clone();
        let outcome = apply(&mut self.table, event);
        check_refusal(&before, &self.table, event, outcome.returned)?;
        check_unparked(&before, &self.table, outcome)?;
        self.plain.feed(event, outcome)?;
        if !outcome.returned.is_refusal() {
            self.met.note(&before, &self.table, event, outcome)?;
        }
        let let_out = let_out(&before, &self.table, event);
        for thread in &let_out {
            self.plain.ended_by_another(*thread)?;
        }
        check_table(&self.table, &self.plain)?;
        self.queue.feed(event, outcome, &let_out, &mut self.met);
        self.queue.check(&self.table)?;
        self.count_own_steps(&before, event, outcome.returned)?;
        self.chain_order
            .feed(&before, &self.table, event, &mut self.met)?;
        Ok(outcome)
    }

    fn count_own_steps(
        &mut self,
        before: &Table,
        event: Event,
        returned: Returned,
    ) -> Result<(), String> {
        let (before, after) = (phases(before), phases(&self.table));
        self.own_steps
            .feed(event, returned, &before, &after, &mut self.met);
        self.own_steps.check(&after)
    }
}

/// What holds of a table after every event from a fresh one, with the plain monitors that were fed the same events.
pub fn check_table(table: &Table, plain: &PlainMonitors) -> Result<(), String> {
    if !is_sound(table) {
        return Err("the table after it is not sound".to_string());
    }
    plain.compare(table)?;
    check_parked(table)
}

/// A refused event gives the table back unchanged, save that no owner and too deep make the thread idle.
fn check_refusal(
    before: &Table,
    after: &Table,
    event: Event,
    returned: Returned,
) -> Result<(), String> {
    if !returned.is_refusal() {
        return Ok(());
    }
    let mut expected = before.clone();
    let ended = matches!(returned, Returned::NotOwner | Returned::TooDeep);
    if let (true, Event::Step { thread }) = (ended, event) {
        expected.make_idle(thread as u8);
    }
    if expected != *after {
        let number = returned.number();
        return Err(format!("refused with {number}, but the table is changed"));
    }
    Ok(())
}
