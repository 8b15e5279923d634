//! Brings threads to the phases that an aim wants them in, and notes the events that do so.

use crate::engine::{apply, Event};
use crate::random::Random;
use crate::table::{Chain, Operation, Phase, Table};
use std::ops::RangeInclusive;

pub struct Aim<'a> {
    pub random: &'a mut Random,
    pub table: &'a mut Table,
    /// The object of what is begun, and what limits timed waits have.
    pub object: u8,
    pub limits: RangeInclusive<u64>,
    pub events: Vec<Event>,
    /// An event was refused, which only a wrong engine does; what waits for a phase would wait for ever.
    pub stuck: bool,
}

impl<'a> Aim<'a> {
    /// With no object yet.
    pub fn new(
        random: &'a mut Random,
        table: &'a mut Table,
        limits: RangeInclusive<u64>,
    ) -> Aim<'a> {
        Aim {
            random,
            table,
            object: 0,
            limits,
            events: Vec::new(),
            stuck: false,
        }
    }

    /// Begins an operation and steps until it comes to the phase.
    pub fn go(&mut self, thread: u8, operation: Operation, phase: Phase) {
        self.begin(thread, operation);
        self.step_to(thread, phase);
    }

    pub fn step_to(&mut self, thread: u8, phase: Phase) {
        while self.table.thread(thread).phase != phase && !self.stuck {
            self.step(thread);
        }
    }

    pub fn begin(&mut self, thread: u8, operation: Operation) {
        let limit = match operation {
            Operation::TimedWait => self
                .random
                .between(*self.limits.start(), *self.limits.end()),
            _ => 0,
        };
        self.push(Event::begin(thread, operation, self.object, limit as u16));
    }

    pub fn step(&mut self, thread: u8) {
        self.push(Event::step(thread));
    }

    /// A step of a thread that is idle, which is refused and alters nothing.
    pub fn step_in_vain(&mut self, thread: u8) {
        self.events.push(Event::step(thread));
    }

    pub fn push(&mut self, event: Event) {
        self.stuck |= apply(self.table, event).returned.is_refusal();
        self.events.push(event);
    }

    /// Lets everybody finish, in any order, until nobody owns the object or is at it.
    pub fn wind_down(&mut self, threads: &[u8]) {
        while let Some(thread) = self.next_to_finish(threads) {
            let owns = self.table.owner(self.object).0 == thread;
            match self.table.thread(thread).phase {
                Phase::Idle if !owns => self.begin(thread, Operation::Enter),
                Phase::Idle if self.some_wait() => self.begin(thread, Operation::NotifyAll),
                Phase::Idle => self.begin(thread, Operation::Exit),
                _ => self.step(thread),
            }
        }
    }

    /// One that is at the object and not parked, or owns it; else an idle one where others wait to be woken.
    fn next_to_finish(&mut self, threads: &[u8]) -> Option<u8> {
        let owner = self.table.owner(self.object).0;
        let phase = |thread: u8| self.table.thread(thread).phase;
        let all = threads.iter().copied();
        let goes_on = all.clone().filter(|&thread| match phase(thread) {
            Phase::Idle => thread == owner,
            phase => !phase.is_parked(),
        });
        let going_on: Vec<u8> = goes_on.collect();
        if self.stuck {
            None
        } else if !going_on.is_empty() {
            Some(self.random.pick(&going_on))
        } else if self.some_wait() {
            all.clone().find(|&thread| phase(thread) == Phase::Idle)
        } else {
            None
        }
    }

    fn some_wait(&self) -> bool {
        self.table.chain(self.object, Chain::Waiting).count() > 0
    }
}

pub fn shuffle(random: &mut Random, numbers: &mut [u8]) {
    for last in (1..numbers.len()).rev() {
        numbers.swap(last, random.between(0, last as u64) as usize);
    }
}
