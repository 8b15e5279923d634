//! Events that aim at a contender which an exit tells while others are queued for entry: of a higher rank it passes them.

use crate::aim::{shuffle, Aim};
use crate::engine::Event;
use crate::random::Random;
use crate::table::{Operation, Phase, Table};
use std::cmp::Reverse;

/// One thread leaves, one contends and one is queued.
pub const LEAST_THREADS: u8 = 3;
/// In percent, how often there are two contenders, of which only the first is told.
const TWO: u64 = 60;

/// Events that aim so many times, all at one object. No thread is at another object, or owns one; the table goes along.
pub fn events(
    random: &mut Random,
    table: &mut Table,
    threads: &[u8],
    object: u8,
    times: u64,
) -> Vec<Event> {
    let mut aim = Aim::new(random, table, 1..=1);
    aim.object = object;
    for _ in 0..times {
        aim.wind_down(threads);
        aim.tell_before_a_queue(threads);
    }
    aim.events
}

impl Aim<'_> {
    /// The highest rank contends, alone or before or behind another; the others are about to go in when the owner frees the word, and queue up before it
    /// tells.
    fn tell_before_a_queue(&mut self, threads: &[u8]) {
        let mut contenders = threads.to_vec();
        shuffle(self.random, &mut contenders);
        let owner = contenders.remove(0);
        contenders.sort_by_key(|thread| Reverse(self.table.thread(*thread).rank));
        let mut entrants = contenders.split_off(1);
        if entrants.len() > 1 && self.random.percent(TWO) {
            let last = entrants.len() as u64 - 1;
            contenders.push(entrants.remove(self.random.between(0, last) as usize));
            shuffle(self.random, &mut contenders);
        }
        self.go(owner, Operation::Enter, Phase::Idle);
        for contender in contenders {
            self.go(contender, Operation::Enter, Phase::Contending);
        }
        for entrant in &entrants {
            self.go(*entrant, Operation::Enter, Phase::GoIn);
        }
        self.go(owner, Operation::Exit, Phase::Tell);
        for entrant in entrants {
            self.step(entrant);
        }
        self.step(owner);
    }
}
