//! Events that aim at exits which end without going in, as request L2 has it: they have freed the word, and another thread inflates before they go in.

use crate::aim::{shuffle, Aim};
use crate::engine::Event;
use crate::random::Random;
use crate::table::{Operation, Phase, Table};
use crate::word::MAX_COUNT;
use std::ops::RangeInclusive;

/// One thread inflates, one contends and one leaves.
pub const LEAST_THREADS: u8 = 3;
/// Where the one inflates.
const PLACES: [Phase; 3] = [Phase::Check, Phase::Try, Phase::Inflate];
/// In percent, how often a thread that is about to go in gets to the entry chain before the inflating step.
const QUEUED: u64 = 80;
/// In percent, how often a leaver goes on right behind the inflating step. Else it does later, when the monitor may be another's or nobody's.
const AT_ONCE: u64 = 50;
/// In percent, how often a leaver that was let out takes a step, which is refused, before it goes on.
const STEPPED: u64 = 30;
const LIMITS: RangeInclusive<u64> = 1..=6;

/// The threads of one aim.
struct Cast {
    inflater: u8,
    /// They wait for the word's owner to tell them, so that the flag is up.
    contenders: Vec<u8>,
    /// Inside an exit each, one behind the other.
    leavers: Vec<u8>,
    /// Queued for entry among the leavers.
    entrants: Vec<u8>,
}

impl Cast {
    fn draw(random: &mut Random, threads: &[u8]) -> Cast {
        let mut threads = threads.to_vec();
        shuffle(random, &mut threads);
        let inflater = threads.remove(0);
        let others = threads.len() as u64;
        let contenders = random.between(1, others.div_ceil(4)) as usize;
        let most = others - contenders as u64;
        // Rather many, so that several are let out at once.
        let leavers = random.between(1, most).max(random.between(1, most)) as usize;
        let entrants = threads.split_off(contenders + leavers);
        Cast {
            inflater,
            leavers: threads.split_off(contenders),
            contenders: threads,
            entrants,
        }
    }
}

/// Events that aim so many times, all at one object. No thread is at another object, or owns one; the table goes along.
pub fn events(
    random: &mut Random,
    table: &mut Table,
    threads: &[u8],
    object: u8,
    times: u64,
) -> Vec<Event> {
    let mut aim = Aim::new(random, table, LIMITS);
    aim.object = object;
    for _ in 0..times {
        aim.wind_down(threads);
        let cast = Cast::draw(aim.random, threads);
        aim.let_out(&cast);
    }
    aim.events
}

impl Aim<'_> {
    fn let_out(&mut self, cast: &Cast) {
        let place = self.random.pick(&PLACES);
        self.gather(cast);
        if place == Phase::Try {
            self.go(cast.inflater, Operation::Enter, Phase::Try);
        }
        for leaver in &cast.leavers {
            if self.table.owner(self.object).0 == 0 {
                self.go(*leaver, Operation::Enter, Phase::Idle);
            }
            let phase = self.random.pick(&[Phase::GoIn, Phase::GoIn, Phase::Test]);
            self.go(*leaver, Operation::Exit, phase);
        }
        match place {
            Phase::Check => self.nest_to_check(cast.inflater),
            Phase::Inflate => self.own_to_inflate(cast.inflater),
            _ => {}
        }
        self.queue(cast);
        self.step(cast.inflater);
        self.go_on(cast);
    }

    /// The first leaver owns the word, with contenders, and entrants about to go in.
    fn gather(&mut self, cast: &Cast) {
        self.go(cast.leavers[0], Operation::Enter, Phase::Idle);
        for pair in cast.contenders.chunks(2) {
            self.contend(pair);
        }
        for entrant in &cast.entrants {
            self.go(*entrant, Operation::Enter, Phase::GoIn);
        }
    }

    /// A second contender queues up behind the first, and is handed the monitor when that one parks.
    fn contend(&mut self, pair: &[u8]) {
        self.go(pair[0], Operation::Enter, Phase::Check);
        for second in &pair[1..] {
            self.go(*second, Operation::Enter, Phase::GoIn);
            self.step(*second);
        }
        for contender in pair {
            self.step_to(*contender, Phase::Contending);
        }
    }

    /// To the end of a flat word's count, and into the monitor with one enter more.
    fn nest_to_check(&mut self, thread: u8) {
        for _ in 0..=MAX_COUNT {
            self.go(thread, Operation::Enter, Phase::Idle);
        }
        self.go(thread, Operation::Enter, Phase::Check);
    }

    fn own_to_inflate(&mut self, thread: u8) {
        self.go(thread, Operation::Enter, Phase::Idle);
        let wait = self.random.pick(&[Operation::Wait, Operation::TimedWait]);
        self.go(thread, wait, Phase::Inflate);
    }

    /// Leavers and entrants go up to the entry chain, most of them and in any order.
    fn queue(&mut self, cast: &Cast) {
        let mut threads = [&cast.leavers[..], &cast.entrants].concat();
        shuffle(self.random, &mut threads);
        for thread in threads {
            if self.random.percent(QUEUED) {
                self.step(thread);
            }
        }
    }

    /// Leavers that were not let out find the flag down, and those that were begin again, some of them behind a step that is refused.
    fn go_on(&mut self, cast: &Cast) {
        for leaver in &cast.leavers {
            let is_let_out = self.table.thread(*leaver).phase == Phase::Idle;
            if is_let_out && self.random.percent(STEPPED) {
                self.step_in_vain(*leaver);
            }
            if !self.random.percent(AT_ONCE) {
                continue;
            }
            match is_let_out {
                true => self.go(*leaver, Operation::Enter, Phase::GoIn),
                false => self.step(*leaver),
            }
        }
    }
}
