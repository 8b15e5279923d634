//! Events that aim at exits and waits which take six steps of their own, as request L5 has it: on the way their object loses its reservation, which it
//! does only once.

use crate::aim::{shuffle, Aim};
use crate::engine::Event;
use crate::random::Random;
use crate::table::{Operation, Phase, Table};

/// The owner of an object, and the thread that cancels its reservation.
pub const LEAST_THREADS: u8 = 2;
/// The longest limit of a timed wait.
const LONGEST: u64 = 2;
const CHOICES: [Operation; 3] = [Operation::Exit, Operation::Wait, Operation::TimedWait];

/// Events that aim once at each of the first so many objects. The table is fresh, with reserved words, and goes along; behind them nobody is at an
/// object, or owns one.
pub fn events(random: &mut Random, table: &mut Table, threads: &[u8], objects: u8) -> Vec<Event> {
    let mut aim = Aim::new(random, table, 1..=LONGEST);
    for object in 1..=objects {
        aim.object = object;
        aim.take_six(threads);
        aim.wind_down(threads);
    }
    aim.events
}

impl Aim<'_> {
    /// A wait cancels its own reservation and looks again: two steps more than on a flat word.
    fn take_six(&mut self, threads: &[u8]) {
        let mut threads = threads.to_vec();
        shuffle(self.random, &mut threads);
        let (owner, other) = (threads[0], threads[1]);
        self.go(owner, Operation::Enter, Phase::Idle);
        match self.random.pick(&CHOICES) {
            Operation::Exit => self.send_back(owner, other),
            wait => self.go(owner, wait, Phase::Waiting),
        }
    }

    /// An exit is about to store when the other thread cancels: it looks again, and must go in and tell that one, which is parked by then.
    fn send_back(&mut self, owner: u8, other: u8) {
        self.go(other, Operation::Enter, Phase::Cancel);
        self.go(owner, Operation::Exit, Phase::Store);
        self.step_to(other, Phase::Contending);
        self.step_to(owner, Phase::Idle);
    }
}
