//! Events that aim at ticks which hand the monitors of several objects at once.

use crate::aim::{shuffle, Aim};
use crate::engine::Event;
use crate::random::Random;
use crate::table::{Operation, Phase, Table};

/// The least number of threads, and of objects.
pub const LEAST: u8 = 2;
const MOST_OBJECTS: usize = 6;
/// The longest limit, and in percent how often a wait has the one that most have.
const LONGEST: u64 = 4;
const TOGETHER: u64 = 80;
/// In percent, how often a thread that comes to an object behind another waits there too. Else it owns the object, and no tick hands its monitor.
const WAITS_TOO: u64 = 60;

/// Events that aim so many times. At most one object is in use before, and only by these threads; the table goes along.
pub fn events(random: &mut Random, table: &mut Table, threads: &[u8], times: u64) -> Vec<Event> {
    let mut aim = Aim::new(random, table, 1..=LONGEST);
    for _ in 0..times {
        for object in 1..=aim.table.objects {
            aim.object = object;
            aim.wind_down(threads);
        }
        aim.run_out_together(threads);
    }
    aim.events
}

impl Aim<'_> {
    /// One or two threads come to each of some objects. Those that wait have mostly the same limit, and ticks follow until all have run out.
    fn run_out_together(&mut self, threads: &[u8]) {
        let mut threads = threads.to_vec();
        shuffle(self.random, &mut threads);
        let mut objects: Vec<u8> = (1..=self.table.objects).collect();
        shuffle(self.random, &mut objects);
        let most = threads.len().min(objects.len()).min(MOST_OBJECTS);
        objects.truncate(self.random.between(LEAST.into(), most as u64) as usize);
        let most = threads.len().min(2 * objects.len());
        threads.truncate(self.random.between(objects.len() as u64, most as u64) as usize);
        let due = self.random.between(1, LONGEST);
        for (place, thread) in threads.into_iter().enumerate() {
            self.object = objects[place % objects.len()];
            self.limits = match self.random.percent(TOGETHER) {
                true => due..=due,
                false => 1..=LONGEST,
            };
            self.come(thread, place < objects.len());
        }
        for _ in 0..LONGEST {
            self.push(Event::Tick);
        }
    }

    /// The first thread at an object waits there, and so do most that come second. Behind an owner they queue up.
    fn come(&mut self, thread: u8, first: bool) {
        if self.table.owner(self.object).0 != 0 {
            self.go(thread, Operation::Enter, Phase::GoIn);
            return self.step(thread);
        }
        self.go(thread, Operation::Enter, Phase::Idle);
        if first || self.random.percent(WAITS_TOO) {
            self.go(thread, Operation::TimedWait, Phase::Waiting);
        }
    }
}
