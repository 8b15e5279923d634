//! The lock engine: begin, single step and tick, refusals in document 01's order and the phases in the order of its steps, as the requests amend them.

use crate::outcome::{Outcome, Returned};
use crate::sound::is_sound;
use crate::table::{Chain, Monitor, ObjectRecord, Onward, Operation, Phase, Table, ThreadRecord};
use crate::table::{MAX_DEPTH, MAX_LIMIT};
use crate::thread_set::ThreadSet;
use crate::word::{LockWord, MAX_COUNT};

/// What the interpreter asks for. The numbers are as given and may be out of range.
#[derive(Clone, Copy, Debug, PartialEq, Eq)]
pub enum Event {
    Begin {
        thread: u16,
        operation: u8,
        object: u16,
        /// Of a timed wait, in ticks. No other operation looks at it.
        limit: u32,
    },
    Step {
        thread: u16,
    },
    /// One tick of the clock.
    Tick,
}

impl Event {
    /// A begin; the limit is looked at where the operation is a timed wait.
    pub fn begin(thread: u8, operation: Operation, object: u8, limit: u16) -> Event {
        Event::Begin {
            thread: u16::from(thread),
            operation: operation.number(),
            object: u16::from(object),
            limit: u32::from(limit),
        }
    }

    pub fn step(thread: u8) -> Event {
        Event::Step {
            thread: u16::from(thread),
        }
    }
}

pub fn apply(table: &mut Table, event: Event) -> Outcome {
    match event {
        Event::Begin {
            thread,
            operation,
            object,
            limit,
        } => begin(table, thread, operation, object, limit),
        Event::Step { thread } => step(table, thread),
        Event::Tick => tick(table),
    }
}

/// The feature `untested` leaves the test out: right on sound tables alone, and for benchmarks alone.
fn is_worked_on(table: &Table) -> bool {
    cfg!(feature = "untested") || is_sound(table)
}

pub fn begin(table: &mut Table, thread: u16, operation: u8, object: u16, limit: u32) -> Outcome {
    if !is_worked_on(table) {
        return Outcome::of(Returned::NotSound);
    }
    let Some(thread) = table.thread_number(thread) else {
        return Outcome::of(Returned::NoSuchThread);
    };
    let Some(operation) = Operation::from_number(operation) else {
        return Outcome::of(Returned::NoSuchOperation);
    };
    let Some(object) = table.object_number(object) else {
        return Outcome::of(Returned::NoSuchObject);
    };
    let record = table.thread_mut(thread);
    if record.phase != Phase::Idle {
        return Outcome::of(Returned::ThreadBusy);
    }
    let Some(ticks) = ticks_of(operation, limit) else {
        return Outcome::of(Returned::LimitOutOfRange);
    };
    record.operation = Some(operation);
    record.object = object;
    record.phase = Phase::Look;
    record.ticks = ticks;
    Outcome::of(Returned::GoneOn)
}

/// The ticks that an operation begins with; nothing where a timed wait has a limit that there is not.
fn ticks_of(operation: Operation, limit: u32) -> Option<u16> {
    match operation {
        Operation::TimedWait => (1..=u32::from(MAX_LIMIT))
            .contains(&limit)
            .then_some(limit as u16),
        _ => Some(0),
    }
}

pub fn step(table: &mut Table, thread: u16) -> Outcome {
    if !is_worked_on(table) {
        return Outcome::of(Returned::NotSound);
    }
    let Some(thread) = table.thread_number(thread) else {
        return Outcome::of(Returned::NoSuchThread);
    };
    let record = *table.thread(thread);
    // A sound table has an operation for every thread but the idle.
    let Some(operation) = record.operation else {
        return Outcome::of(Returned::ThreadIdle);
    };
    if record.phase.is_parked() {
        return Outcome::of(Returned::ThreadParked);
    }
    let mut turn = Turn {
        table,
        thread,
        operation,
        object: record.object,
    };
    turn.run(record.phase)
}

/// Every timed thread that waits loses one; those at zero queue up for 15, and a monitor that nobody holds is then handed.
pub fn tick(table: &mut Table) -> Outcome {
    if !is_worked_on(table) {
        return Outcome::of(Returned::NotSound);
    }
    let mut unparked = ThreadSet::default();
    for object in 1..=table.objects {
        tick_waiting(table, object);
        if table.object(object).monitor.holder == 0 {
            unparked.extend(table.hand(object));
        }
    }
    Outcome::of(Returned::GoneOn).unparking(unparked)
}

fn tick_waiting(table: &mut Table, object: u8) {
    let run_out = table.take_out(object, Chain::Waiting, |record| {
        if record.operation == Some(Operation::TimedWait) {
            record.ticks -= 1;
        }
        record.has_run_out()
    });
    for thread in run_out {
        table.queue(object, thread, Onward::Resume);
    }
}

/// One step of one thread: its number, and the operation and object it is at.
struct Turn<'a> {
    table: &'a mut Table,
    thread: u8,
    operation: Operation,
    object: u8,
}

impl Turn<'_> {
    fn run(&mut self, phase: Phase) -> Outcome {
        if needs_holder(phase) && self.monitor().holder != self.thread {
            return no_rule();
        }
        match phase {
            Phase::Look if self.operation == Operation::Enter => self.look_enter(),
            Phase::Look => self.look_as_owner(),
            Phase::Store => self.store(),
            Phase::Cancel => self.cancel(),
            Phase::GoIn => self.go_in(),
            Phase::Check => self.check(),
            Phase::Try => self.try_again(),
            Phase::Test => self.test(),
            Phase::Tell => self.tell(),
            Phase::Leave => self.leave(),
            Phase::Inflate => self.inflate_to_wait(),
            Phase::Wait => self.wait(),
            Phase::Resume => self.resume(),
            Phase::Idle | Phase::Queued(_) | Phase::Contending | Phase::Waiting => no_rule(),
        }
    }

    // 1 look

    fn look_enter(&mut self) -> Outcome {
        match self.word() {
            LockWord::Free => self.write_and_finish(self.flat(0)),
            LockWord::Flat { thread, count } if self.is_own(thread) && count < MAX_COUNT => {
                self.write_and_finish(self.flat(count + 1))
            }
            LockWord::Anonymous => self.write_and_finish(self.reserved(1)),
            LockWord::Reserved { thread, count } if self.is_own(thread) && count < MAX_COUNT => {
                self.keep_word()
            }
            LockWord::Reserved { .. } => self.go_on(Phase::Cancel),
            LockWord::Flat { .. } | LockWord::Fat { .. } => self.go_on(Phase::GoIn),
        }
    }

    fn look_as_owner(&mut self) -> Outcome {
        let (owner, _) = self.table.owner(self.object);
        if owner != self.thread {
            return self.end(Returned::NotOwner, 0).committing();
        }
        match self.operation {
            Operation::Exit => self.look_exit(),
            Operation::Wait | Operation::TimedWait => match self.word() {
                LockWord::Fat { .. } => self.go_on(Phase::Wait),
                LockWord::Reserved { .. } => self.go_on(Phase::Cancel),
                _ => self.go_on(Phase::GoIn),
            },
            _ => self.look_notify(),
        }
    }

    fn look_exit(&mut self) -> Outcome {
        match self.word() {
            LockWord::Flat { count: 0, .. } => {
                self.write(LockWord::Free);
                self.go_on(Phase::Test).committing()
            }
            LockWord::Flat { count, .. } => self.write_and_finish(self.flat(count - 1)),
            LockWord::Reserved { .. } => self.keep_word(),
            _ => self.look_exit_monitor(),
        }
    }

    fn look_exit_monitor(&mut self) -> Outcome {
        let monitor = self.monitor();
        monitor.depth -= 1;
        if monitor.depth > 0 {
            return self.finish().committing();
        }
        // The holder stays until it leaves; only the word may go back to free here.
        if monitor.chains_empty() {
            self.write(LockWord::Free);
        }
        self.go_on(Phase::Leave).committing()
    }

    fn look_notify(&mut self) -> Outcome {
        let mut woken = 0;
        if let LockWord::Fat { .. } = self.word() {
            let most = match self.operation {
                Operation::Notify => 1,
                _ => self.table.threads,
            };
            while woken < most && self.move_first(Chain::Waiting, Onward::Resume) {
                woken += 1;
            }
        }
        self.end(Returned::Finished, woken).committing()
    }

    // 2 store

    /// Writes the kept word, whatever the word is by now: cancelling must have sent this thread back.
    fn store(&mut self) -> Outcome {
        let kept = LockWord::decode(self.record().kept_word);
        let Some(LockWord::Reserved { count, .. }) = kept else {
            return no_rule();
        };
        let count = match self.operation {
            Operation::Enter => count + 1,
            _ => count - 1,
        };
        self.write_and_finish(self.reserved(count))
    }

    // 3 cancel

    fn cancel(&mut self) -> Outcome {
        match self.word() {
            LockWord::Anonymous => self.write(LockWord::Free),
            LockWord::Reserved { thread, count } => {
                self.write(match count {
                    0 => LockWord::Free,
                    _ => LockWord::Flat {
                        thread,
                        count: count - 1,
                    },
                });
                self.send_back(thread as u8);
            }
            _ => {}
        }
        self.go_on(Phase::Look)
    }

    /// A reservation's owner that has read the old word must look again, or it would store that word. With the feature `stale_store` it does: that engine
    /// is wrong, and there to be drawn.
    fn send_back(&mut self, owner: u8) {
        if cfg!(feature = "stale_store") {
            return;
        }
        let object = self.object;
        let record = self.table.thread_mut(owner);
        if record.phase == Phase::Store && record.object == object {
            record.phase = Phase::Look;
            record.kept_word = 0;
        }
    }

    // 4 go in

    fn go_in(&mut self) -> Outcome {
        // With the flag down nobody is to be told, whoever holds the monitor.
        if self.operation == Operation::Exit && !self.object().contention_flag {
            return self.finish();
        }
        let onward = match self.operation {
            Operation::Enter => Onward::Check,
            Operation::Exit => Onward::Tell,
            _ => Onward::Inflate,
        };
        let (thread, operation) = (self.thread, self.operation);
        let monitor = self.monitor();
        if monitor.holder == 0 {
            monitor.holder = thread;
            return self.go_on(onward.phase());
        }
        if monitor.holder != thread {
            self.table.queue(self.object, thread, onward);
            return Outcome::of(Returned::Parked);
        }
        if operation != Operation::Enter || monitor.depth == 0 {
            return no_rule();
        }
        if monitor.depth == MAX_DEPTH {
            return self.end(Returned::TooDeep, 0).committing();
        }
        monitor.depth += 1;
        self.finish().committing()
    }

    // 6 check, 7 try

    fn check(&mut self) -> Outcome {
        match self.word() {
            LockWord::Fat { .. } if self.monitor().depth == 0 => {
                self.monitor().depth = 1;
                self.finish().committing()
            }
            LockWord::Flat { thread, count } if self.is_own(thread) => {
                let let_out = self.inflate(u16::from(count) + 2);
                self.finish().committing().unparking(let_out)
            }
            LockWord::Free | LockWord::Flat { .. } => {
                self.object().contention_flag = true;
                self.go_on(Phase::Try)
            }
            _ => no_rule(),
        }
    }

    fn try_again(&mut self) -> Outcome {
        match self.word() {
            LockWord::Free => {
                let let_out = self.inflate(1);
                self.finish().committing().unparking(let_out)
            }
            LockWord::Flat { thread, .. } if !self.is_own(thread) => {
                self.park(Chain::Contention, Phase::Contending);
                Outcome::of(Returned::Parked).unparking(self.hand())
            }
            _ => no_rule(),
        }
    }

    // 9 test, 10 tell, 11 leave

    fn test(&mut self) -> Outcome {
        if self.object().contention_flag {
            self.go_on(Phase::GoIn)
        } else {
            self.finish()
        }
    }

    fn tell(&mut self) -> Outcome {
        if self.object().contention_flag {
            self.move_first(Chain::Contention, Onward::Check);
        }
        self.go_on(Phase::Leave)
    }

    fn leave(&mut self) -> Outcome {
        if self.monitor().depth > 0 {
            return no_rule();
        }
        let handed = self.hand();
        self.finish().unparking(handed)
    }

    // 12 inflate, 13 wait, 15 resume

    fn inflate_to_wait(&mut self) -> Outcome {
        match self.word() {
            LockWord::Flat { thread, count } if self.is_own(thread) => {
                let let_out = self.inflate(u16::from(count) + 1);
                self.go_on(Phase::Wait).unparking(let_out)
            }
            _ => no_rule(),
        }
    }

    fn wait(&mut self) -> Outcome {
        let depth = self.monitor().depth;
        if !self.is_fat() || depth == 0 {
            return no_rule();
        }
        self.record().saved_depth = depth;
        self.monitor().depth = 0;
        self.park(Chain::Waiting, Phase::Waiting);
        Outcome::of(Returned::Parked)
            .committing()
            .unparking(self.hand())
    }

    fn resume(&mut self) -> Outcome {
        if !self.is_fat() || self.monitor().depth > 0 {
            return no_rule();
        }
        self.monitor().depth = self.record().saved_depth;
        let run_out = self.record().has_run_out();
        self.end(Returned::Finished, run_out.into()).committing()
    }

    // What several phases share: words first, then going on and ending, then queues.

    fn record(&mut self) -> &mut ThreadRecord {
        self.table.thread_mut(self.thread)
    }

    fn object(&mut self) -> &mut ObjectRecord {
        self.table.object_mut(self.object)
    }

    fn monitor(&mut self) -> &mut Monitor {
        &mut self.object().monitor
    }

    fn word(&self) -> LockWord {
        LockWord::decode(self.table.object(self.object).word).expect("a sound table's word")
    }

    fn write(&mut self, word: LockWord) {
        self.object().word = word.encode();
    }

    fn is_own(&self, thread: u16) -> bool {
        thread == u16::from(self.thread)
    }

    fn is_fat(&self) -> bool {
        matches!(self.word(), LockWord::Fat { .. })
    }

    fn flat(&self, count: u8) -> LockWord {
        LockWord::Flat {
            thread: u16::from(self.thread),
            count,
        }
    }

    fn reserved(&self, count: u8) -> LockWord {
        LockWord::Reserved {
            thread: u16::from(self.thread),
            count,
        }
    }

    fn go_on(&mut self, phase: Phase) -> Outcome {
        self.record().phase = phase;
        Outcome::of(Returned::GoneOn)
    }

    fn keep_word(&mut self) -> Outcome {
        self.record().kept_word = self.object().word;
        self.go_on(Phase::Store)
    }

    fn end(&mut self, returned: Returned, woken: u8) -> Outcome {
        self.table.make_idle(self.thread);
        Outcome {
            woken,
            ..Outcome::of(returned)
        }
    }

    fn finish(&mut self) -> Outcome {
        self.end(Returned::Finished, 0)
    }

    fn write_and_finish(&mut self, word: LockWord) -> Outcome {
        self.write(word);
        self.finish().committing()
    }

    fn park(&mut self, chain: Chain, phase: Phase) {
        self.record().phase = phase;
        self.table.join(self.object, chain, self.thread);
    }

    /// Moves the first of a chain to the entry chain; false where there is none.
    fn move_first(&mut self, chain: Chain, onward: Onward) -> bool {
        match self.table.take_first(self.object, chain) {
            Some(thread) => {
                self.table.queue(self.object, thread, onward);
                true
            }
            None => false,
        }
    }

    /// Names the thread that the monitor went to, if any.
    fn hand(&mut self) -> ThreadSet {
        self.table.hand(self.object).into_iter().collect()
    }

    /// Names the exits that are let out.
    fn inflate(&mut self, depth: u16) -> ThreadSet {
        self.write(LockWord::Fat {
            monitor: u16::from(self.object),
        });
        self.object().contention_flag = false;
        let let_out = self.let_exits_out();
        while self.move_first(Chain::Contention, Onward::Check) {}
        self.monitor().depth = depth;
        let_out
    }

    /// Exits queued for entry have nobody left to tell: they are finished, by this thread's step. Names them.
    fn let_exits_out(&mut self) -> ThreadSet {
        let is_exit = |record: &mut ThreadRecord| record.phase == Phase::Queued(Onward::Tell);
        let exits = self.table.take_out(self.object, Chain::Entry, is_exit);
        for thread in &exits {
            self.table.make_idle(*thread);
        }
        exits.into_iter().collect()
    }
}

fn needs_holder(phase: Phase) -> bool {
    matches!(phase.number(), 6 | 7 | 10..=13 | 15)
}

fn no_rule() -> Outcome {
    Outcome::of(Returned::NoRule)
}
