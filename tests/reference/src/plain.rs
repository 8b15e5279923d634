//! Document 01's plain recursive monitors with request L1's ticks, and the check of demand 3 against them after each event.
//! The monitors are fed events, returned numbers and commit marks; of the tables they see nothing. Which operations have ended is noted beside them, and
//! that takes the tables too since request L2: an exit may end by another's event.

use crate::engine::Event;
use crate::outcome::{Outcome, Returned};
use crate::table::{Chain, Operation, Table, MAX_DEPTH, MAX_LIMIT, MAX_THREADS};

/// A thread with the depth it gave up.
#[derive(Clone, Copy, Debug, PartialEq, Eq)]
struct Saved {
    thread: u8,
    depth: u16,
    /// What a timed wait has left of its limit, 0 when it ran out; nothing for any other wait.
    ticks: Option<u32>,
}

#[derive(Clone, Debug, Default)]
struct PlainMonitor {
    owner: u8,
    depth: u16,
    waiting: Vec<Saved>,
    woken: Vec<Saved>,
}

/// What an ended operation says: returned number and woken number.
#[derive(Clone, Copy, Debug, PartialEq, Eq)]
struct Answer {
    returned: Returned,
    woken: u8,
}

/// A thread's last begun operation.
#[derive(Clone, Copy, Debug)]
struct Run {
    operation: Operation,
    object: u8,
    /// Of a timed wait.
    limit: Option<u32>,
    commits: u32,
    /// The plain answer of the last commit.
    answer: Option<Answer>,
    unfinished: bool,
}

#[derive(Clone, Debug)]
pub struct PlainMonitors {
    monitors: Vec<PlainMonitor>,
    runs: [Option<Run>; MAX_THREADS],
}

fn answer(returned: Returned, woken: u8) -> Option<Answer> {
    Some(Answer { returned, woken })
}

impl Run {
    /// An operation whose begin returned 0.
    fn begun(operation: u8, object: u16, limit: u32) -> Result<Run, String> {
        let operation = Operation::from_number(operation);
        let operation = operation.ok_or("a begin of no operation was accepted")?;
        let timed = operation == Operation::TimedWait;
        if timed && !(1..=u32::from(MAX_LIMIT)).contains(&limit) {
            return Err(format!("a limit of {limit} was accepted"));
        }
        Ok(Run {
            operation,
            object: object as u8,
            limit: timed.then_some(limit),
            commits: 0,
            answer: None,
            unfinished: true,
        })
    }
}

impl PlainMonitor {
    /// The threads that gave the object up and do not have it back.
    fn gave_up(&self) -> impl Iterator<Item = &Saved> {
        self.waiting.iter().chain(&self.woken)
    }

    fn commit(&mut self, run: &Run, thread: u8) -> Option<Answer> {
        if run.operation == Operation::Enter {
            return self.enter(thread);
        }
        if run.operation.is_wait() && self.owner == 0 {
            if let Some(place) = self.woken.iter().position(|saved| saved.thread == thread) {
                let saved = self.woken.remove(place);
                (self.owner, self.depth) = (thread, saved.depth);
                return answer(Returned::Finished, u8::from(saved.ticks == Some(0)));
            }
        }
        if self.owner != thread {
            return answer(Returned::NotOwner, 0);
        }
        match run.operation {
            Operation::Wait | Operation::TimedWait => self.give_up(thread, run.limit),
            Operation::Notify => self.wake(1),
            Operation::NotifyAll => self.wake(self.waiting.len()),
            _ => self.exit(),
        }
    }

    fn enter(&mut self, thread: u8) -> Option<Answer> {
        if self.owner != 0 && self.owner != thread {
            return None;
        }
        if self.depth == MAX_DEPTH {
            return answer(Returned::TooDeep, 0);
        }
        (self.owner, self.depth) = (thread, self.depth + 1);
        answer(Returned::Finished, 0)
    }

    fn exit(&mut self) -> Option<Answer> {
        self.depth -= 1;
        if self.depth == 0 {
            self.owner = 0;
        }
        answer(Returned::Finished, 0)
    }

    fn give_up(&mut self, thread: u8, ticks: Option<u32>) -> Option<Answer> {
        let depth = self.depth;
        self.waiting.push(Saved {
            thread,
            depth,
            ticks,
        });
        (self.owner, self.depth) = (0, 0);
        None
    }

    fn wake(&mut self, most: usize) -> Option<Answer> {
        let number = most.min(self.waiting.len());
        self.woken.extend(self.waiting.drain(..number));
        answer(Returned::Finished, number as u8)
    }

    /// One tick less for every timed thread that waits; who has none left is woken, as run out.
    fn tick(&mut self) {
        let mut waiting = std::mem::take(&mut self.waiting);
        for saved in &mut waiting {
            saved.ticks = saved.ticks.map(|ticks| ticks - 1);
        }
        let run_out = |saved: &Saved| saved.ticks == Some(0);
        let (woken, waiting): (Vec<Saved>, Vec<Saved>) = waiting.into_iter().partition(run_out);
        self.waiting = waiting;
        self.woken.extend(woken);
    }
}

impl PlainMonitors {
    /// Plain monitors for as many objects, none owned.
    pub fn new(objects: u8) -> PlainMonitors {
        PlainMonitors {
            monitors: vec![PlainMonitor::default(); usize::from(objects)],
            runs: [None; MAX_THREADS],
        }
    }

    /// Takes an event with its outcome; says what is wrong with a commit or an answer.
    pub fn feed(&mut self, event: Event, outcome: Outcome) -> Result<(), String> {
        if matches!(outcome.returned, Returned::NotSound | Returned::NoRule) {
            let number = outcome.returned.number();
            return Err(format!("{number} was returned, which never occurs"));
        }
        match event {
            Event::Begin {
                thread,
                operation,
                object,
                limit,
            } => self.feed_begin(thread, operation, object, limit, outcome),
            Event::Step { thread } => self.feed_step(thread, outcome),
            Event::Tick => self.feed_tick(outcome),
        }
    }

    fn feed_begin(
        &mut self,
        thread: u16,
        operation: u8,
        object: u16,
        limit: u32,
        outcome: Outcome,
    ) -> Result<(), String> {
        if outcome.committed {
            return Err("a begin is marked as committing".to_string());
        }
        if outcome.returned == Returned::GoneOn {
            let run = Run::begun(operation, object, limit)?;
            self.runs[usize::from(thread) - 1] = Some(run);
        }
        Ok(())
    }

    /// A tick is one whole operation on all objects, and answers nothing but that it was accepted. Of the threads it unparked the monitors know nothing.
    fn feed_tick(&mut self, outcome: Outcome) -> Result<(), String> {
        if outcome != Outcome::of(Returned::GoneOn).unparking(outcome.unparked) {
            return Err(format!("a tick was answered {outcome:?}"));
        }
        self.monitors.iter_mut().for_each(PlainMonitor::tick);
        Ok(())
    }

    fn feed_step(&mut self, thread: u16, outcome: Outcome) -> Result<(), String> {
        let ends = matches!(
            outcome.returned,
            Returned::Finished | Returned::NotOwner | Returned::TooDeep
        );
        if !ends && !outcome.committed {
            return Ok(());
        }
        let run = unfinished_run(&mut self.runs, thread)?;
        if outcome.committed {
            let monitor = &mut self.monitors[usize::from(run.object) - 1];
            run.answer = monitor.commit(run, thread as u8);
            run.commits += 1;
        }
        if ends {
            run.unfinished = false;
            check_end(run, outcome)?;
        }
        Ok(())
    }

    /// The thread's operation has ended by another's event, which left the thread idle: an exit's, with the answer 1 with 0. The monitors stay.
    pub fn ended_by_another(&mut self, thread: u8) -> Result<(), String> {
        let run = unfinished_run(&mut self.runs, thread.into())?;
        if run.operation != Operation::Exit {
            return Err(format!("another's event ended {:?}", run.operation));
        }
        run.unfinished = false;
        check_end(run, Outcome::of(Returned::Finished))
    }

    /// Compares a table with the monitors, and looks for stranded threads.
    pub fn compare(&self, table: &Table) -> Result<(), String> {
        for (object, plain) in (1..=table.objects).zip(&self.monitors) {
            compare_monitor(table, object, plain)?;
        }
        self.compare_woken(table)?;
        self.compare_ticks(table)?;
        self.compare_unfinished(table)?;
        self.check_stranding(table)
    }

    /// Each woken thread is one in the plain monitor of its object, and there are as many here as there.
    fn compare_woken(&self, table: &Table) -> Result<(), String> {
        let mut woken = 0;
        for thread in 1..=table.threads {
            let record = table.thread(thread);
            if !record.phase.is_woken() {
                continue;
            }
            let object = record.object;
            let plain = &self.monitors[usize::from(object) - 1];
            if !plain.woken.iter().any(|saved| saved.thread == thread) {
                return Err(format!(
                    "object {object}: thread {thread} is woken, in the plain monitors not"
                ));
            }
            woken += 1;
        }
        let plain_woken: usize = self.monitors.iter().map(|plain| plain.woken.len()).sum();
        if woken != plain_woken {
            return Err(format!(
                "{woken} woken threads, in the plain monitors {plain_woken}"
            ));
        }
        Ok(())
    }

    /// More than demand 3 asks: the record of each thread that waits or is woken has the ticks that the plain monitors count.
    fn compare_ticks(&self, table: &Table) -> Result<(), String> {
        for saved in self.monitors.iter().flat_map(PlainMonitor::gave_up) {
            let (thread, ticks) = (saved.thread, table.thread(saved.thread).ticks);
            if u32::from(ticks) != saved.ticks.unwrap_or(0) {
                return Err(format!(
                    "thread {thread} has ticks {ticks}, in the plain monitors {saved:?}"
                ));
            }
        }
        Ok(())
    }

    /// A thread is idle where its last operation has ended, and else at the object of that.
    fn compare_unfinished(&self, table: &Table) -> Result<(), String> {
        for thread in 1..=table.threads {
            let (at, noted) = (table.thread(thread).object, self.unfinished_on(thread));
            if at != noted.unwrap_or(0) {
                return Err(format!(
                    "thread {thread} is at object {at}, by its events at {noted:?}"
                ));
            }
        }
        Ok(())
    }

    /// No thread is parked for entry while no other thread owns the object it is parked on
    /// and no other unparked thread has an unfinished operation on that object.
    fn check_stranding(&self, table: &Table) -> Result<(), String> {
        for thread in 1..=table.threads {
            let record = table.thread(thread);
            if !record.phase.is_parked_for_entry() {
                continue;
            }
            let (owner, _) = table.owner(record.object);
            let owned_by_other = owner != 0 && owner != thread;
            let other_at_work = (1..=table.threads).any(|other| {
                other != thread
                    && !table.thread(other).phase.is_parked()
                    && self.unfinished_on(other) == Some(record.object)
            });
            if !owned_by_other && !other_at_work {
                let object = record.object;
                return Err(format!("thread {thread} is stranded on object {object}"));
            }
        }
        Ok(())
    }

    /// The object of a thread's unfinished operation.
    fn unfinished_on(&self, thread: u8) -> Option<u8> {
        let run = self.runs[usize::from(thread) - 1]?;
        run.unfinished.then_some(run.object)
    }
}

fn unfinished_run(runs: &mut [Option<Run>], thread: u16) -> Result<&mut Run, String> {
    usize::from(thread)
        .checked_sub(1)
        .and_then(|index| runs.get_mut(index)?.as_mut())
        .filter(|run| run.unfinished)
        .ok_or("a commit or an end without an unfinished operation".to_string())
}

/// An ended operation has committed once, a wait that returned 1 twice, and has the plain answer of its last commit.
fn check_end(run: &Run, outcome: Outcome) -> Result<(), String> {
    let resumed = run.operation.is_wait() && outcome.returned == Returned::Finished;
    let expected_commits = if resumed { 2 } else { 1 };
    let operation = run.operation;
    if run.commits != expected_commits {
        let commits = run.commits;
        return Err(format!(
            "{operation:?} ended with {commits} commits, not {expected_commits}"
        ));
    }
    let given = answer(outcome.returned, outcome.woken);
    if run.answer != given {
        let plain = run.answer;
        return Err(format!(
            "{operation:?} ended with {given:?}, the plain monitors with {plain:?}"
        ));
    }
    Ok(())
}

/// Owner, depth and waiting threads of one object.
fn compare_monitor(table: &Table, object: u8, plain: &PlainMonitor) -> Result<(), String> {
    let owner = table.owner(object);
    let plain_owner = (plain.owner, plain.depth);
    if owner != plain_owner {
        return Err(format!(
            "object {object}: owner and depth {owner:?}, in the plain monitors {plain_owner:?}"
        ));
    }
    let plain_waiting = plain.waiting.iter().map(|saved| saved.thread);
    if !table.chain(object, Chain::Waiting).eq(plain_waiting) {
        let waiting: Vec<u8> = table.chain(object, Chain::Waiting).collect();
        let plain_waiting = &plain.waiting;
        return Err(format!(
            "object {object}: waiting threads {waiting:?}, in the plain monitors {plain_waiting:?}"
        ));
    }
    Ok(())
}
