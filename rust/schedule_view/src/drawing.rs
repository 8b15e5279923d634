//! What there is to draw of a schedule, before anything is measured: a row for each line, and bands that go down through the rows.

use crate::engine::Engine;
use crate::explain::Counts;
use crate::line::{self, Event, Header};
use crate::run::{Change, Happened, ObjectSeen, Run, State, ThreadSeen};
use duskclamp::{Answer, LockWord, Object, Operation, Phase, Refusal};
use std::collections::{BTreeMap, BTreeSet};

/// A thread or an object, by number.
#[derive(Clone, Copy, Debug, PartialEq, Eq, PartialOrd, Ord)]
pub enum Lane {
    Thread(u32),
    Object(u32),
}

/// The columns of a lane: of a thread its phases and what it owns, an object in each slot; of an object the rest.
#[derive(Clone, Copy, Debug, PartialEq, Eq, PartialOrd, Ord)]
pub enum Column {
    Phase,
    Owned(usize),
    Word,
    Owner,
    Holder,
    Flag,
}

/// Something that lasts from the first row to the one before `end`.
#[derive(Clone, Debug, PartialEq, Eq)]
pub struct Band {
    pub lane: Lane,
    pub column: Column,
    pub first: usize,
    pub end: usize,
    /// Says the colour.
    pub class: &'static str,
    pub label: String,
}

/// What an event does to another thread.
#[derive(Clone, Copy, Debug, PartialEq, Eq, PartialOrd, Ord)]
pub enum Touch {
    /// Unparked, and holder of the monitor.
    Handed,
    /// Unparked, its exit finished.
    LetOut,
    /// Moved from the contention chain to the entry chain.
    Told,
    /// Moved from the waiting chain to the entry chain.
    Woken,
    /// Back to an earlier phase.
    SentBack,
}

impl Touch {
    pub const ALL: [Touch; 5] = [
        Touch::Handed,
        Touch::LetOut,
        Touch::Told,
        Touch::Woken,
        Touch::SentBack,
    ];
}

/// What stands in a row, in the lane of a thread or, where that is none of the table's, beside the line.
#[derive(Clone, Debug, PartialEq, Eq)]
pub enum Mark {
    /// With the line's letter and object.
    Begun(String),
    Stepped,
    /// An operation ended, by its own step or by another's.
    Finished(String),
    /// With its number.
    Refused(u32),
}

#[derive(Clone, Debug, PartialEq, Eq)]
pub struct Row {
    /// The line's number, and the line.
    pub number: u64,
    pub text: String,
    /// What the replay prints for it.
    pub answer: String,
    pub words: String,
    pub tick: bool,
    /// Whose event it is, where the table has the thread.
    pub actor: Option<u32>,
    /// In whose lane they stand; in none where the table has not the thread, or no event is on the line.
    pub marks: Vec<(Option<u32>, Mark)>,
    /// From the thread whose event it is, or from the clock.
    pub arrows: Vec<(Touch, u32)>,
    /// An owner lost its object by another's event. No right engine has it.
    pub overrun: bool,
}

#[derive(Clone, Debug, PartialEq, Eq)]
pub struct Drawing {
    pub header: Header,
    /// Of thread n at n - 1.
    pub ranks: Vec<u32>,
    pub rows: Vec<Row>,
    pub bands: Vec<Band>,
    /// The lanes in which something happens.
    pub used: BTreeSet<Lane>,
    /// Of all lines up to the last row's, drawn or not.
    pub counts: Counts,
    /// Whether these are all lines of the schedule.
    pub whole: bool,
    /// A sentence for each row in which an owner was overrun.
    pub accidents: Vec<String>,
    /// How things stand after the last row, in words.
    pub ending: Vec<String>,
}

impl Drawing {
    /// The number of the last line that is drawn.
    pub fn last_line(&self) -> u64 {
        self.rows.last().map_or(0, |row| row.number)
    }

    /// What stands under the title: how many lines there were, and of a part up to where they are counted.
    pub fn caption(&self) -> String {
        let counts = self.counts.words();
        match self.whole {
            true => counts,
            false => format!("up to line {}, {counts}", self.last_line()),
        }
    }
}

/// Takes events in, row by row.
pub struct Collector {
    drawing: Drawing,
    open: BTreeMap<(Lane, Column), (usize, &'static str, String)>,
    /// Of each thread, the object in each of its slots.
    slots: BTreeMap<u32, Vec<Option<u32>>>,
    /// Threads that were overrun, and their slots.
    overrun: BTreeMap<u32, Vec<usize>>,
}

impl Collector {
    /// A drawing that begins with this state.
    pub fn new(header: Header, state: &State) -> Collector {
        let mut collector = Collector {
            drawing: Drawing {
                header,
                ranks: state.threads.iter().map(|thread| thread.rank).collect(),
                rows: Vec::new(),
                bands: Vec::new(),
                used: BTreeSet::new(),
                counts: Counts::default(),
                whole: false,
                accidents: Vec::new(),
                ending: Vec::new(),
            },
            open: BTreeMap::new(),
            slots: BTreeMap::new(),
            overrun: BTreeMap::new(),
        };
        for object in &state.objects {
            collector.show_object(object);
            collector.own(
                object.record.number,
                object.record.owner,
                object.record.depth,
            );
        }
        for thread in &state.threads {
            collector.show_thread(thread);
        }
        collector.drawing.used = at_work(state);
        collector
    }

    /// The row of a line that is no event: the header, or one that is malformed.
    pub fn other_line(&mut self, row: Row) {
        self.drawing.rows.push(row);
    }

    /// How many rows there are so far.
    pub fn rows(&self) -> usize {
        self.drawing.rows.len()
    }

    /// The row of an event, and what it changed.
    pub fn event(&mut self, mut row: Row, happened: &Happened, state: &State) {
        let actor = happened.event.thread();
        row.tick = actor.is_none();
        row.actor = happened.thread.map(|thread| thread.number);
        row.marks = marks(happened, state);
        let others = || {
            happened
                .threads
                .iter()
                .filter(|change| Some(change.after.number) != actor)
        };
        row.arrows = others()
            .filter_map(|change| touch(happened, change))
            .collect();
        self.note_used(happened);
        self.end_overrun(happened);
        for change in &happened.threads {
            self.show_thread(&change.after);
        }
        for Change { before, after } in &happened.objects {
            self.show_object(after);
            let (before, after) = (&before.record, &after.record);
            if before.owner != 0 && before.owner != after.owner {
                let overrun = Some(before.owner) != actor;
                self.disown(after.number, before.owner, overrun);
                if overrun {
                    row.overrun = true;
                    self.drawing.accidents.push(accident(&row, before, after));
                }
            }
            self.own(after.number, after.owner, after.depth);
        }
        self.drawing.rows.push(row);
    }

    /// The drawing, with all bands ended behind the last row.
    pub fn finish<E: Engine>(mut self, run: &Run<E>, counts: Counts, whole: bool) -> Drawing {
        let end = self.rows();
        for ((lane, column), (first, class, label)) in std::mem::take(&mut self.open) {
            self.add_band(lane, column, first..end, class, label);
        }
        self.drawing.counts = counts;
        self.drawing.whole = whole;
        self.drawing.ending = crate::ending::lines(run);
        self.drawing
    }

    fn add_band(
        &mut self,
        lane: Lane,
        column: Column,
        rows: std::ops::Range<usize>,
        class: &'static str,
        label: String,
    ) {
        if !rows.is_empty() {
            self.drawing.bands.push(Band {
                lane,
                column,
                first: rows.start,
                end: rows.end,
                class,
                label,
            });
        }
    }

    /// From this row on the column shows this, or nothing.
    fn show(&mut self, lane: Lane, column: Column, shown: Option<(&'static str, String)>) {
        let row = self.rows();
        let place = (lane, column);
        let open = self.open.get(&place);
        if open.map(|(_, class, label)| (*class, label)) == shown.as_ref().map(|s| (s.0, &s.1)) {
            return;
        }
        if let Some((first, class, label)) = self.open.remove(&place) {
            self.add_band(lane, column, first..row, class, label);
        }
        if let Some((class, label)) = shown {
            self.open.insert(place, (row, class, label));
        }
    }

    fn show_thread(&mut self, thread: &ThreadSeen) {
        let shown = match thread.phase {
            Phase::Idle => None,
            phase => Some((phase_class(phase), phase_label(phase))),
        };
        self.show(Lane::Thread(thread.number), Column::Phase, shown);
    }

    fn show_object(&mut self, object: &ObjectSeen) {
        let record = &object.record;
        let lane = Lane::Object(record.number);
        let owner = (record.owner != 0).then(|| format!("t{}×{}", record.owner, record.depth));
        let holder = (record.holder != 0).then(|| format!("t{}", record.holder));
        self.show(lane, Column::Word, Some(word_shown(object.word)));
        self.show(lane, Column::Owner, owner.map(|label| ("owner", label)));
        self.show(lane, Column::Holder, holder.map(|label| ("holder", label)));
        self.show(
            lane,
            Column::Flag,
            record.flag.then(|| ("flag", String::new())),
        );
    }

    fn note_used(&mut self, happened: &Happened) {
        let actor = happened.thread.map(|thread| thread.number);
        let threads = happened.threads.iter().map(|change| change.after.number);
        let threads = threads.chain(actor).map(Lane::Thread);
        let changed = happened
            .objects
            .iter()
            .map(|change| change.after.record.number);
        let objects = changed.chain(happened.object).map(Lane::Object);
        self.drawing.used.extend(threads.chain(objects));
    }

    /// The thread's slot for the object: the one that it is in, else the first that is free.
    fn slot(&mut self, thread: u32, object: u32) -> usize {
        let slots = self.slots.entry(thread).or_default();
        let own = slots.iter().position(|slot| *slot == Some(object));
        let free = || slots.iter().position(Option::is_none);
        let place = own.or_else(free).unwrap_or(slots.len());
        if place == slots.len() {
            slots.push(None);
        }
        slots[place] = Some(object);
        place
    }

    fn own(&mut self, object: u32, owner: u32, depth: u32) {
        if owner != 0 {
            let slot = self.slot(owner, object);
            let label = format!("o{object}×{depth}");
            self.show(
                Lane::Thread(owner),
                Column::Owned(slot),
                Some(("owned", label)),
            );
        }
    }

    /// Ends the owner's band; if it was overrun, the band goes on as one of a thread that is still inside.
    fn disown(&mut self, object: u32, owner: u32, overrun: bool) {
        let slot = self.slot(owner, object);
        let shown = overrun.then(|| ("overrun", format!("o{object}!")));
        self.show(Lane::Thread(owner), Column::Owned(slot), shown);
        if overrun {
            self.overrun.entry(owner).or_default().push(slot);
        } else if let Some(slots) = self.slots.get_mut(&owner) {
            slots[slot] = None;
        }
    }

    /// A thread that was overrun is inside until its next operation ends.
    fn end_overrun(&mut self, happened: &Happened) {
        let ends = matches!(
            happened.outcome.result,
            Ok(Answer::Finished { .. }) | Err(Refusal::NotOwner)
        );
        let Some(thread) = happened.event.thread().filter(|_| ends) else {
            return;
        };
        for slot in self.overrun.remove(&thread).unwrap_or_default() {
            self.show(Lane::Thread(thread), Column::Owned(slot), None);
            if let Some(slots) = self.slots.get_mut(&thread) {
                slots[slot] = None;
            }
        }
    }
}

/// The lanes in which something is going on already: of threads at an operation and their objects, of owners and what they own, and of what is held.
fn at_work(state: &State) -> BTreeSet<Lane> {
    let busy = state
        .threads
        .iter()
        .filter(|thread| thread.phase != Phase::Idle);
    let busy = busy.flat_map(|thread| [Lane::Thread(thread.number), Lane::Object(thread.object)]);
    let objects = state.objects.iter().map(|object| &object.record);
    let taken = objects.filter(|object| object.owner != 0 || object.holder != 0);
    let taken = taken.flat_map(|object| [Lane::Thread(object.owner), Lane::Object(object.number)]);
    busy.chain(taken)
        .filter(|lane| *lane != Lane::Thread(0))
        .collect()
}

fn accident(row: &Row, before: &Object, after: &Object) -> String {
    let (line, lost) = (row.number, before.owner);
    let gets = match after.owner {
        0 => format!("object {} is nobody's", after.number),
        owner => format!("thread {owner} gets object {}", after.number),
    };
    format!("Line {line}: {gets} while thread {lost} is still inside.")
}

fn marks(happened: &Happened, state: &State) -> Vec<(Option<u32>, Mark)> {
    let thread = happened.thread.map(|thread| thread.number);
    let mut marks = Vec::new();
    match (happened.outcome.result, happened.event) {
        (Err(refusal), _) => marks.push((thread, Mark::Refused(refusal.number().into()))),
        (Ok(_), Event::Tick) => {}
        (
            Ok(_),
            Event::Begin {
                operation, object, ..
            },
        ) => {
            let label = format!("{}{object}", line::letter(operation));
            marks.push((thread, Mark::Begun(label)));
        }
        (Ok(answer), Event::Step { .. }) => {
            marks.push((thread, Mark::Stepped));
            if let Answer::Finished { woken } = answer {
                marks.push((thread, Mark::Finished(finished_label(happened, woken))));
            }
        }
    }
    let unparked = happened.outcome.unparked.iter();
    let let_out = unparked.filter(|n| state.thread(*n).is_some_and(|t| t.phase == Phase::Idle));
    marks.extend(let_out.map(|n| (Some(n), Mark::Finished("let out".to_string()))));
    marks
}

fn finished_label(happened: &Happened, woken: u8) -> String {
    match happened.thread.and_then(|thread| thread.operation) {
        Some(Operation::Notify | Operation::NotifyAll) => format!("woke {woken}"),
        Some(Operation::TimedWait) if woken > 0 => "run out".to_string(),
        Some(operation) => operation.name().to_string(),
        None => String::new(),
    }
}

fn touch(happened: &Happened, change: &Change<ThreadSeen>) -> Option<(Touch, u32)> {
    let Change { before, after } = change;
    let unparked = happened.outcome.unparked.contains(after.number);
    let touch = match (unparked, before.phase, after.phase) {
        (true, _, Phase::Idle) => Touch::LetOut,
        (true, _, _) => Touch::Handed,
        (_, Phase::Contending, Phase::Queued(_)) => Touch::Told,
        (_, Phase::Waiting, Phase::Queued(_)) => Touch::Woken,
        (_, before, after) if before != after => Touch::SentBack,
        _ => return None,
    };
    Some((touch, after.number))
}

fn phase_label(phase: Phase) -> String {
    match phase.onward() {
        Some(onward) => format!("5 queued→{}", onward.phase().number()),
        None => format!("{} {phase}", phase.number()),
    }
}

/// The class of a phase that is not idle; those in which a thread is parked share one.
pub fn phase_class(phase: Phase) -> &'static str {
    match phase {
        Phase::Idle | Phase::Look => "look",
        Phase::Store => "store",
        Phase::Cancel => "cancel",
        Phase::GoIn => "go-in",
        Phase::Queued(_) | Phase::Contending | Phase::Waiting => "parked",
        Phase::Check => "check",
        Phase::Try => "try",
        Phase::Test => "test",
        Phase::Tell => "tell",
        Phase::Leave => "leave",
        Phase::Inflate => "inflate",
        Phase::GiveUp => "give-up",
        Phase::Resume => "resume",
    }
}

/// The class and the label of an object's word; its owner stands beside it.
fn word_shown(word: LockWord) -> (&'static str, String) {
    match word {
        LockWord::Free => ("free", word.name().to_string()),
        LockWord::Flat { .. } => ("flat", word.name().to_string()),
        LockWord::Anonymous => ("reserved", word.name().to_string()),
        LockWord::Reserved { thread, .. } => ("reserved", format!("{} t{thread}", word.name())),
        LockWord::Monitor => ("monitor", word.name().to_string()),
        LockWord::Invalid => ("invalid", word.name().to_string()),
    }
}
