//! The questions of the library, each with its answer by document 01 and the second program's tables.

use duskclamp::raw;
use reference::outcome::Returned;
use reference::table::{Chain, ObjectRecord, Operation, Phase, Table, ThreadRecord};
use reference::word::LockWord;

/// What a question is about, with the value that it has there.
enum About {
    Table(fn(&Table) -> u32),
    /// The thread's number, its record and the record of its object.
    Thread(fn(u32, &ThreadRecord, &ObjectRecord) -> u32),
    Object(fn(&ObjectRecord) -> u32),
}

pub struct Question {
    pub name: &'static str,
    given: fn(&[u8], u32) -> u64,
    about: About,
}

const fn thread(
    name: &'static str,
    given: fn(&[u8], u32) -> u64,
    value: fn(u32, &ThreadRecord, &ObjectRecord) -> u32,
) -> Question {
    Question {
        name,
        given,
        about: About::Thread(value),
    }
}

const fn object(
    name: &'static str,
    given: fn(&[u8], u32) -> u64,
    value: fn(&ObjectRecord) -> u32,
) -> Question {
    Question {
        name,
        given,
        about: About::Object(value),
    }
}

pub const QUESTIONS: [Question; 23] = [
    Question {
        name: "thread count",
        given: |bytes, _| raw::thread_count(bytes),
        about: About::Table(|table| table.threads.into()),
    },
    Question {
        name: "object count",
        given: |bytes, _| raw::object_count(bytes),
        about: About::Table(|table| table.objects.into()),
    },
    thread("operation", raw::operation, |_, record, _| {
        record.operation.map_or(0, Operation::number).into()
    }),
    thread("object", raw::object, |_, record, _| record.object.into()),
    thread("phase", raw::phase, |_, record, _| {
        record.phase.number().into()
    }),
    thread("onward", raw::onward, |_, record, _| onward(record.phase)),
    thread("kept", raw::kept, |_, record, _| record.kept_word),
    thread("saved depth", raw::saved_depth, |_, record, _| {
        record.saved_depth.into()
    }),
    thread("next", raw::next, |_, record, _| record.next.into()),
    thread("ticks", raw::ticks, |_, record, _| record.ticks.into()),
    thread("rank", raw::rank, |_, record, _| record.rank.into()),
    thread("blocker", raw::blocker, blocker),
    object("word", raw::word, |record| record.word),
    object("kind", raw::word_kind, |record| kind_and_named(record).0),
    object("named", raw::word_thread, |record| kind_and_named(record).1),
    object("owner", raw::owner, |record| ownership(record).0),
    object("depth", raw::depth, |record| ownership(record).1),
    object("flag", raw::flag, |record| record.contention_flag.into()),
    object("holder", raw::holder, |record| record.monitor.holder.into()),
    object("monitor depth", raw::monitor_depth, |record| {
        record.monitor.depth.into()
    }),
    object("entry", raw::entry_first, |record| {
        record.monitor.first(Chain::Entry).into()
    }),
    object("contention", raw::contention_first, |record| {
        record.monitor.first(Chain::Contention).into()
    }),
    object("waiting", raw::waiting_first, |record| {
        record.monitor.first(Chain::Waiting).into()
    }),
];

impl Question {
    /// Asks the library about a number, and compares its answer.
    pub fn check(&self, bytes: &[u8], table: Option<&Table>, asked: u32) -> Result<(), String> {
        let given = (self.given)(bytes, asked);
        let expected = match table {
            None => Err(Returned::NotSound),
            Some(table) => self.value(table, asked),
        };
        let expected = match expected {
            Ok(value) => u64::from(value) << 8,
            Err(returned) => returned.number().into(),
        };
        match given == expected {
            true => Ok(()),
            false => Err(format!(
                "{} of {asked} is {given:#x}, by the second engine {expected:#x}",
                self.name
            )),
        }
    }

    /// A damaged size lets no number past the records in.
    fn value(&self, table: &Table, asked: u32) -> Result<u32, Returned> {
        match self.about {
            About::Table(value) => Ok(value(table)),
            About::Thread(value) => {
                let record = pick(&table.thread_records, table.threads, asked)
                    .ok_or(Returned::NoSuchThread)?;
                let object = usize::from(record.object).wrapping_sub(1);
                let none = ObjectRecord::default();
                let object = table.object_records.get(object).unwrap_or(&none);
                Ok(value(asked, record, object))
            }
            About::Object(value) => {
                let record = pick(&table.object_records, table.objects, asked)
                    .ok_or(Returned::NoSuchObject)?;
                Ok(value(record))
            }
        }
    }
}

/// The record of this number, from 1, if the table has it.
fn pick<Record>(records: &[Record], count: u8, number: u32) -> Option<&Record> {
    let place = number.checked_sub(1)? as usize;
    (number <= count.into())
        .then(|| records.get(place))
        .flatten()
}

fn onward(phase: Phase) -> u32 {
    match phase {
        Phase::Queued(onward) => onward.phase().number().into(),
        _ => 0,
    }
}

/// The kind of the word and the thread that it names, 0 for none.
fn kind_and_named(object: &ObjectRecord) -> (u32, u32) {
    match LockWord::decode(object.word) {
        Some(LockWord::Free) => (0, 0),
        Some(LockWord::Flat { thread, .. }) => (1, thread.into()),
        Some(LockWord::Anonymous) => (2, 0),
        Some(LockWord::Reserved { thread, .. }) => (3, thread.into()),
        Some(LockWord::Fat { monitor: 1.. }) => (4, 0),
        Some(LockWord::Fat { monitor: 0 }) | None => (5, 0),
    }
}

/// Owner and depth by the word, for any word and any monitor, 0 and 0 with no owner. A fat word with number 0 is no lock word: no object has that number.
fn ownership(object: &ObjectRecord) -> (u32, u32) {
    let monitor = &object.monitor;
    match LockWord::decode(object.word) {
        Some(LockWord::Flat { thread, count }) => (thread.into(), u32::from(count) + 1),
        Some(LockWord::Reserved { thread, count }) if count > 0 => (thread.into(), count.into()),
        Some(LockWord::Fat { monitor: 1.. }) if monitor.depth > 0 && monitor.holder > 0 => {
            (monitor.holder.into(), monitor.depth.into())
        }
        _ => (0, 0),
    }
}

/// Who keeps a thread that is parked for entry, always another: who owns the object, unless the thread leaves it; else the monitor's holder, marked by
/// bit 16.
fn blocker(number: u32, record: &ThreadRecord, object: &ObjectRecord) -> u32 {
    let other = |thread: u32| thread != 0 && thread != number;
    if !record.phase.is_parked_for_entry() {
        return 0;
    }
    let enters = record.operation != Some(Operation::Exit);
    match (ownership(object).0, object.monitor.holder.into()) {
        (owner, _) if enters && other(owner) => owner,
        (_, holder) if other(holder) => holder + (1 << 16),
        _ => 0,
    }
}
