//! The layout of a table's bytes, read and written for the second engine, and of an event's. Written from the header of the library alone.

use reference::engine::Event;
use reference::table::{
    Monitor, ObjectRecord, Onward, Operation, Phase, Table, ThreadRecord, MAX_OBJECTS, MAX_THREADS,
};

pub const THREAD_SIZE: usize = 14;
pub const OBJECT_SIZE: usize = 11;
pub const THREADS_START: usize = 2;
pub const OBJECTS_START: usize = THREADS_START + MAX_THREADS * THREAD_SIZE;
pub const TABLE_SIZE: usize = OBJECTS_START + MAX_OBJECTS * OBJECT_SIZE;

const PHASES: [Phase; 16] = [
    Phase::Idle,
    Phase::Look,
    Phase::Store,
    Phase::Cancel,
    Phase::GoIn,
    Phase::Queued(Onward::Check),
    Phase::Check,
    Phase::Try,
    Phase::Contending,
    Phase::Test,
    Phase::Tell,
    Phase::Leave,
    Phase::Inflate,
    Phase::Wait,
    Phase::Waiting,
    Phase::Resume,
];

/// The table that the bytes are, or nothing where they are none.
pub fn decode(bytes: &[u8]) -> Option<Table> {
    let bytes: &[u8; TABLE_SIZE] = bytes.try_into().ok()?;
    let mut table = Table {
        threads: bytes[0],
        objects: bytes[1],
        thread_records: [ThreadRecord::default(); MAX_THREADS],
        object_records: [ObjectRecord::default(); MAX_OBJECTS],
    };
    let (threads, objects) = bytes[THREADS_START..].split_at(MAX_THREADS * THREAD_SIZE);
    for (record, bytes) in table
        .thread_records
        .iter_mut()
        .zip(threads.chunks(THREAD_SIZE))
    {
        *record = decode_thread(bytes)?;
    }
    for (record, bytes) in table
        .object_records
        .iter_mut()
        .zip(objects.chunks(OBJECT_SIZE))
    {
        *record = decode_object(bytes)?;
    }
    Some(table)
}

fn decode_thread(bytes: &[u8]) -> Option<ThreadRecord> {
    let operation = match bytes[0] {
        0 => None,
        number => Some(Operation::from_number(number)?),
    };
    let phase = match (*PHASES.get(usize::from(bytes[2]))?, bytes[3]) {
        (Phase::Queued(_), 6) => Phase::Queued(Onward::Check),
        (Phase::Queued(_), 10) => Phase::Queued(Onward::Tell),
        (Phase::Queued(_), 12) => Phase::Queued(Onward::Inflate),
        (Phase::Queued(_), 15) => Phase::Queued(Onward::Resume),
        (Phase::Queued(_), _) => return None,
        (phase, 0) => phase,
        _ => return None,
    };
    Some(ThreadRecord {
        operation,
        object: bytes[1],
        phase,
        kept_word: u32::from_le_bytes(bytes[4..8].try_into().ok()?),
        saved_depth: u16::from_le_bytes(bytes[8..10].try_into().ok()?),
        next: bytes[10],
        ticks: u16::from_le_bytes(bytes[11..13].try_into().ok()?),
        rank: bytes[13],
    })
}

fn decode_object(bytes: &[u8]) -> Option<ObjectRecord> {
    Some(ObjectRecord {
        word: u32::from_le_bytes(bytes[0..4].try_into().ok()?),
        contention_flag: match bytes[4] {
            0 => false,
            1 => true,
            _ => return None,
        },
        monitor: Monitor {
            holder: bytes[5],
            depth: u16::from_le_bytes(bytes[6..8].try_into().ok()?),
            entry: bytes[8],
            contention: bytes[9],
            waiting: bytes[10],
        },
    })
}

/// The phase byte of a thread, from 1, in a table's bytes.
pub fn phase_byte(bytes: &[u8; TABLE_SIZE], thread: usize) -> u8 {
    bytes[THREADS_START + (thread - 1) * THREAD_SIZE + 2]
}

pub fn encode(table: &Table) -> Vec<u8> {
    let mut bytes = vec![table.threads, table.objects];
    for record in &table.thread_records {
        let carried = match record.phase {
            Phase::Queued(onward) => onward.phase().number(),
            _ => 0,
        };
        let operation = record.operation.map_or(0, Operation::number);
        bytes.extend([operation, record.object, record.phase.number(), carried]);
        bytes.extend(record.kept_word.to_le_bytes());
        bytes.extend(record.saved_depth.to_le_bytes());
        bytes.push(record.next);
        bytes.extend(record.ticks.to_le_bytes());
        bytes.push(record.rank);
    }
    for record in &table.object_records {
        let monitor = &record.monitor;
        bytes.extend(record.word.to_le_bytes());
        bytes.extend([u8::from(record.contention_flag), monitor.holder]);
        bytes.extend(monitor.depth.to_le_bytes());
        bytes.extend([monitor.entry, monitor.contention, monitor.waiting]);
    }
    bytes
}

/// How many bytes an event of a run has.
pub const EVENT_SIZE: usize = 8;

/// The event as one of a run; numbers that do not fit are those of none.
pub fn encode_event(event: Event) -> [u8; EVENT_SIZE] {
    let narrow = |number: u16| number.min(255) as u8;
    match event {
        Event::Begin {
            thread,
            operation,
            object,
            limit,
        } => {
            let [low, second, third, high] = limit.to_le_bytes();
            let (thread, object) = (narrow(thread), narrow(object));
            [0, thread, operation, object, low, second, third, high]
        }
        Event::Step { thread } => [1, narrow(thread), 0, 0, 0, 0, 0, 0],
        Event::Tick => [2, 0, 0, 0, 0, 0, 0, 0],
    }
}
