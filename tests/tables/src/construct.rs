//! Sound tables made by construction, most of which no schedule reaches: words, monitors and phases are drawn apart from each other.

use crate::passing::passing_table;
use reference::given::draw_given;
use reference::random::Random;
use reference::table::{Onward, Operation, Phase, Table, ThreadRecord, MAX_DEPTH, MAX_LIMIT};
use reference::word::{LockWord, MAX_COUNT};

/// Sizes up to which most tables go, so that numbers meet.
const FEW_THREADS: u64 = 4;
const FEW_OBJECTS: u64 = 3;
/// In percent of tables, how often a thread is about to inflate or to hand, and how often many waits run out with the next tick.
const ACTING: u64 = 40;
const DUE: u64 = 20;
/// In percent, how often a table is one on which threads pass others by rank.
const PASSING: u64 = 22;
/// In percent, how often each other thread there is parked behind the one about to act, or is one of those waits.
const PARKED: u64 = 70;

pub fn sound_table(random: &mut Random) -> Table {
    if random.percent(PASSING) {
        return passing_table(random);
    }
    let mut table = fresh_table(random);
    for object in 1..=table.objects {
        draw_object(random, &mut table, object);
    }
    let actor = match random.percent(ACTING) {
        true => draw_actor(random, &mut table),
        false => 0,
    };
    let due = random.percent(DUE);
    for thread in (1..=table.threads).filter(|thread| *thread != actor) {
        match random.percent(PARKED) {
            true if actor != 0 => draw_behind(random, &mut table, thread, actor),
            true if due => draw_due(random, &mut table, thread),
            _ => draw_thread(random, &mut table, thread),
        }
    }
    table
}

/// Most are small, and of the others most have all threads.
fn fresh_table(random: &mut Random) -> Table {
    let (threads, objects) = match random.percent(10) {
        true => {
            let any = random.between(1, 32);
            (random.pick(&[any, 32, 32, 32]), random.between(1, 64))
        }
        false => (
            random.between(1, FEW_THREADS),
            random.between(1, FEW_OBJECTS),
        ),
    };
    let given = draw_given(random, threads as u8);
    Table::fresh_given(threads as u16, objects as u16, false, &given)
        .expect("sizes and ranks in range")
}

/// Any thread's number.
fn some_thread(random: &mut Random, table: &Table) -> u8 {
    random.between(1, table.threads.into()) as u8
}

fn draw_object(random: &mut Random, table: &mut Table, object: u8) {
    let thread = u16::from(some_thread(random, table));
    let any = random.between(0, MAX_COUNT.into()) as u8;
    let count = random.pick(&[0, 0, 1, 2, MAX_COUNT - 1, MAX_COUNT, any]);
    let fat = LockWord::Fat {
        monitor: object.into(),
    };
    let word = random.pick(&[
        LockWord::Free,
        LockWord::Anonymous,
        LockWord::Flat { thread, count },
        LockWord::Reserved { thread, count },
        fat,
        fat,
    ]);
    let holder = match random.percent(60) {
        true => some_thread(random, table),
        false => 0,
    };
    let any = random.between(0, MAX_DEPTH.into()) as u16;
    let depth = random.pick(&[0, 0, 1, 2, MAX_DEPTH - 1, MAX_DEPTH, any]);
    let record = table.object_mut(object);
    record.word = word.encode();
    record.contention_flag = any % 2 == 1;
    record.monitor.holder = holder;
    record.monitor.depth = if holder == 0 { 0 } else { depth };
}

/// The phases that an operation uses, those of a queued thread with what they carry.
fn phases(operation: Operation) -> &'static [Phase] {
    match operation {
        Operation::Enter => &[
            Phase::Look,
            Phase::Store,
            Phase::Cancel,
            Phase::GoIn,
            Phase::Queued(Onward::Check),
            Phase::Check,
            Phase::Try,
            Phase::Contending,
        ],
        Operation::Exit => &[
            Phase::Look,
            Phase::Store,
            Phase::GoIn,
            Phase::Queued(Onward::Tell),
            Phase::Test,
            Phase::Tell,
            Phase::Leave,
        ],
        Operation::Wait | Operation::TimedWait => &[
            Phase::Look,
            Phase::Cancel,
            Phase::GoIn,
            Phase::Queued(Onward::Inflate),
            Phase::Queued(Onward::Resume),
            Phase::Inflate,
            Phase::Wait,
            Phase::Waiting,
            Phase::Resume,
        ],
        Operation::Notify | Operation::NotifyAll => &[Phase::Look],
    }
}

fn draw_thread(random: &mut Random, table: &mut Table, thread: u8) {
    if random.percent(15) {
        return;
    }
    let operation = random.pick(&Operation::ALL);
    let object = random.between(1, table.objects.into()) as u8;
    let mut phase = random.pick(phases(operation));
    let unheld = table.object(object).monitor.holder == 0;
    if unheld && matches!(phase, Phase::Queued(_)) {
        phase = Phase::Look;
    }
    let record = ThreadRecord {
        operation: Some(operation),
        object,
        phase,
        kept_word: kept_word(random, thread, operation, phase),
        saved_depth: match phase.uses_saved_depth() {
            true => random.between(1, MAX_DEPTH.into()) as u16,
            false => 0,
        },
        ticks: ticks(random, operation, phase),
        ..ThreadRecord::default()
    };
    put(table, thread, record);
}

/// Gives a thread its record, with the rank that it has, and its place in the chain that its phase names.
fn put(table: &mut Table, thread: u8, record: ThreadRecord) {
    let rank = table.thread(thread).rank;
    *table.thread_mut(thread) = ThreadRecord { rank, ..record };
    if let Some(chain) = record.phase.chain() {
        table.join(record.object, chain, thread);
    }
}

/// A thread that inflates or hands with its next step: it holds the monitor, and word and depth are what its phase wants. Gives its number.
fn draw_actor(random: &mut Random, table: &mut Table) -> u8 {
    let number = some_thread(random, table);
    let object = random.between(1, table.objects.into()) as u8;
    let flat = |thread: u8, count: u8| LockWord::Flat {
        thread: thread.into(),
        count,
    };
    let own = flat(number, random.pick(&[0, 1, MAX_COUNT]));
    let of_another = flat(number % table.threads + 1, 0);
    let fat = LockWord::Fat {
        monitor: object.into(),
    };
    let depth = table.object(object).monitor.depth;
    let (operation, phase, word, depth) = random.pick(&[
        (Operation::Enter, Phase::Check, own, depth),
        (Operation::Enter, Phase::Try, LockWord::Free, depth),
        (Operation::Wait, Phase::Inflate, own, depth),
        (Operation::TimedWait, Phase::Inflate, own, depth),
        (Operation::Enter, Phase::Try, of_another, depth),
        (Operation::Exit, Phase::Leave, fat, 0),
        (Operation::Wait, Phase::Wait, fat, depth.max(1)),
        (Operation::TimedWait, Phase::Wait, fat, depth.max(1)),
    ]);
    table.object_mut(object).word = word.encode();
    table.object_mut(object).monitor.holder = number;
    table.object_mut(object).monitor.depth = depth;
    let record = ThreadRecord {
        operation: Some(operation),
        object,
        phase,
        ticks: ticks(random, operation, phase),
        ..ThreadRecord::default()
    };
    put(table, number, record);
    number
}

/// A wait that runs out with the next tick, on an object whose monitor mostly nobody holds.
fn draw_due(random: &mut Random, table: &mut Table, thread: u8) {
    let object = random.between(1, table.objects.into()) as u8;
    let monitor = &mut table.object_mut(object).monitor;
    if monitor.entry == 0 && random.percent(70) {
        (monitor.holder, monitor.depth) = (0, 0);
    }
    let record = ThreadRecord {
        operation: Some(Operation::TimedWait),
        object,
        phase: Phase::Waiting,
        saved_depth: random.between(1, MAX_DEPTH.into()) as u16,
        ticks: 1,
        ..ThreadRecord::default()
    };
    put(table, thread, record);
}

/// Parks a thread on the object that another is at, mostly inside an exit.
fn draw_behind(random: &mut Random, table: &mut Table, thread: u8, other: u8) {
    let exit = (Operation::Exit, Phase::Queued(Onward::Tell));
    let (operation, phase) = random.pick(&[
        exit,
        exit,
        (Operation::Enter, Phase::Queued(Onward::Check)),
        (Operation::Enter, Phase::Contending),
    ]);
    let record = ThreadRecord {
        operation: Some(operation),
        object: table.thread(other).object,
        phase,
        ..ThreadRecord::default()
    };
    put(table, thread, record);
}

/// What a timed wait has left: often so little that the next tick ends it, and none at times where it may have run out.
fn ticks(random: &mut Random, operation: Operation, phase: Phase) -> u16 {
    if operation != Operation::TimedWait {
        return 0;
    }
    if phase.is_woken() && random.percent(50) {
        return 0;
    }
    let any = random.between(1, MAX_LIMIT.into()) as u16;
    random.pick(&[1, 1, 1, 2, MAX_LIMIT, any])
}

/// A reserved word of the thread, with a count that its operation can store the next of.
fn kept_word(random: &mut Random, thread: u8, operation: Operation, phase: Phase) -> u32 {
    if phase != Phase::Store {
        return 0;
    }
    let count = match operation {
        Operation::Enter => random.between(0, u64::from(MAX_COUNT) - 1),
        _ => random.between(1, MAX_COUNT.into()),
    };
    let word = LockWord::Reserved {
        thread: thread.into(),
        count: count as u8,
    };
    word.encode()
}
