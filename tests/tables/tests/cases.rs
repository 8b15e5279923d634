//! Cases on the proved engine, through its library: tables that are sound and tables that break one clause of document 01's "Sound means" or of request
//! L1's, the cases K1 to K9, ticks, request L2's exits, whom events unpark, and who keeps a thread. What is expected is written here, and not asked of the second engine.

use duskclamp::{
    Answer, Blocker, Chain, Operation as Wanted, Refusal, Table as Engine, ThreadSet, Words,
};
use reference::table::{Monitor, ObjectRecord, Onward, Operation, Phase, Table, ThreadRecord};
use tables::layout::{encode, TABLE_SIZE, THREADS_START};

const ENTER: Operation = Operation::Enter;
const EXIT: Operation = Operation::Exit;
const WAIT: Operation = Operation::Wait;
const TIMED: Operation = Operation::TimedWait;

/// The first object's fat word.
const FAT: u32 = 0x000101;

fn engine(table: &Table) -> Engine {
    Engine::from_bytes(encode(table).try_into().expect("a table's size"))
}

/// A step of thread 0 is 11 on a table that is not sound, and 12 on one that is.
fn is_sound(table: &Table) -> bool {
    match engine(table).step(0).result {
        Err(Refusal::NotSound) => false,
        Err(Refusal::NoSuchThread) => true,
        other => panic!("{other:?}"),
    }
}

/// Three threads and two objects.
fn fresh() -> Table {
    Table::fresh(3, 2, false).expect("sizes in range")
}

fn with_thread(mut table: Table, number: usize, record: ThreadRecord) -> Table {
    table.thread_records[number - 1] = record;
    table
}

fn with_object(mut table: Table, number: usize, record: ObjectRecord) -> Table {
    table.object_records[number - 1] = record;
    table
}

fn with_word(word: u32) -> Table {
    let record = ObjectRecord {
        word,
        ..ObjectRecord::default()
    };
    with_object(fresh(), 1, record)
}

/// At object 1 in a phase, with nothing else in use.
fn at(operation: Operation, phase: Phase) -> ThreadRecord {
    ThreadRecord {
        operation: Some(operation),
        object: 1,
        phase,
        ..ThreadRecord::default()
    }
}

/// Thread 1 has this record.
fn first(record: ThreadRecord) -> Table {
    with_thread(fresh(), 1, record)
}

/// Thread 1 is about to store this word.
fn storing(operation: Operation, kept_word: u32) -> Table {
    first(ThreadRecord {
        kept_word,
        ..at(operation, Phase::Store)
    })
}

/// Object 1 has a fat word and this monitor.
fn monitored(table: Table, depth: u16, holder: u8, [entry, contention, waiting]: [u8; 3]) -> Table {
    let monitor = Monitor {
        holder,
        depth,
        entry,
        contention,
        waiting,
    };
    let record = ObjectRecord {
        word: FAT,
        contention_flag: false,
        monitor,
    };
    with_object(table, 1, record)
}

/// Thread 1 holds object 1, thread 2 has this record, and the chains begin with these threads.
fn parked(record: ThreadRecord, chains: [u8; 3]) -> Table {
    monitored(with_thread(fresh(), 2, record), 1, 1, chains)
}

fn saving(saved_depth: u16, record: ThreadRecord) -> ThreadRecord {
    ThreadRecord {
        saved_depth,
        ..record
    }
}

fn ticking(ticks: u16, record: ThreadRecord) -> ThreadRecord {
    ThreadRecord { ticks, ..record }
}

/// Thread 2 waits on object 1, or is queued there, with so many ticks left.
fn timed(phase: Phase, ticks: u16) -> Table {
    let saved_depth = u16::from(phase.uses_saved_depth());
    let record = ticking(ticks, saving(saved_depth, at(TIMED, phase)));
    match phase {
        Phase::Waiting => parked(record, [0, 0, 2]),
        Phase::Queued(_) => parked(record, [2, 0, 0]),
        _ => parked(record, [0, 0, 0]),
    }
}

fn queued(operation: Operation, onward: Onward, saved_depth: u16) -> Table {
    let record = saving(saved_depth, at(operation, Phase::Queued(onward)));
    parked(record, [2, 0, 0])
}

/// Threads 2 and 3 in the entry chain of object 1; thread 3 has this next index.
fn queue(depth: u16, holder: u8, next: u8) -> Table {
    let record = at(ENTER, Phase::Queued(Onward::Check));
    let two = with_thread(fresh(), 2, ThreadRecord { next: 3, ..record });
    let three = with_thread(two, 3, ThreadRecord { next, ..record });
    monitored(three, depth, holder, [2, 0, 0])
}

fn sized(threads: u8, objects: u8) -> Table {
    Table {
        threads,
        objects,
        ..fresh()
    }
}

#[test]
fn sound_tables() {
    let waiting = saving(1, at(WAIT, Phase::Waiting));
    let cases = [
        ("fresh, free words", fresh()),
        ("fresh, reserved words", Table::fresh(3, 2, true).unwrap()),
        ("fresh, 32 and 64", Table::fresh(32, 64, true).unwrap()),
        ("two threads queued", queue(1, 1, 0)),
        ("queued for 15", queued(WAIT, Onward::Resume, 65535)),
        (
            "contending",
            parked(at(ENTER, Phase::Contending), [0, 2, 0]),
        ),
        ("waiting", parked(waiting, [0, 0, 2])),
        ("enter, kept count 62", storing(ENTER, 0x0001fa)),
        ("exit, kept count 63", storing(EXIT, 0x0001fe)),
        ("timed, looking", timed(Phase::Look, 65535)),
        ("timed, waiting", timed(Phase::Waiting, 1)),
        (
            "timed, queued for 12",
            timed(Phase::Queued(Onward::Inflate), 1),
        ),
        (
            "timed, queued for 15, notified",
            timed(Phase::Queued(Onward::Resume), 1),
        ),
        (
            "timed, queued for 15, run out",
            timed(Phase::Queued(Onward::Resume), 0),
        ),
        ("timed, phase 15, notified", timed(Phase::Resume, 65535)),
        ("timed, phase 15, run out", timed(Phase::Resume, 0)),
    ];
    for (name, table) in cases {
        assert!(is_sound(&table), "{name}");
    }
}

#[test]
fn sizes_and_words() {
    let cases = [
        ("no threads", sized(0, 2)),
        ("33 threads", sized(33, 2)),
        ("no objects", sized(3, 0)),
        ("65 objects", sized(3, 65)),
        ("no lock word", with_word(0x000003)),
        ("flat word of thread 4", with_word(0x000400)),
        ("reserved word of thread 4", with_word(0x000406)),
        ("fat word of another object", with_word(0x000201)),
    ];
    for (name, table) in cases {
        assert!(!is_sound(&table), "{name}");
    }
}

#[test]
fn operations_and_phases() {
    let look = at(ENTER, Phase::Look);
    let none = ThreadRecord {
        operation: None,
        ..look
    };
    let cases = [
        (
            "enter at no object",
            first(ThreadRecord { object: 0, ..look }),
        ),
        (
            "enter at object 3",
            first(ThreadRecord { object: 3, ..look }),
        ),
        ("no operation in phase 1", first(none)),
        ("enter in phase 9", first(at(ENTER, Phase::Test))),
        ("exit in phase 3", first(at(EXIT, Phase::Cancel))),
        ("wait in phase 11", first(at(WAIT, Phase::Leave))),
        (
            "notify in phase 4",
            first(at(Operation::Notify, Phase::GoIn)),
        ),
        ("enter queued for 12", queued(ENTER, Onward::Inflate, 0)),
        ("exit queued for 6", queued(EXIT, Onward::Check, 0)),
        ("wait queued for 10", queued(WAIT, Onward::Tell, 0)),
        ("timed in phase 2", timed(Phase::Store, 1)),
        ("timed in phase 11", timed(Phase::Leave, 1)),
        ("timed queued for 6", timed(Phase::Queued(Onward::Check), 1)),
    ];
    for (name, table) in cases {
        assert!(!is_sound(&table), "{name}");
    }
}

#[test]
fn kept_words_and_saved_depths() {
    let cases = [
        ("kept word of another thread", storing(ENTER, 0x000206)),
        ("kept word flat", storing(ENTER, 0x000104)),
        ("enter, kept count 63", storing(ENTER, 0x0001fe)),
        ("exit, kept count 0", storing(EXIT, 0x000102)),
        (
            "waiting with no saved depth",
            parked(at(WAIT, Phase::Waiting), [0, 0, 2]),
        ),
        (
            "phase 15 with no saved depth",
            first(at(WAIT, Phase::Resume)),
        ),
        (
            "queued for 15 with no saved depth",
            queued(WAIT, Onward::Resume, 0),
        ),
    ];
    for (name, table) in cases {
        assert!(!is_sound(&table), "{name}");
    }
}

#[test]
fn ticks_left() {
    let unwoken = [
        Phase::Look,
        Phase::Cancel,
        Phase::GoIn,
        Phase::Queued(Onward::Inflate),
        Phase::Inflate,
        Phase::Wait,
        Phase::Waiting,
    ];
    for phase in unwoken {
        assert!(is_sound(&timed(phase, 1)), "timed with a tick, {phase:?}");
        assert!(!is_sound(&timed(phase, 0)), "timed with none, {phase:?}");
    }
    let waiting = ticking(1, saving(1, at(WAIT, Phase::Waiting)));
    let cases = [
        ("wait with ticks", parked(waiting, [0, 0, 2])),
        (
            "enter with ticks",
            first(ticking(1, at(ENTER, Phase::Look))),
        ),
        (
            "idle with ticks",
            first(ticking(1, ThreadRecord::default())),
        ),
        (
            "thread record past the last with ticks",
            with_thread(fresh(), 4, ticking(1, ThreadRecord::default())),
        ),
    ];
    for (name, table) in cases {
        assert!(!is_sound(&table), "{name}");
    }
}

#[test]
fn the_last_operation_is_6() {
    let fresh: [u8; TABLE_SIZE] = encode(&fresh()).try_into().expect("a table's size");
    for (operation, answered) in [(6, Ok(3)), (7, Err(Refusal::NotSound))] {
        let mut bytes = fresh;
        bytes[THREADS_START] = operation;
        assert_eq!(Engine::from_bytes(bytes).thread_count(), answered);
    }
}

#[test]
fn holders_and_chains() {
    let entry = at(ENTER, Phase::Queued(Onward::Check));
    let elsewhere = ThreadRecord { object: 2, ..entry };
    let cases = [
        ("holder 4", monitored(fresh(), 1, 4, [0; 3])),
        ("holder 0 with depth 1", monitored(fresh(), 1, 0, [0; 3])),
        ("holder 0 with an entry chain", queue(0, 0, 0)),
        ("chain that comes back", queue(1, 1, 2)),
        ("chain to thread 4", queue(1, 1, 4)),
        ("parked in no chain", parked(entry, [0; 3])),
        ("queued in the contention chain", parked(entry, [0, 2, 0])),
        ("queued at another object", parked(elsewhere, [2, 0, 0])),
        (
            "idle thread in a chain",
            monitored(fresh(), 1, 1, [3, 0, 0]),
        ),
    ];
    for (name, table) in cases {
        assert!(!is_sound(&table), "{name}");
    }
}

#[test]
fn past_records_and_unused_fields() {
    let idle = ThreadRecord::default();
    let look = at(ENTER, Phase::Look);
    let flagged = ObjectRecord {
        contention_flag: true,
        ..ObjectRecord::default()
    };
    let kept = ThreadRecord {
        kept_word: 0x000106,
        ..look
    };
    let cases = [
        (
            "thread record past the last",
            with_thread(fresh(), 4, saving(1, idle)),
        ),
        (
            "object record past the last",
            with_object(fresh(), 3, flagged),
        ),
        (
            "idle with an operation",
            first(ThreadRecord {
                operation: Some(ENTER),
                ..idle
            }),
        ),
        (
            "idle at an object",
            first(ThreadRecord { object: 1, ..idle }),
        ),
        ("kept word in phase 1", first(kept)),
        ("saved depth in phase 1", first(saving(1, look))),
        (
            "next index outside a chain",
            first(ThreadRecord { next: 2, ..look }),
        ),
    ];
    for (name, table) in cases {
        assert!(!is_sound(&table), "{name}");
    }
}

/// Owner and depth of object 1 with this word.
fn owned(word: u32) -> (u32, u32) {
    let engine = engine(&with_word(word));
    (engine.owner(1).unwrap(), engine.depth(1).unwrap())
}

/// What thread 1 makes of the word by cancelling it.
fn cancelled(word: u32) -> u32 {
    let table = with_thread(with_word(word), 1, at(ENTER, Phase::Cancel));
    let mut engine = engine(&table);
    assert_eq!(engine.step(1).result, Ok(Answer::GoneOn));
    engine.word(1).unwrap()
}

/// What the first step of an operation on object 1 answers, and the phase and the word behind it.
fn first_step(word: u32, operation: Wanted, thread: u32) -> (Result<Answer, Refusal>, u8, u32) {
    let mut engine = engine(&with_word(word));
    engine.begin(thread, operation, 1).unwrap();
    let result = engine.step(thread).result;
    let phase = engine.phase(thread).unwrap().number();
    (result, phase, engine.word(1).unwrap())
}

/// What the holder of object 1 at this depth is answered when it goes in once more, and the depth behind it.
fn going_in_at(depth: u16) -> (Result<Answer, Refusal>, u32) {
    let table = first(at(ENTER, Phase::GoIn));
    let mut engine = engine(&monitored(table, depth, 1, [0; 3]));
    let result = engine.step(1).result;
    (result, engine.depth(1).unwrap())
}

#[test]
fn k1_to_k9() {
    let finished = Ok(Answer::Finished { woken: 0 });
    assert_eq!((owned(0x000304), owned(0x00030a)), ((3, 2), (3, 2)), "K1");
    assert_eq!(cancelled(0x00030a), 0x000304, "K2");
    assert_eq!(cancelled(0x000302), 0x000000, "K3");
    assert_eq!(cancelled(0x0003fe), 0x0003f8, "K4");
    let full = first_step(0x0003fc, Wanted::Enter, 3);
    assert_eq!(full, (Ok(Answer::GoneOn), 4, 0x0003fc), "K5");
    let nearly = first_step(0x0003f8, Wanted::Enter, 3);
    assert_eq!(nearly, (finished, 0, 0x0003fc), "K5");
    assert!(!is_sound(&with_word(0x000003)), "K6");
    assert!(Engine::fresh(32, 1, Words::Free).is_ok(), "K7");
    let refused = Engine::fresh(33, 1, Words::Free).err();
    assert_eq!(refused, Some(Refusal::SizeOutOfRange), "K7");
    let exit = first_step(0x000002, Wanted::Exit, 1);
    assert_eq!(exit, (Err(Refusal::NotOwner), 0, 0x000002), "K8");
    assert_eq!(going_in_at(65534), (finished, 65535), "K9");
    assert_eq!(going_in_at(65535), (Err(Refusal::TooDeep), 65535), "K9");
}

/// Threads 3, 1 and 2 wait on object 1, in this order: 3 and 2 with one tick left, 1 without a limit.
fn two_due(depth: u16, holder: u8) -> Engine {
    let due = ticking(1, saving(5, at(TIMED, Phase::Waiting)));
    let untimed = saving(5, at(WAIT, Phase::Waiting));
    let mut table = with_thread(fresh(), 3, ThreadRecord { next: 1, ..due });
    table = with_thread(table, 1, ThreadRecord { next: 2, ..untimed });
    table = with_thread(table, 2, due);
    engine(&monitored(table, depth, holder, [0, 0, 3]))
}

/// The holder of object 1, and the threads of its entry and of its waiting chain.
fn shown(engine: &Engine) -> (u32, Vec<u32>, Vec<u32>) {
    let chain = |chain: Chain| engine.chain(1, chain).unwrap().collect();
    let holder = engine.object(1).unwrap().holder;
    (holder, chain(Chain::Entry), chain(Chain::Waiting))
}

/// An accepted tick, and whom it unparked.
fn ticked(engine: &mut Engine) -> Vec<u32> {
    engine.tick().expect("an accepted tick").iter().collect()
}

#[test]
fn a_tick_hands_a_monitor_that_nobody_holds() {
    let mut engine = two_due(0, 0);
    assert_eq!(ticked(&mut engine), [3]);
    assert_eq!(shown(&engine), (3, vec![2], vec![1]));
    let resumed = engine.step(3);
    assert_eq!(resumed.result, Ok(Answer::Finished { woken: 1 }));
    assert!(resumed.commits);
    assert_eq!((engine.owner(1), engine.depth(1)), (Ok(3), Ok(5)));
    // Another tick has nothing to do.
    let before = engine.clone();
    assert_eq!(ticked(&mut engine), []);
    assert_eq!(engine, before);
}

#[test]
fn a_tick_leaves_a_holder_its_monitor() {
    for depth in [0, 1] {
        let mut engine = two_due(depth, 1);
        assert_eq!(ticked(&mut engine), []);
        assert_eq!(shown(&engine), (1, vec![3, 2], vec![1]));
        let ticks = [1, 2, 3].map(|thread| engine.ticks(thread));
        assert_eq!(ticks, [Ok(0), Ok(0), Ok(0)]);
    }
}

/// Thread 1 holds object 1, which has this word, with the flag up; thread 2 is queued inside an exit there, and thread 3 behind it to enter.
fn exit_queued(record: ThreadRecord, word: u32) -> Engine {
    let exit = at(EXIT, Phase::Queued(Onward::Tell));
    let mut table = with_thread(first(record), 2, ThreadRecord { next: 3, ..exit });
    table = with_thread(table, 3, at(ENTER, Phase::Queued(Onward::Check)));
    table = monitored(table, 0, 1, [2, 0, 0]);
    table.object_records[0].word = word;
    table.object_records[0].contention_flag = true;
    engine(&table)
}

/// What a step of thread 1 answers, and whom it unparked.
fn stepped(engine: &mut Engine) -> (Result<Answer, Refusal>, Vec<u32>) {
    let outcome = engine.step(1);
    (outcome.result, outcome.unparked.iter().collect())
}

#[test]
fn inflating_lets_exits_out() {
    let finished = Answer::Finished { woken: 0 };
    for (record, word, answer, depth) in [
        (at(ENTER, Phase::Check), 0x0001fc, finished, 65),
        (at(ENTER, Phase::Try), 0x000000, finished, 1),
        (at(WAIT, Phase::Inflate), 0x000108, Answer::GoneOn, 3),
    ] {
        let mut engine = exit_queued(record, word);
        assert_eq!(stepped(&mut engine), (Ok(answer), vec![2]));
        assert_eq!((engine.owner(1), engine.depth(1)), (Ok(1), Ok(depth)));
        assert_eq!(engine.word(1), Ok(FAT));
        assert_eq!(shown(&engine), (1, vec![3], vec![]));
        // Thread 2 is idle, and may begin.
        assert_eq!(engine.step(2).result, Err(Refusal::ThreadIdle));
        assert_eq!(engine.begin(2, Wanted::Enter, 1), Ok(()));
    }
}

/// Thread 1 is about to go in for an exit, on a fat word with this holder.
fn exit_going_in(holder: u8, flag: bool) -> Engine {
    let mut table = monitored(first(at(EXIT, Phase::GoIn)), 0, holder, [0; 3]);
    table.object_records[0].contention_flag = flag;
    engine(&table)
}

#[test]
fn an_exit_goes_in_with_the_flag_up_alone() {
    for holder in [0, 1, 2] {
        let mut engine = exit_going_in(holder, false);
        let step = engine.step(1);
        assert_eq!(step.result, Ok(Answer::Finished { woken: 0 }));
        assert!(!step.commits);
        assert_eq!(shown(&engine), (holder.into(), vec![], vec![]));
        assert_eq!(engine.phase(1).unwrap().number(), 0);
    }
    assert_eq!(exit_going_in(0, true).step(1).result, Ok(Answer::GoneOn));
    assert_eq!(exit_going_in(2, true).step(1).result, Ok(Answer::Parked));
    let no_rule = exit_going_in(1, true).step(1).result;
    assert_eq!(no_rule, Err(Refusal::NoRule));
}

/// Thread 1 holds object 1 at a depth, with this word and record; threads 2 and 3 are queued there, in this order.
fn two_queued(record: ThreadRecord, word: u32, depth: u16) -> Engine {
    let mut table = with_thread(queue(depth, 1, 0), 1, record);
    table.object_records[0].word = word;
    engine(&table)
}

#[test]
fn a_hand_names_its_thread() {
    let finished = Answer::Finished { woken: 0 };
    for (record, word, depth, answer) in [
        (at(ENTER, Phase::Try), 0x000200, 0, Answer::Parked),
        (at(EXIT, Phase::Leave), FAT, 0, finished),
        (at(WAIT, Phase::Wait), FAT, 3, Answer::Parked),
    ] {
        let mut engine = two_queued(record, word, depth);
        assert_eq!(stepped(&mut engine), (Ok(answer), vec![2]));
        assert_eq!(engine.object(1).unwrap().holder, 2);
    }
}

#[test]
fn moved_threads_stay_parked() {
    let waiting = saving(1, at(WAIT, Phase::Waiting));
    for operation in [Operation::Notify, Operation::NotifyAll] {
        let table = parked(waiting, [0, 0, 2]);
        let mut engine = engine(&with_thread(table, 1, at(operation, Phase::Look)));
        let finished = Ok(Answer::Finished { woken: 1 });
        assert_eq!(stepped(&mut engine), (finished, vec![]));
        assert_eq!(shown(&engine), (1, vec![2], vec![]));
    }
    let mut table = parked(at(ENTER, Phase::Contending), [0, 2, 0]);
    table = with_thread(table, 1, at(EXIT, Phase::Tell));
    table.object_records[0].contention_flag = true;
    let mut engine = engine(&table);
    assert_eq!(stepped(&mut engine), (Ok(Answer::GoneOn), vec![]));
    assert_eq!(shown(&engine), (1, vec![2], vec![]));
}

#[test]
fn refused_steps_unpark_nobody() {
    for (record, depth, refusal) in [
        (at(EXIT, Phase::Look), 0, Refusal::NotOwner),
        (at(ENTER, Phase::GoIn), 65535, Refusal::TooDeep),
        (at(EXIT, Phase::Leave), 1, Refusal::NoRule),
        (ThreadRecord::default(), 1, Refusal::ThreadIdle),
    ] {
        let mut engine = two_queued(record, FAT, depth);
        assert_eq!(stepped(&mut engine), (Err(refusal), vec![]));
        assert_eq!(shown(&engine).1, [2, 3]);
    }
}

/// One tick hands the monitors of two objects, to threads 1 and 32.
#[test]
fn the_first_and_the_last_bit() {
    let due = ticking(1, saving(5, at(TIMED, Phase::Waiting)));
    let all = Table::fresh(32, 2, false).unwrap();
    let mut table = monitored(with_thread(all, 32, due), 0, 0, [0, 0, 32]);
    table = with_thread(table, 1, ThreadRecord { object: 2, ..due });
    table.object_records[1].word = 0x000201;
    table.object_records[1].monitor.waiting = 1;
    let unparked = engine(&table).tick();
    assert_eq!(unparked, Ok(ThreadSet::from_bits(0x8000_0001)));
}

/// Who keeps thread 2, which is first in the entry chain of object 1, with this record; the table is sound.
fn keeper(record: ThreadRecord, depth: u16, holder: u8) -> Option<Blocker> {
    let table = monitored(with_thread(fresh(), 2, record), depth, holder, [2, 0, 0]);
    assert!(is_sound(&table));
    engine(&table).blocker(2).unwrap()
}

/// Thread 1 owns the object. It keeps whoever wants to enter; an exit has left, and waits for the monitor.
#[test]
fn an_owner_keeps_no_exit() {
    let entering = at(ENTER, Phase::Queued(Onward::Check));
    let leaving = at(EXIT, Phase::Queued(Onward::Tell));
    assert_eq!(keeper(entering, 1, 1), Some(Blocker::Owner(1)));
    assert_eq!(keeper(leaving, 1, 1), Some(Blocker::Holder(1)));
}

/// No schedule leads to a table whose holder is queued for what it holds.
#[test]
fn nobody_keeps_itself() {
    let entering = at(ENTER, Phase::Queued(Onward::Check));
    let leaving = at(EXIT, Phase::Queued(Onward::Tell));
    for record in [entering, leaving] {
        assert_eq!(keeper(record, 0, 2), None);
        assert_eq!(keeper(record, 1, 2), None);
        assert_eq!(keeper(record, 0, 1), Some(Blocker::Holder(1)));
    }
}
