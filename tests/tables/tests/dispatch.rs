//! The library's dispatcher: cases with what is expected of them written here; beside the second dispatcher in short; refusals on memory that may only be
//! read; and that the inputs which it is compared on would show the mistakes that a dispatcher may make.

use duskclamp::{raw, ScriptCursor, MAX_QUANTUM, TABLE_SIZE};
use reference::dispatch::{self, dispatch_mistaken, Input, Mistake, Run, Script};
use reference::dispatch_check::Origin;
use reference::random::Random;
use reference::table::{Operation, Phase, Table, ThreadRecord, MAX_DEPTH};
use std::process::ExitCode;
use tables::damage::fields;
use tables::dispatches::Dispatches;
use tables::drawn::Drawn;
use tables::layout::encode;
use tables::read_only::ReadOnly;

const ENTER: u8 = 1;
const EXIT: u8 = 2;
const TIMED_WAIT: u8 = 6;

fn fresh(threads: u16, objects: u16) -> Vec<u8> {
    encode(&Table::fresh(threads, objects, false).expect("sizes in range"))
}

fn script(start: u32, length: u32, cursor: u32) -> ScriptCursor {
    ScriptCursor {
        start,
        length,
        cursor,
    }
}

/// The steps of a run that is not refused, and the cursors behind it.
fn run(
    bytes: &mut [u8],
    quantum: u32,
    scripts: &[u8],
    cursors: &[ScriptCursor],
) -> (Vec<u64>, Vec<u32>) {
    let mut cursors = cursors.to_vec();
    let mut trace = vec![0; 100];
    let answer = raw::dispatch(bytes, quantum, scripts, &mut cursors, &mut trace);
    assert_eq!(answer & 0xff, 0);
    let steps = (answer >> 8) as usize;
    assert!(trace[steps..].iter().all(|entry| *entry == 0));
    trace.truncate(steps);
    (trace, cursors.iter().map(|script| script.cursor).collect())
}

#[test]
fn one_thread_runs_its_script() {
    let mut bytes = fresh(1, 1);
    let (trace, cursors) = run(&mut bytes, 10, &[ENTER, 1, EXIT, 1], &[script(0, 2, 0)]);
    assert_eq!(trace, [0x0103_0001, 0x0103_0000, 0x0100_0001]);
    assert_eq!(cursors, [2]);
    assert_eq!(bytes, fresh(1, 1));
}

/// Thread 1 enters two objects and leaves them; thread 2 wants the first, parks in 8, is told and handed the monitor, and inflates.
#[test]
fn a_thread_parks_and_is_handed_the_monitor() {
    let mut bytes = fresh(2, 2);
    let scripts = [ENTER, 1, ENTER, 2, EXIT, 2, EXIT, 1, ENTER, 1, EXIT, 1];
    let cursors = [script(0, 4, 0), script(4, 2, 0)];
    let (trace, cursors) = run(&mut bytes, 1, &scripts, &cursors);
    let expected = [
        0x0103_0001,
        0x0202_0000,
        0x0103_0001,
        0x0200_0000,
        0x0103_0000,
        0x0200_0000,
        0x0100_0001,
        0x0200_0002,
        0x0103_0000,
        0x0100_0000,
        0x0100_0000,
        0x0100_0000,
        0x0000_0002_0100_0001,
        0x0200_0000,
        0x0201_0001,
        0x0203_0000,
        0x0200_0001,
    ];
    assert_eq!(trace, expected);
    assert_eq!(cursors, [4, 2]);
    assert_eq!(bytes, fresh(2, 2));
}

/// Thread 3 owns object 1 by its monitor when thread 1 queues up for it, and then thread 2, whose rank is higher: it is handed the monitor first.
#[test]
fn a_thread_passes_another_by_its_rank() {
    let mut table = Table::fresh(3, 1, false).expect("sizes in range");
    table.thread_mut(2).rank = 3;
    table.object_mut(1).word = 0x000101;
    table.object_mut(1).monitor.holder = 3;
    table.object_mut(1).monitor.depth = 1;
    let cursors = [script(0, 2, 0), script(0, 2, 0), script(1, 1, 0)];
    let (trace, cursors) = run(&mut encode(&table), 3, &[ENTER, 1, EXIT, 1], &cursors);
    let expected = [
        0x0102_0000,
        0x0100_0002,
        0x0202_0000,
        0x0200_0002,
        0x0303_0000,
        0x0000_0002_0300_0001,
        0x0201_0001,
        0x0203_0000,
        0x0000_0001_0200_0001,
        0x0101_0001,
        0x0103_0000,
        0x0100_0001,
    ];
    assert_eq!(trace, expected);
    assert_eq!(cursors, [2, 2, 1]);
}

#[test]
fn the_last_thread_and_the_last_object_are_reached() {
    let mut bytes = fresh(32, 64);
    let mut cursors = [script(0, 0, 0); 32];
    cursors[31] = script(0, 1, 0);
    let (trace, cursors) = run(&mut bytes, 100, &[ENTER, 64], &cursors);
    assert_eq!(trace, [0x2003_0001]);
    assert_eq!(cursors[31], 1);
    assert_eq!(raw::owner(&bytes, 64) >> 8, 32);
}

#[test]
fn refused_with_18_or_19_is_a_step() {
    let cursors = [script(0, 2, 0)];
    let (trace, _) = run(&mut fresh(1, 1), 1, &[EXIT, 1, ENTER, 1], &cursors);
    assert_eq!(trace, [0x0103_0012, 0x0103_0001]);
    let mut table = Table::fresh(1, 1, false).expect("sizes in range");
    table.object_mut(1).word = 0x000101;
    table.object_mut(1).monitor.holder = 1;
    table.object_mut(1).monitor.depth = MAX_DEPTH;
    let (trace, _) = run(&mut encode(&table), 9, &[ENTER, 1, EXIT, 1], &cursors);
    assert_eq!(trace, [0x0102_0000, 0x0101_0013, 0x0103_0001]);
}

/// Thread 1 is to check a word whose monitor nobody holds.
fn without_rule() -> Table {
    let mut table = Table::fresh(2, 2, false).expect("sizes in range");
    *table.thread_mut(1) = ThreadRecord {
        operation: Some(Operation::Enter),
        object: 1,
        phase: Phase::Check,
        ..ThreadRecord::default()
    };
    table
}

#[test]
fn a_step_without_a_rule_is_none_and_keeps_nobody_else() {
    let mut bytes = encode(&without_rule());
    let cursors = [script(0, 1, 0), script(0, 1, 0)];
    let (trace, cursors) = run(&mut bytes, 3, &[ENTER, 2], &cursors);
    assert_eq!(trace, [0x0203_0001]);
    assert_eq!(cursors, [0, 1]);
    assert_eq!(raw::phase(&bytes, 1) >> 8, 6);
}

/// A call that is refused: the table's bytes, the steps of a turn, the scripts and the records; and its number.
type Refused<'a> = (&'a [u8], u32, &'a [u8], Vec<ScriptCursor>, u64);

/// Two operations lent, with a byte behind them that is none.
const LENT: &[u8] = &[ENTER, 1, EXIT, 1, 9];

fn good_records() -> Vec<ScriptCursor> {
    vec![script(0, 2, 0), script(0, 2, 2)]
}

/// By the table, by the quantum and by the number of records, on a table of two threads and two objects.
fn refused_numbers<'a>(fresh: &'a [u8], unsound: &'a [u8]) -> Vec<Refused<'a>> {
    vec![
        (&[], 1, LENT, good_records(), 11),
        (&fresh[1..], 1, LENT, good_records(), 11),
        (unsound, 0, LENT, vec![], 11),
        (unsound, 1, LENT, good_records(), 11),
        (fresh, 0, LENT, good_records(), 25),
        (fresh, MAX_QUANTUM + 1, LENT, good_records(), 25),
        (fresh, 257, LENT, good_records(), 25),
        (fresh, u32::MAX, LENT, vec![], 25),
        (fresh, 1, LENT, vec![], 26),
        (fresh, 1, LENT, good_records()[..1].to_vec(), 26),
        (fresh, 1, LENT, vec![script(0, 0, 0); 3], 26),
    ]
}

/// By a record or an operation, on the same table: beyond what is lent, beyond the script, and unknown, the last also behind the cursor.
fn refused_scripts(fresh: &[u8]) -> Vec<Refused<'_>> {
    let beyond = [
        script(0, 3, 0),
        script(2, 1, 0),
        script(3, 0, 0),
        script(u32::MAX, 1, 0),
        script(2, u32::MAX - 1, 0),
        script(0, 2, 3),
        script(0, 0, 1),
        script(0, 2, u32::MAX),
    ];
    let records = |record: ScriptCursor| vec![script(0, 0, 0), record];
    let of_record = |record: ScriptCursor| (fresh, MAX_QUANTUM, LENT, records(record), 26);
    let mut calls: Vec<Refused> = beyond.into_iter().map(of_record).collect();
    let unknown: [&[u8]; 6] = [
        &[0, 1],
        &[TIMED_WAIT, 1],
        &[7, 1],
        &[255, 1],
        &[1, 0],
        &[1, 3],
    ];
    for operation in unknown {
        for cursor in [0, 1] {
            calls.push((fresh, 1, operation, records(script(0, 1, cursor)), 26));
        }
    }
    calls
}

/// The table and the trace may only be read, and the records are as before.
#[test]
fn refused_dispatches_change_nothing() {
    let (fresh, unsound) = (fresh(2, 2), [0; TABLE_SIZE]);
    let calls = [refused_numbers(&fresh, &unsound), refused_scripts(&fresh)];
    for (bytes, quantum, scripts, cursors, number) in calls.concat() {
        let [table, trace] = [bytes, &[0xa5; 80]].map(ReadOnly::new);
        let mut records = cursors.clone();
        let answer = table.dispatch(quantum, scripts, &mut records, &trace);
        assert_eq!(
            (answer, &records),
            (number, &cursors),
            "{quantum} {scripts:?}"
        );
    }
}

/// The same calls with one thing mended are not refused.
#[test]
fn calls_at_the_edge_of_a_refusal_are_accepted() {
    for quantum in [1, MAX_QUANTUM] {
        for record in [script(0, 2, 2), script(2, 0, 0), script(1, 1, 1)] {
            let cursors = [script(0, 2, 0), record];
            let (trace, after) = run(&mut fresh(2, 2), quantum, LENT, &cursors);
            assert_eq!((trace.len(), after), (3, vec![2, record.cursor]));
        }
    }
}

#[test]
fn the_two_dispatchers_agree() {
    let mut dispatches = Dispatches::default();
    for seed in 0..2_000 {
        dispatches.check(seed);
    }
    assert_eq!(dispatches.finish(false), ExitCode::SUCCESS);
}

/// Too long to be drawn: one thread enters until it is refused with 19, and leaves as often.
#[test]
fn the_two_dispatchers_agree_on_nesting_to_the_limit() {
    let depth = usize::from(MAX_DEPTH) + 1;
    let scripts = [[ENTER, 1].repeat(depth), [EXIT, 1].repeat(depth)].concat();
    let input = Input {
        table: Table::fresh(1, 1, true).expect("sizes in range"),
        quantum: 7,
        cursors: vec![Script {
            start: 0,
            length: scripts.len() as u32 / 2,
            cursor: 0,
        }],
        scripts,
    };
    let drawn = Drawn::of(input, Origin::Schedule);
    let compared = Dispatches::default().compare(&mut Random::new(1), &drawn);
    assert_eq!(compared, Ok(()));
}

/// Whether a call shows the difference.
fn differs(one: &Run, other: &Run) -> bool {
    one.returned != other.returned
        || one.trace != other.trace
        || one.cursors != other.cursors
        || one.table != other.table
}

/// Each mistake is made until it was noticed so many times.
const NOTICED: usize = 20;

#[test]
fn every_mistake_would_be_noticed() {
    let fields = fields();
    let mut noticed = [0; Mistake::ALL.len()];
    for seed in 0..3_000 {
        let drawn = Drawn::any(&mut Random::new(seed), &fields, seed);
        if !drawn.is_table {
            continue;
        }
        let right = dispatch::dispatch(&drawn.input);
        for (times, mistake) in noticed.iter_mut().zip(Mistake::ALL) {
            if *times < NOTICED {
                let mistaken = dispatch_mistaken(&drawn.input, Some(mistake));
                *times += usize::from(differs(&right, &mistaken));
            }
        }
    }
    assert_eq!(noticed, [NOTICED; Mistake::ALL.len()]);
}

/// The longest turn in the wrapper and in the header is the second dispatcher's.
#[test]
fn the_longest_turns_agree() {
    let most = dispatch::MAX_QUANTUM;
    assert_eq!(MAX_QUANTUM, most);
    let header = include_str!("../../../include/duskclamp.h");
    assert!(header.contains(&format!("#define DUSKCLAMP_QUANTUM {most}\n")));
}
