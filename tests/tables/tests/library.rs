//! The library beside the second engine in short, the wrapper's lock words, and refusals on memory that may only be read.

use duskclamp::raw;
use reference::engine::Event;
use reference::table::Table;
use reference::word::LockWord;
use std::os::unix::process::ExitStatusExt;
use std::process::{Command, ExitCode};
use tables::cases::cases;
use tables::compare::{Run, TIMED_WAIT};
use tables::layout::{encode, encode_event, TABLE_SIZE};
use tables::read_only::ReadOnly;

const SIGSEGV: i32 = 11;

#[test]
fn the_two_engines_agree() {
    let mut run = Run::new(1);
    run.check_cases();
    for place in 0..5_000 {
        run.check_table(place);
        run.check_run(place);
    }
    for _ in 0..200 {
        run.check_any_fresh();
    }
    assert_eq!(run.finish(false), ExitCode::SUCCESS);
}

/// A table is so long by the header and by the library, which the layout here is compared with byte by byte.
#[test]
fn the_sizes_of_a_table_agree() {
    assert_eq!(TABLE_SIZE, 1154);
    assert_eq!(
        (raw::table_size(), duskclamp::TABLE_SIZE),
        (TABLE_SIZE, TABLE_SIZE)
    );
    let header = include_str!("../../../include/duskclamp.h");
    assert!(header.contains(&format!("#define DUSKCLAMP_TABLE_SIZE {TABLE_SIZE}\n")));
}

/// The highest rank in the wrapper and in the header is the second engine's.
#[test]
fn the_highest_ranks_agree() {
    let most = u32::from(reference::table::MAX_RANK);
    assert_eq!(duskclamp::MAX_RANK, most);
    let header = include_str!("../../../include/duskclamp.h");
    assert!(header.contains(&format!("#define DUSKCLAMP_RANKS {most}\n")));
}

/// The number of steps in the wrapper and in the header is the one that the stress program holds the library to.
#[test]
fn the_numbers_of_steps_agree() {
    let most = reference::own_steps::MOST;
    assert_eq!(duskclamp::MAX_STEPS, most);
    let header = include_str!("../../../include/duskclamp.h");
    assert!(header.contains(&format!("#define DUSKCLAMP_STEPS {most}\n")));
}

/// What the wrapper has to say of a word. A fat word with number 0 is no lock word: no object has that number.
fn said(word: u32) -> duskclamp::LockWord {
    match LockWord::decode(word) {
        Some(LockWord::Free) => duskclamp::LockWord::Free,
        Some(LockWord::Flat { thread, count }) => duskclamp::LockWord::Flat {
            thread: thread.into(),
            depth: u32::from(count) + 1,
        },
        Some(LockWord::Anonymous) => duskclamp::LockWord::Anonymous,
        Some(LockWord::Reserved { thread, count }) => duskclamp::LockWord::Reserved {
            thread: thread.into(),
            depth: count.into(),
        },
        Some(LockWord::Fat { monitor: 1.. }) => duskclamp::LockWord::Monitor,
        Some(LockWord::Fat { monitor: 0 }) | None => duskclamp::LockWord::Invalid,
    }
}

/// The wrapper makes its words from questions alone, the second decoder from the bits. Every low byte, few numbers and single bits above them.
#[test]
fn lock_words_are_read_alike() {
    let mut table = Table::fresh(3, 1, false).expect("sizes in range");
    let mut names = Vec::new();
    for number in [0, 1, 3, 300, 0x7fff, 0x8000, 0x80_0000] {
        for word in (number << 8)..=(number << 8 | 0xff) {
            table.object_mut(1).word = word;
            let bytes = encode(&table)[..].try_into().expect("a table's size");
            let given = duskclamp::Table::from_bytes(bytes).lock_word(1);
            assert_eq!(given, Ok(said(word)), "word {word:06x}");
            names.push(said(word).name());
        }
    }
    names.sort_unstable();
    names.dedup();
    let all = [
        "anonymous",
        "flat",
        "free",
        "monitor",
        "no lock word",
        "reserved",
    ];
    assert_eq!(names, all);
}

/// The kinds have the same numbers in the header as in the wrapper's raw calls, and the same names.
#[test]
fn the_numbers_of_kinds_agree() {
    let header = include_str!("../../../include/duskclamp.h");
    let kinds = ["FREE", "FLAT", "ANONYMOUS", "RESERVED", "FAT", "NONE"];
    let words = [0, 0x100, 2, 0x302, 0x101, 3];
    let mut table = Table::fresh(3, 1, false).expect("sizes in range");
    for (number, (kind, word)) in kinds.into_iter().zip(words).enumerate() {
        assert!(header.contains(&format!("#define DUSKCLAMP_WORD_{kind} {number} ")));
        let name = said(word).name();
        assert!(header.contains(&format!("case DUSKCLAMP_WORD_{kind}: return \"{name}\";")));
        table.object_mut(1).word = word;
        assert_eq!(raw::word_kind(&encode(&table), 1), (number as u64) << 8);
    }
}

/// Returned with nothing to store: all refusals but 18 and 19, which make the thread idle.
fn stores_nothing(number: u8) -> bool {
    matches!(number, 11..=17 | 20 | 23)
}

#[test]
fn refused_events_store_nothing() {
    let mut seen = Vec::new();
    for case in cases()
        .into_iter()
        .filter(|case| stores_nothing(case.number))
    {
        let bytes = encode(&case.table);
        let table = ReadOnly::new(&bytes);
        let answer = match case.event {
            Event::Begin {
                thread,
                operation: TIMED_WAIT,
                object,
                limit,
            } => table.timed_wait(thread.into(), object.into(), limit),
            Event::Begin {
                thread,
                operation,
                object,
                ..
            } => table.begin(thread.into(), operation.into(), object.into()),
            Event::Step { thread } => table.step(thread.into()),
            Event::Tick => table.tick(),
        };
        assert_eq!(answer, case.number.into());
        assert_eq!(table.bytes(), bytes);
        seen.push(case.number);
    }
    seen.sort_unstable();
    seen.dedup();
    assert_eq!(seen, [11, 12, 13, 14, 15, 16, 17, 20, 23]);
}

#[test]
fn bytes_that_are_no_table_are_not_stored_to() {
    for (length, value) in [(0, 0), (TABLE_SIZE - 1, 0), (TABLE_SIZE, 0xff)] {
        // A mapping has at least a byte.
        let table = ReadOnly::new(&vec![value; length.max(1)]);
        assert_eq!(table.begin(1, 1, 1), 11);
        assert_eq!(table.timed_wait(1, 1, 1), 11);
        assert_eq!(table.step(1), 11);
        assert_eq!(table.tick(), 11);
    }
}

/// A run of refused events stores nothing either, in the table; its answers are written.
#[test]
fn refused_runs_store_nothing() {
    for case in cases()
        .into_iter()
        .filter(|case| stores_nothing(case.number))
    {
        let bytes = encode(&case.table);
        let table = ReadOnly::new(&bytes);
        let event = encode_event(case.event);
        let mut answers = [0; 3];
        assert_eq!(table.run(&[event, event].concat(), &mut answers), 2);
        assert_eq!(answers, [case.number.into(), case.number.into(), 0]);
        assert_eq!(table.bytes(), bytes);
    }
    for value in [0, 0xff] {
        let mut answers = [0; 1];
        let table = ReadOnly::new(&[value; TABLE_SIZE]);
        assert_eq!(table.run(&[1, 1, 0, 0, 0, 0, 0, 0], &mut answers), 1);
        assert_eq!(answers, [11]);
        assert_eq!(table.run(&[2, 0, 0, 0, 0, 0, 0, 0], &mut answers), 1);
        assert_eq!(answers, [11]);
    }
}

#[test]
fn refused_fresh_tables_store_nothing() {
    let short = ReadOnly::new(&[0; TABLE_SIZE - 1]);
    assert_eq!(short.fresh(1, 1), 11);
    let whole = ReadOnly::new(&[0; TABLE_SIZE]);
    for (threads, objects) in [(0, 1), (33, 1), (1, 0), (1, 65), (u32::MAX, u32::MAX)] {
        assert_eq!(whole.fresh(threads, objects), 22);
    }
    for given in [&[4][..], &[0, 0xff], &[3; 64]] {
        assert_eq!(short.fresh_given(2, 1, given), 11);
        assert_eq!(whole.fresh_given(33, 1, given), 22);
    }
    for given in [&[4][..], &[0, 0xff], &[0, 4, 0]] {
        assert_eq!(whole.fresh_given(2, 1, given), 27);
    }
    assert_eq!(whole.bytes(), [0; TABLE_SIZE]);
}

/// The tests above see a store: an accepted event makes one, and ends its process.
#[test]
fn a_store_ends_the_process() {
    let status = Command::new(std::env::current_exe().expect("this program has a path"))
        .args(["--exact", "accepted_on_read_only_memory", "--ignored"])
        .output()
        .expect("this program runs")
        .status;
    assert_eq!(status.signal(), Some(SIGSEGV));
}

#[test]
#[ignore = "ends its process; run by a_store_ends_the_process"]
fn accepted_on_read_only_memory() {
    ReadOnly::new(&[0; TABLE_SIZE]).fresh(1, 1);
}
