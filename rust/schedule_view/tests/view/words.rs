//! That every kind of answer, refusal, ending and malformed line has its words, and that none is forgotten.

use crate::common::{asked, explained, paragraph, run, schedule};
use crate::expected::{answers, endings, malformed};
use duskclamp::{Answer, Blocker, Chain, LockWord, Object, Operation, Outcome, Phase, Refusal};
use duskclamp::{Thread, ThreadSet, Words};
use schedule_view::ending;
use schedule_view::engine::Engine;
use schedule_view::explain::Ended;
use schedule_view::line::{Event, Header};
use schedule_view::malformed::Cause;
use schedule_view::ranks::Ranks;
use schedule_view::run::{Change, Happened, Run, State, ThreadSeen};
use schedule_view::schedule::Schedule;
use schedule_view::words::{describe, word};
use std::collections::BTreeSet;
use std::fmt::Debug;
use std::sync::OnceLock;

/// The last event of each schedule of the answers, and the state after it. They are run once, since one of them is long.
fn last_events() -> &'static [(State, Happened)] {
    static EVENTS: OnceLock<Vec<(State, Happened)>> = OnceLock::new();
    EVENTS.get_or_init(|| {
        let last = |(parts, _): &answers::Row| {
            let (run, last) = run(&schedule(parts));
            assert_eq!(*run.state(), asked(&run), "{parts:?}");
            (run.state().clone(), last.expect("an event"))
        };
        answers::ROWS.iter().map(last).collect()
    })
}

/// Fails where a kind is missing among those that were met.
fn require<T: Ord + Debug>(kinds: impl IntoIterator<Item = T>, met: &BTreeSet<T>) {
    let missing: Vec<T> = kinds
        .into_iter()
        .filter(|kind| !met.contains(kind))
        .collect();
    assert!(missing.is_empty(), "no row has {missing:?}");
}

#[test]
fn answers_in_words() {
    for ((parts, expected), (state, last)) in answers::ROWS.iter().zip(last_events()) {
        assert_eq!(describe(last, state), *expected, "{parts:?}");
    }
}

#[test]
fn every_operation_and_word() {
    let mut begun = BTreeSet::new();
    let mut words = BTreeSet::new();
    for (state, last) in last_events() {
        if let (Event::Begin { operation, .. }, None) = (last.event, last.refusal()) {
            begun.insert(operation.name());
        }
        let objects = state.objects.iter();
        words.extend(objects.map(|object| (object.word.name(), object.record.owner != 0)));
    }
    require(Operation::ALL.map(Operation::name), &begun);
    let kinds = [
        ("free", false),
        ("flat", true),
        ("anonymous", false),
        ("reserved", false),
        ("reserved", true),
        ("monitor", false),
        ("monitor", true),
    ];
    require(kinds, &words);
}

/// What a step that was taken led to.
fn led_to(answer: Answer) -> &'static str {
    match answer {
        Answer::GoneOn => "goes on",
        Answer::Finished { .. } => "finishes",
        Answer::Parked => "parks",
    }
}

#[test]
fn every_step() {
    let mut met = BTreeSet::new();
    for (_, last) in last_events() {
        if let (Event::Step { .. }, Some(thread), Ok(answer)) =
            (last.event, last.thread, last.outcome.result)
        {
            met.insert((thread.phase.number(), led_to(answer)));
        }
    }
    let on = [1, 3, 4, 6, 9, 10, 12].map(|phase| (phase, "goes on"));
    let finished = [1, 2, 4, 6, 7, 9, 11, 15].map(|phase| (phase, "finishes"));
    let parked = [4, 7, 13].map(|phase| (phase, "parks"));
    let steps = on.into_iter().chain(finished).chain(parked);
    assert_eq!(met, steps.collect());
    let phases: BTreeSet<u8> = met.iter().map(|(phase, _)| *phase).collect();
    let unparked = |phase: &u8| ![5, 8, 14].contains(phase);
    require((1..=15).filter(unparked), &phases);
}

#[test]
fn every_way_to_park_and_to_finish() {
    let mut places = BTreeSet::new();
    let mut numbers = BTreeSet::new();
    for (state, last) in last_events() {
        let Some(thread) = last.thread else { continue };
        let after = state.thread(thread.number).expect("the thread");
        match (last.outcome.result, last.parked, thread.operation) {
            (Ok(Answer::Parked), Some(parked), _) => {
                places.insert((after.phase.number(), parked.behind.is_some()));
            }
            (Ok(Answer::Finished { woken }), _, Some(operation)) => {
                numbers.insert((operation.name(), woken));
            }
            _ => {}
        }
    }
    let chains = [5, 8, 14];
    require(
        chains.into_iter().flat_map(|n| [(n, false), (n, true)]),
        &places,
    );
    require(Operation::ALL.map(|one| (one.name(), 0)), &numbers);
    require(
        [("notify", 1), ("notify all", 2), ("timed wait", 1)],
        &numbers,
    );
}

/// What became of a thread: its phases before and after, whether it was unparked, and whether its ticks changed.
fn became(last: &Happened, change: &Change<ThreadSeen>) -> (u8, u8, bool, bool) {
    let Change { before, after } = change;
    let unparked = last.outcome.unparked.contains(after.number);
    let ticked = before.ticks != after.ticks;
    let phases = (before.phase.number(), after.phase.number());
    (phases.0, phases.1, unparked, ticked)
}

#[test]
fn every_way_to_be_changed_by_another() {
    let mut met = BTreeSet::new();
    for (_, last) in last_events() {
        let own = last.event.thread();
        let others = last.threads.iter();
        let others = others.filter(|change| Some(change.after.number) != own);
        met.extend(others.map(|change| became(last, change)));
    }
    let ways = [
        // Handed the monitor: an enter, an exit, a wait that is to begin, one that was notified.
        (5, 6, true, false),
        (5, 10, true, false),
        (5, 12, true, false),
        (5, 15, true, false),
        // Let out, told, notified, sent back.
        (5, 0, true, false),
        (8, 5, false, false),
        (14, 5, false, false),
        (2, 1, false, false),
        // By the clock: handed the monitor, only moved, counted down.
        (14, 15, true, true),
        (14, 5, false, true),
        (14, 14, false, true),
    ];
    assert_eq!(met, BTreeSet::from(ways));
}

#[test]
fn every_refusal_of_a_schedule() {
    let mut met = BTreeSet::new();
    let mut parked = BTreeSet::new();
    for (_, last) in last_events() {
        let Some(refusal) = last.refusal() else {
            continue;
        };
        met.insert(refusal.number());
        if let (Refusal::ThreadParked, Some(thread)) = (refusal, last.thread) {
            let exit = thread.operation == Some(Operation::Exit);
            parked.insert((thread.phase.number(), exit));
        }
    }
    assert_eq!(met, BTreeSet::from([12, 13, 14, 15, 16, 18, 19, 23]));
    require([(5, false), (5, true), (8, false), (14, false)], &parked);
}

/// An engine that refuses every event, with the refusal whose number the event has as its limit. Its lock words are none.
struct Refuser;

impl Engine for Refuser {
    fn fresh(_: Header, _: &Ranks) -> Result<Refuser, Refusal> {
        Ok(Refuser)
    }

    fn apply(&mut self, event: Event) -> Outcome {
        let number = match event {
            Event::Begin { limit, .. } => limit,
            Event::Step { .. } | Event::Tick => 11,
        };
        let refusal = Refusal::ALL
            .into_iter()
            .find(|one| u32::from(one.number()) == number);
        Outcome {
            result: Err(refusal.expect("a refusal's number")),
            commits: false,
            unparked: ThreadSet::default(),
        }
    }

    fn thread(&self, number: u32) -> Thread {
        Thread {
            number,
            operation: None,
            object: 0,
            phase: Phase::Idle,
            kept: 0,
            saved_depth: 0,
            next: 0,
            ticks: 0,
            rank: 0,
        }
    }

    fn phase(&self, _: u32) -> Phase {
        Phase::Idle
    }

    fn object(&self, number: u32) -> Object {
        Object {
            number,
            word: 0x3,
            owner: 0,
            depth: 0,
            flag: false,
            holder: 0,
            monitor_depth: 0,
            entry: 0,
            contention: 0,
            waiting: 0,
        }
    }

    fn lock_word(&self, _: u32) -> LockWord {
        LockWord::Invalid
    }

    fn chain(&self, _: u32, _: Chain) -> Vec<u32> {
        Vec::new()
    }

    fn blocker(&self, _: u32) -> Option<Blocker> {
        None
    }
}

fn refused_by_all() -> Run<Refuser> {
    let header = Header {
        threads: 1,
        objects: 1,
        words: Words::Free,
    };
    Run::new(header, &Ranks::default()).expect("a table of the refuser")
}

#[test]
fn every_refusal_has_words() {
    let mut run = refused_by_all();
    for refusal in Refusal::ALL {
        let happened = run.take(Event::Begin {
            thread: 1,
            operation: Operation::Enter,
            object: 1,
            limit: refusal.number().into(),
        });
        let said = describe(&happened, run.state());
        let start = format!("Refused ({}): ", refusal.number());
        let reason = said.strip_prefix(&start).and_then(|s| s.strip_suffix('.'));
        let words = reason.unwrap_or("").split(' ');
        let words = words.filter(|word| !word.is_empty());
        assert!(words.count() > 1, "{refusal}: {said}");
    }
}

#[test]
fn a_word_that_is_none() {
    let run = refused_by_all();
    let object = run.state().object(1).expect("an object");
    assert_eq!(word(object), "no lock word");
}

#[test]
fn refusals_that_no_schedule_gives() {
    let mut run = refused_by_all();
    let step = run.take(Event::Step { thread: 1 });
    assert_eq!(
        describe(&step, run.state()),
        "Refused (11): table not sound."
    );
    let tick = run.take(Event::Tick);
    assert_eq!(
        describe(&tick, run.state()),
        "Refused (11): table not sound."
    );
}

#[test]
fn sizes_that_no_table_has() {
    let range = "it has 1 to 32 threads and 1 to 64 objects.";
    for (header, asked) in [
        ("L 0 1 0", "0 threads and 1 object"),
        ("L 33 1 1", "33 threads and 1 object"),
        ("L 1 0 0", "1 thread and 0 objects"),
        ("L 1 65 0", "1 thread and 65 objects"),
        ("L 65535 65535 1", "65535 threads and 65535 objects"),
    ] {
        let (output, ended) = explained(format!("{header}\nE 1 1\n").as_bytes());
        let words = format!("Refused (22): no table has {asked}; {range}");
        let line = format!("{header}  ->  22");
        assert_eq!(paragraph(&output, 1), Some((line, words)));
        assert_eq!((paragraph(&output, 2), ended), (None, Ended::BadHeader));
    }
}

#[test]
fn endings_in_words() {
    for (short, expected) in endings::ROWS {
        let (run, _) = run(&schedule(&[short]));
        assert_eq!(ending::lines(&run), *expected, "{short}");
    }
}

#[test]
fn deadlocks_by_their_threads() {
    let rings: Vec<usize> = endings::ROWS
        .iter()
        .map(|(short, expected)| {
            let rings = ending::rings(&run(&schedule(&[short])).0);
            let named = expected.iter().filter(|line| line.contains("Deadlock"));
            assert_eq!(named.count(), rings.len(), "{short}");
            rings.iter().map(Vec::len).sum()
        })
        .collect();
    for members in [0, 2, 3, 4] {
        assert!(rings.contains(&members), "no ring of {members}");
    }
}

/// The variants of a cause by name, all of them: the match has no arm for the rest.
macro_rules! kinds_of_cause {
    ($($kind:ident)*) => {
        const KINDS: &[&str] = &[$(stringify!($kind)),*];

        fn kind(cause: &Cause) -> &'static str {
            match cause {
                $(Cause::$kind { .. } => stringify!($kind),)*
            }
        }
    };
}

kinds_of_cause! {
    NoInput ByteOrderMark WideCharacters TooLong CarriageReturn Tab StrangeByte Empty LeadingSpace TrailingSpace TwoSpaces LowerCase UnknownStart
    LeadingZero TooLarge NoNumber Fields KindOfWord NoNewline NoHeader SecondHeader
}

/// The cause of the first malformed line behind the header, or of the header.
fn first_cause(input: &[u8]) -> Cause {
    let mut schedule = Schedule::whole(input);
    match schedule.header().expect("memory to read from") {
        None => return Cause::NoInput,
        Some(read) => {
            if let Err(cause) = read.says {
                return cause;
            }
        }
    }
    while let Some(read) = schedule.next().expect("memory to read from") {
        if let Err(cause) = read.says {
            return cause;
        }
    }
    panic!("no line is malformed")
}

#[test]
fn malformed_lines_in_words() {
    for (input, number, cause) in malformed::ROWS {
        let row = String::from_utf8_lossy(input);
        let (output, ended) = explained(input);
        let place = match number {
            0 => "The input".to_string(),
            _ => format!("Line {number}"),
        };
        let said = paragraph(&output, *number).map(|(line, words)| {
            assert!(line.ends_with("  ->  21"), "{row}");
            words
        });
        let header =
            format!("{place} is no header, `L threads objects r` (21): {cause}. Nothing is run.");
        let (words, end) = match number {
            0 => {
                assert_eq!(output, format!("{header}\n"));
                (None, Ended::BadHeader)
            }
            1 => (Some(header), Ended::BadHeader),
            _ => {
                let passed = format!("Malformed (21): {cause}. The line is passed over.");
                (Some(passed), Ended::AllRead)
            }
        };
        assert_eq!((said, ended), (words, end), "{row}");
    }
}

#[test]
fn every_cause() {
    let causes = malformed::ROWS
        .iter()
        .map(|(input, ..)| kind(&first_cause(input)));
    require(KINDS.iter().copied(), &causes.collect());
}

#[test]
fn lines_behind_a_malformed_one_are_run() {
    let (output, ended) = explained(b"L 1 1 0\nE 1 1\nS  1\nS 1\n");
    let answers: Vec<String> = (1..=4)
        .map(|number| paragraph(&output, number).expect("a line").0)
        .collect();
    assert_eq!(
        answers,
        [
            "L 1 1 0",
            "E 1 1  ->  0 1 0 000000 00000000",
            "S  1  ->  21",
            "S 1  ->  1 0 0 000100 00000000"
        ]
    );
    let counts = "\nAt the end, after 3 event lines: 2 accepted, 0 refused, 1 malformed:\n";
    assert!(output.contains(counts), "{output}");
    assert_eq!(ended, Ended::AllRead);
}
