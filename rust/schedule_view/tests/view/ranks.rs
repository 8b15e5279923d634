//! Ranks: how they are read, what is said and drawn of them, and who passes whom.

use crate::common::{asked, explained, explained_ranked, files, paragraph, run_ranked, schedule};
use duskclamp::{Chain, Phase, Table};
use schedule_view::drawing::Drawing;
use schedule_view::engine::Engine;
use schedule_view::layout::Layout;
use schedule_view::ranks::Ranks;
use schedule_view::run::{Happened, Run};
use schedule_view::schedule::Schedule;
use schedule_view::timeline::draw;
use schedule_view::words::describe;
use std::fs;

/// Thread 4 owns the object by its monitor: its wait there has run out.
const MONITOR: &str = "L 4 1 0, E 4 1, S 4, V 4 1 1, S 4 x4, C, S 4";
/// Thread 1 waits, and thread 4 owns the object.
const WAITER: &str = "L 4 1 0, E 1 1, S 1, W 1 1, S 1 x4, E 4 1, S 4 x3";
/// Thread 1 waits for one more tick, and thread 4 owns the object.
const TIMED: &str = "L 4 1 0, E 1 1, S 1, V 1 1 1, S 1 x4, E 4 1, S 4 x3";
/// Thread 1 owns the object by a flat word, and threads 2, 3 and 4 contend for it.
const CONTENDED: &str = "L 4 1 0, E 1 1, S 1, E 2 1, S 2 x4, E 3 1, S 3 x4, E 4 1, S 4 x4";
/// Thread 2 contends for the object of thread 1, which leaves it and is about to tell; thread 3 is queued behind it.
const TELLING: &str = "L 4 1 0, E 1 1, S 1, E 2 1, S 2 x4, E 3 1, S 3, X 1 1, S 1 x3, S 3";
/// Thread 3 queues behind thread 2, which is at its try; the exit of thread 1 queues behind it, and is let out.
const LET_OUT: &str = "L 4 1 0, E 1 1, S 1, E 2 1, S 2 x3, E 3 1, S 3 x2, X 1 1, S 1 x3, S 2";
/// Threads 2 and 3 queue.
const QUEUE: &str = "E 2 1, S 2 x2, E 3 1, S 3 x2";

/// Ranks, a schedule in parts, and what is said of its last line about who passes whom.
const PASSINGS: &[(&str, &[&str], &[&str])] = &[
    // By its own step: ahead of all, ahead of some, ahead of nobody.
    (
        "3",
        &[MONITOR, QUEUE, "E 1 1, S 1 x2"],
        &["Thread 1 (rank 3) queues ahead of threads 2 and 3."],
    ),
    (
        "1,1,0",
        &[MONITOR, QUEUE, "E 1 1, S 1 x2"],
        &["Thread 1 (rank 1) queues ahead of thread 3."],
    ),
    ("2,2,2", &[MONITOR, QUEUE, "E 1 1, S 1 x2"], &[]),
    ("0,1,1", &[MONITOR, QUEUE, "E 1 1, S 1 x2"], &[]),
    (
        "0,0,2",
        &[MONITOR, QUEUE],
        &["Thread 3 (rank 2) queues ahead of thread 2."],
    ),
    // Told by an exit.
    (
        "0,3",
        &[TELLING, "S 1"],
        &["Thread 2 (rank 3) queues ahead of thread 3."],
    ),
    ("0,0,3", &[TELLING, "S 1"], &[]),
    // Moved by a step that inflates, in 12; and in 7, which the first contender takes.
    (
        "0,0,1,3",
        &[CONTENDED, "W 1 1, S 1 x3"],
        &[
            "Thread 4 (rank 3) queues ahead of threads 3 and 2.",
            "Thread 3 (rank 1) queues ahead of thread 2.",
        ],
    ),
    (
        "0,3,0,1",
        &[CONTENDED, "X 1 1, S 1 x5, S 2 x2"],
        &["Thread 4 (rank 1) queues ahead of thread 3."],
    ),
    // The exit tells the first contender, of whatever rank.
    ("0,0,3,3", &[CONTENDED, "X 1 1, S 1 x4"], &[]),
    // Notified.
    (
        "2",
        &[WAITER, "E 2 1, S 2 x2, N 4 1, S 4"],
        &["Thread 1 (rank 2) queues ahead of thread 2."],
    ),
    ("2,2", &[WAITER, "E 2 1, S 2 x2, N 4 1, S 4"], &[]),
    // By the clock, with somebody inside and with nobody.
    (
        "3",
        &[TIMED, "E 2 1, S 2 x2, C"],
        &["Thread 1 (rank 3) queues ahead of thread 2."],
    ),
    (
        "0,1",
        &["L 4 1 0, E 1 1, S 1, V 1 1 1, S 1 x4, E 2 1, S 2 x3, V 2 1 1, S 2 x2, C"],
        &["Thread 2 (rank 1) is handed the monitor ahead of thread 1."],
    ),
    // An exit that is let out passes nobody, though others were before it in the entry chain.
    ("0,0,1", &[LET_OUT], &[]),
    // Who was first already is handed the monitor, and passes nobody.
    ("3", &[MONITOR, QUEUE, "E 1 1, S 1 x2, X 4 1, S 4 x2"], &[]),
];

#[test]
fn who_passes_whom() {
    for (ranks, parts, expected) in PASSINGS {
        let (run, last) = run_ranked(&schedule(parts), ranks);
        let said = describe(&last.expect("an event"), run.state());
        let sentences = said.split_inclusive(". ").map(str::trim_end);
        let about: Vec<&str> = sentences.filter(|one| one.contains("ahead of")).collect();
        assert_eq!(about, *expected, "{ranks}: {parts:?}");
    }
}

#[test]
fn a_passing_stands_behind_what_became_of_threads() {
    let (run, last) = run_ranked(&schedule(&[TELLING, "S 1"]), "0,3");
    assert_eq!(
        describe(&last.expect("an event"), run.state()),
        "Thread 1, in its exit from object 1, tells the first contender (phase 10); next is leave (11). \
         Thread 2 moves from the contention chain to the entry chain, and stays parked. \
         Thread 2 (rank 3) queues ahead of thread 3. The word of object 1 is free."
    );
}

#[test]
fn a_tick_is_told_of_every_object() {
    let both = |object: u32| {
        format!(
            "E {0} {object}, S {0}, V {0} {object} 9, S {0} x4, E {1} {object}, S {1} x3, V {1} {object} 9, S {1} x2",
            object, object + 2
        )
    };
    let text = schedule(&["L 4 2 0", &both(1), &both(2), "C x9"]);
    let (_, last) = run_ranked(&text, "0,0,1,2");
    let passings = last.expect("a tick").passings;
    let passed: Vec<(u32, &[u32])> = passings
        .iter()
        .map(|one| (one.thread, one.others.as_slice()))
        .collect();
    assert_eq!(passed, [(3, &[1][..]), (4, &[2])]);
}

/// The entry chain of each object.
fn entry_chains(run: &Run<Table>) -> Vec<Vec<u32>> {
    let objects = run.state().objects.iter();
    objects
        .map(|object| Engine::chain(run.engine(), object.record.number, Chain::Entry))
        .collect()
}

/// That the passings are all pairs of threads that stand in an order which their coming does not explain.
fn assert_passings(run: &Run<Table>, before: &[Vec<u32>], happened: &Happened, place: &str) {
    let rank = |thread: u32| run.state().thread(thread).expect("a thread").rank;
    for passing in &happened.passings {
        for other in &passing.others {
            assert!(rank(passing.thread) > rank(*other), "{place}: {passing:?}");
        }
    }
    for (before, after) in before.iter().zip(entry_chains(run)) {
        assert!(
            after.is_sorted_by(|one, next| rank(*one) >= rank(*next)),
            "{place}"
        );
        for (at, thread) in after.iter().enumerate() {
            let earlier = |other: &&u32| before.contains(other) && !before.contains(thread);
            let passed = after[at + 1..].iter().filter(earlier);
            for other in passed {
                let noted = |one: &schedule_view::passing::Passing| {
                    one.thread == *thread && one.others.contains(other)
                };
                assert!(happened.passings.iter().any(noted), "{place}: {happened:?}");
            }
        }
    }
}

#[test]
fn stored_schedules_with_ranks() {
    let mut passings = 0;
    for (path, ranks) in files("tests/schedules", "in")
        .iter()
        .zip(["0,3,1,2", "3,2,0,1", "1,0,3"].iter().cycle())
    {
        let input = fs::read(path).expect("an input");
        let mut schedule = Schedule::whole(input.as_slice());
        let header = schedule.header().expect("memory to read from");
        let Some(Ok(header)) = header.map(|read| read.says) else {
            continue;
        };
        let Ok(mut run) = Run::<Table>::new(header, &Ranks::read(ranks).expect("ranks")) else {
            continue;
        };
        while let Some(read) = schedule.next().expect("memory to read from") {
            let Ok(event) = read.says else { continue };
            let before = entry_chains(&run);
            let happened = run.take(event);
            assert_eq!(*run.state(), asked(&run), "{}", path.display());
            assert_passings(&run, &before, &happened, &path.display().to_string());
            passings += happened.passings.len();
        }
    }
    assert!(passings > 30, "{passings}");
}

#[test]
fn ranks_as_they_are_written() {
    let given =
        |text: &str| -> Option<Vec<(u32, u32)>> { Some(Ranks::read(text)?.given().collect()) };
    assert_eq!(given("3"), Some(vec![(1, 3)]));
    assert_eq!(given("3,0,1"), Some(vec![(1, 3), (2, 0), (3, 1)]));
    assert_eq!(Ranks::default().given().count(), 0);
    for wrong in [
        "", "4", "3,", ",3", "3,,1", "3, 1", "03", "10", "-1", "+1", "a", "3;1", "0,0,4", "٣",
    ] {
        assert_eq!(given(wrong), None, "{wrong}");
    }
}

#[test]
fn the_header_has_the_ranks() {
    let plain = "A fresh table: 4 threads, 1 object, every lock word free.";
    for (ranks, sentence) in [
        ("0", ""),
        ("0,0,0,0,3", ""),
        ("3", " Ranks: 3 for thread 1; 0 for all others."),
        (
            "3,0,1",
            " Ranks: 3 for thread 1; 1 for thread 3; 0 for all others.",
        ),
        (
            "2,2,1,2",
            " Ranks: 2 for threads 1, 2 and 4; 1 for thread 3.",
        ),
        ("1,1,1,1,0", " Ranks: 1 for threads 1, 2, 3 and 4."),
    ] {
        let output = explained_ranked(b"L 4 1 0\n", ranks);
        let (_, words) = paragraph(&output, 1).expect("the header");
        assert_eq!(words, format!("{plain}{sentence}"), "{ranks}");
    }
}

fn drawn(input: &[u8], ranks: &str) -> Option<Drawing> {
    let ranks = Ranks::read(ranks).expect("ranks");
    draw::<Table>(Schedule::whole(input).ranked(ranks), 1..=u64::MAX).ok()
}

#[test]
fn names_have_ranks() {
    let input = b"L 4 2 0\nE 1 1\nS 1\nE 4 1\n";
    let names = |ranks: &str| -> Vec<String> {
        let layout = Layout::of(&drawn(input, ranks).expect("a picture"));
        layout.lanes.into_values().map(|lane| lane.name).collect()
    };
    let plain = ["thread 1", "t2", "t3", "thread 4", "object 1", "o2"];
    assert_eq!(names("0"), plain);
    let ranked = [
        "thread 1, rank 3",
        "t2",
        "t3 r1",
        "thread 4",
        "object 1",
        "o2",
    ];
    assert_eq!(names("3,0,1"), ranked);
}

/// A name with a rank has its room: the lane is no narrower than it.
#[test]
fn a_rank_makes_its_lane_wider() {
    let width = |ranks: &str| Layout::of(&drawn(b"L 1 1 0\nC\n", ranks).expect("a picture")).width;
    assert!(width("3") > width("0"));
}

/// Ranks that are all 0 are none, and nobody passes anybody: what is said and drawn is the same to the byte.
#[test]
fn without_ranks_nothing_is_said_of_them() {
    let mut all = files("examples", "txt");
    all.extend(files("tests/schedules", "in"));
    for path in all {
        let input = fs::read(&path).expect("a schedule");
        let (output, _) = explained(&input);
        assert!(
            !output.contains("rank") && !output.contains("ahead of"),
            "{}",
            path.display()
        );
        assert_eq!(
            explained_ranked(&input, "0,0,0"),
            output,
            "{}",
            path.display()
        );
        let plain = draw::<Table>(Schedule::whole(input.as_slice()), 1..=u64::MAX).ok();
        assert!(drawn(&input, "0,0") == plain, "{}", path.display());
    }
}

/// A thread keeps its rank from idle to idle.
#[test]
fn ranks_stay() {
    let (run, _) = run_ranked(&schedule(&[MONITOR, QUEUE, "X 4 1, S 4 x2, S 2"]), "1,2,3");
    let seen: Vec<(u32, bool)> = run
        .state()
        .threads
        .iter()
        .map(|thread| (thread.rank, thread.phase == Phase::Idle))
        .collect();
    assert_eq!(seen, [(1, true), (2, false), (3, false), (0, true)]);
}
