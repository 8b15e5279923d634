//! The stored schedules of the repository: the answers are the replay's, byte for byte, and what is known after each event is what the engine says.

use crate::common::{asked, files};
use duskclamp::{Refusal, Table};
use schedule_view::line::Event;
use schedule_view::ranks::Ranks;
use schedule_view::run::{printed, Change, Happened, Run, State};
use schedule_view::schedule::Schedule;
use schedule_view::words::describe;
use std::fs;
use std::path::PathBuf;

/// What the replay prints for a malformed line.
const MALFORMED: u8 = 21;

/// The inputs of the repository, each with what the replay prints for it.
fn stored() -> Vec<(PathBuf, Vec<u8>, String)> {
    let pair = |path: PathBuf| {
        let input = fs::read(&path).expect("an input");
        let output = fs::read_to_string(path.with_extension("out")).expect("its output");
        (path, input, output)
    };
    let inputs = files("tests/schedules", "in");
    inputs.into_iter().map(pair).collect()
}

/// Runs an input as the replay does, and shows each event. What the replay prints for it.
fn replayed(input: &[u8], mut show: impl FnMut(&Run<Table>, &Happened)) -> String {
    let mut schedule = Schedule::whole(input);
    let header = schedule.header().expect("memory to read from");
    let Some(Ok(header)) = header.map(|read| read.says) else {
        return format!("{MALFORMED}\n");
    };
    let mut run = match Run::<Table>::new(header, &Ranks::default()) {
        Ok(run) => run,
        Err(refusal) => return format!("{}\n", refusal.number()),
    };
    let mut output = String::new();
    while let Some(read) = schedule.next().expect("memory to read from") {
        let answer = match read.says {
            Err(_) => MALFORMED.to_string(),
            Ok(event) => {
                let happened = run.take(event);
                show(&run, &happened);
                printed(&happened, run.state())
            }
        };
        output += &format!("{answer}\n");
    }
    output
}

/// Whether the words are about the thread, and not only about one whose number begins like its own.
fn names(words: &str, thread: u32) -> bool {
    let name = format!("hread {thread}");
    let places = words.match_indices(&name);
    let mut behind = places.map(|(place, _)| &words[place + name.len()..]);
    behind.any(|rest| !rest.starts_with(|c: char| c.is_ascii_digit()))
}

#[test]
fn the_answers_are_the_replays() {
    let stored = stored();
    assert!(stored.len() > 100, "{} schedules", stored.len());
    for (path, input, output) in stored {
        assert_eq!(replayed(&input, |_, _| ()), output, "{}", path.display());
    }
}

#[test]
fn what_is_known_is_what_the_engine_says() {
    let mut events = 0;
    for (path, input, _) in stored() {
        replayed(&input, |run, happened| {
            events += 1;
            assert_eq!(*run.state(), asked(run), "{}: {happened:?}", path.display());
        });
    }
    assert!(events > 5_000, "{events} events");
}

/// Whether the changes are all that differs.
fn differ<T: PartialEq>(before: &[T], after: &[T], changes: &[Change<T>]) -> bool {
    let both = before.iter().zip(after);
    let noted = changes.iter().map(|change| (&change.before, &change.after));
    both.filter(|(was, is)| was != is).eq(noted)
}

#[test]
fn what_changed_is_what_differs() {
    for (path, input, _) in stored() {
        let mut before: Option<State> = None;
        replayed(&input, |run, happened| {
            let after = run.state();
            if let Some(before) = before.replace(after.clone()) {
                let all = differ(&before.threads, &after.threads, &happened.threads)
                    && differ(&before.objects, &after.objects, &happened.objects);
                assert!(all, "{}: {happened:?}", path.display());
            }
        });
    }
}

#[test]
fn words_name_the_thread() {
    // These two are about the object and the limit alone.
    let nobodys = [Refusal::NoSuchObject, Refusal::LimitOutOfRange];
    for (path, input, _) in stored() {
        replayed(&input, |run, happened| {
            let words = describe(happened, run.state());
            let place = format!("{}: {happened:?}: {words}", path.display());
            assert!(words.ends_with('.') && words.len() > 10, "{place}");
            let named = match happened.event {
                Event::Tick => words.starts_with("The clock ticks."),
                Event::Begin { thread, .. } | Event::Step { thread } => names(&words, thread),
            };
            let silent = happened.refusal().is_some_and(|one| nobodys.contains(&one));
            assert!(named || silent, "{place}");
        });
    }
}

#[test]
fn names_of_threads_are_whole() {
    assert!(names("Thread 1 is idle.", 1) && names("threads 12 and thread 1", 1));
    assert!(!names("Thread 12 is idle.", 1) && !names("The object 1.", 1));
}
