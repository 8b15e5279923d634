//! An event and its answer in words. Every sentence says what the answer and the table's questions say: what was, what is, who changed. What an operation
//! would do is not written down here, so that it cannot be wrong.

use crate::line::Event;
use crate::passing::Passing;
use crate::refused;
use crate::run::{Change, Happened, ObjectSeen, Parked, State, ThreadSeen};
use duskclamp::{Answer, Blocker, LockWord, Object, Operation, Phase};

/// The event's answer, sentence by sentence.
pub fn describe(happened: &Happened, state: &State) -> String {
    let mut said = Vec::new();
    match (happened.refusal(), happened.event) {
        (Some(refusal), _) => said.push(refused::why(refusal, happened, state)),
        (None, Event::Begin { .. }) => said.push(begins(happened, state)),
        (None, Event::Step { .. }) => said.push(steps(happened, state)),
        (None, Event::Tick) => said.push(ticks(happened)),
    }
    said.extend(others(happened));
    said.extend(happened.passings.iter().map(|one| passing(one, state)));
    said.extend(objects(happened, state));
    said.join(" ")
}

/// The thread by its number.
pub fn thread(number: u32) -> String {
    format!("thread {number}")
}

/// The same at the start of a sentence.
pub fn start_thread(number: u32) -> String {
    format!("Thread {number}")
}

/// "thread 2", "threads 2 and 5", "threads 1, 2 and 5".
pub fn threads(numbers: &[u32]) -> String {
    let numbers: Vec<String> = numbers.iter().map(u32::to_string).collect();
    let plural = if numbers.len() == 1 { "" } else { "s" };
    format!("thread{plural} {}", listed(&numbers))
}

/// "a", "a and b", "a, b and c".
pub fn listed(parts: &[String]) -> String {
    match parts {
        [] => String::new(),
        [one] => one.clone(),
        [first @ .., last] => format!("{} and {last}", first.join(", ")),
    }
}

/// So many of a thing, whose plural has an s.
pub fn count(number: u64, thing: &str) -> String {
    match number {
        1 => format!("1 {thing}"),
        _ => format!("{number} {thing}s"),
    }
}

/// A phase by name and number.
pub fn phase(phase: Phase) -> String {
    match phase.onward() {
        Some(onward) => {
            let then = onward.phase();
            format!("{phase} (5), then {then} ({})", then.number())
        }
        None => format!("{phase} ({})", phase.number()),
    }
}

/// What a thread does at an operation: "its enter of object 3".
pub fn operation(operation: Operation, object: u32) -> String {
    match operation {
        Operation::Enter => format!("its enter of object {object}"),
        Operation::Exit => format!("its exit from object {object}"),
        Operation::Wait => format!("its wait at object {object}"),
        Operation::TimedWait => format!("its timed wait at object {object}"),
        Operation::Notify => format!("its notify at object {object}"),
        Operation::NotifyAll => format!("its notify all at object {object}"),
    }
}

/// What an object's lock word says, and of a monitor who owns it.
pub fn word(object: &ObjectSeen) -> String {
    match object.word {
        LockWord::Free => "free".to_string(),
        LockWord::Anonymous => "reserved for nobody yet".to_string(),
        LockWord::Flat { thread, depth } => format!("flat, thread {thread} at depth {depth}"),
        LockWord::Reserved { thread, depth: 0 } => {
            format!("reserved for thread {thread}, owned by nobody")
        }
        LockWord::Reserved { thread, depth } => {
            format!("reserved, thread {thread} at depth {depth}")
        }
        LockWord::Monitor => monitor(&object.record),
        LockWord::Invalid => "no lock word".to_string(),
    }
}

fn monitor(object: &Object) -> String {
    match object.owner {
        0 => "a monitor, owned by nobody".to_string(),
        owner => format!("a monitor, thread {owner} at depth {}", object.depth),
    }
}

/// The chain that a parked phase stands for.
pub fn chain(phase: Phase) -> &'static str {
    match phase {
        Phase::Contending => "contention chain",
        Phase::Waiting => "waiting chain",
        _ => "entry chain",
    }
}

fn begins(happened: &Happened, state: &State) -> String {
    let Event::Begin {
        thread,
        operation,
        object,
        limit,
    } = happened.event
    else {
        return String::new();
    };
    let what = match operation {
        Operation::Enter => format!("enter object {object}"),
        Operation::Exit => format!("leave object {object}"),
        Operation::Wait => format!("wait at object {object}"),
        Operation::TimedWait => {
            let limit = count(limit.into(), "tick");
            format!("wait at object {object} for at most {limit}")
        }
        Operation::Notify => format!("notify the longest waiter at object {object}"),
        Operation::NotifyAll => format!("notify all who wait at object {object}"),
    };
    let next = state.thread(thread).map(|seen| phase(seen.phase));
    let next = next.unwrap_or_default();
    format!("{} begins to {what}; next is {next}.", start_thread(thread))
}

fn steps(happened: &Happened, state: &State) -> String {
    let Some(before) = &happened.thread else {
        return String::new();
    };
    let who = start_thread(before.number);
    let at = match before.operation {
        Some(named) => format!(", in {},", operation(named, before.object)),
        None => String::new(),
    };
    let does = format!(
        "{} (phase {})",
        deed(before.phase, happened),
        before.phase.number()
    );
    format!("{who}{at} {does}{}", result(happened, before, state))
}

/// What a step in the phase does, by the phase's name. The answer and what changed tell where it does not.
fn deed(phase: Phase, happened: &Happened) -> &'static str {
    let own = happened.event.thread();
    let mut changed = happened.threads.iter();
    let told = changed.any(|change| Some(change.after.number) != own);
    let operation = happened.thread.and_then(|thread| thread.operation);
    let exits = operation == Some(Operation::Exit);
    match phase {
        Phase::Idle => "is idle",
        Phase::Look => "looks at the word",
        Phase::Store => "stores the word that it kept, with its count changed",
        Phase::Cancel if happened.objects.is_empty() => "finds no reservation to cancel",
        Phase::Cancel => "cancels the reservation",
        Phase::GoIn => match happened.outcome.result {
            Ok(Answer::Parked) => "cannot go in",
            Ok(Answer::Finished { .. }) if exits => "need not go in",
            _ => "goes in",
        },
        Phase::Queued(_) | Phase::Contending | Phase::Waiting => "is parked",
        Phase::Check => "checks the word, as holder",
        Phase::Try => "tries the word once more",
        Phase::Test => "tests the contention flag",
        Phase::Tell if !told => "has no contender to tell",
        Phase::Tell => "tells the first contender",
        Phase::Leave => "leaves the monitor",
        Phase::Inflate => "inflates its flat lock",
        Phase::GiveUp => "gives up the object",
        Phase::Resume => "resumes",
    }
}

fn result(happened: &Happened, before: &ThreadSeen, state: &State) -> String {
    match happened.outcome.result {
        Ok(Answer::Finished { woken }) => {
            let with = finished(before, woken, state);
            format!(" and has finished{with}.")
        }
        Ok(Answer::Parked) => {
            let after = state.thread(before.number).unwrap_or(before);
            format!(" and parks in the {}.", parked(after, happened.parked))
        }
        _ => {
            let after = state.thread(before.number).unwrap_or(before);
            format!("; next is {}.", phase(after.phase))
        }
    }
}

fn finished(before: &ThreadSeen, woken: u8, state: &State) -> String {
    let now = state.object(before.object).map(|object| object.record);
    let owned = now.filter(|object| object.owner == before.number);
    let depth = owned.map(|object| object.depth);
    let ran_out = match (before.operation, woken) {
        (Some(Operation::TimedWait), 0) => ", notified",
        (Some(Operation::TimedWait), _) => ", run out",
        _ => "",
    };
    match before.operation {
        Some(Operation::Notify | Operation::NotifyAll) => match woken {
            0 => ": nobody was woken".to_string(),
            _ => format!(": {} woken", count(woken.into(), "thread")),
        },
        Some(Operation::Exit) => match depth {
            None => ": it has left".to_string(),
            Some(depth) => format!(": it is still inside at depth {depth}"),
        },
        _ => match depth {
            None => ran_out.to_string(),
            Some(depth) => format!(
                "{ran_out}: it owns object {} at depth {depth}",
                before.object
            ),
        },
    }
}

/// Where a thread is parked, behind whom and kept by whom: "entry chain (5) behind thread 3, kept by thread 1, which owns the object".
pub fn parked(thread: &ThreadSeen, parked: Option<Parked>) -> String {
    let behind = match parked.and_then(|parked| parked.behind) {
        Some(other) => format!(" behind thread {other}"),
        None => String::new(),
    };
    let kept = match parked.and_then(|parked| parked.blocker) {
        Some(Blocker::Owner(other)) => format!(", kept by thread {other}, which owns the object"),
        Some(Blocker::Holder(other)) => {
            format!(", kept by thread {other}, which holds the monitor")
        }
        None => String::new(),
    };
    let (chain, number) = (chain(thread.phase), thread.phase.number());
    format!("{chain} ({number}){behind}{kept}")
}

fn ticks(happened: &Happened) -> String {
    if happened.threads.is_empty() {
        return "The clock ticks. No wait loses a tick.".to_string();
    }
    "The clock ticks.".to_string()
}

/// What became of threads whose event it was not.
fn others(happened: &Happened) -> Vec<String> {
    let own = happened.event.thread();
    let changed = happened.threads.iter();
    let others = changed.filter(|change| Some(change.after.number) != own);
    others
        .filter_map(|change| other(happened, change))
        .collect()
}

fn other(happened: &Happened, change: &Change<ThreadSeen>) -> Option<String> {
    let Change { before, after } = change;
    let who = start_thread(after.number);
    let unparked = happened.outcome.unparked.contains(after.number);
    let ran_out = before.ticks > 0 && after.ticks == 0 && after.phase != Phase::Idle;
    let first = match ran_out {
        true => format!("{who}'s wait runs out: it"),
        false => who.clone(),
    };
    if unparked && after.phase == Phase::Idle {
        let what = before
            .operation
            .map(|named| operation(named, before.object));
        let what = what.unwrap_or_default();
        return Some(format!(
            "{who} is unparked: {what} is let out, and finished."
        ));
    }
    if unparked {
        let next = phase(after.phase);
        return Some(format!(
            "{first} is unparked and handed the monitor; next is {next}."
        ));
    }
    if before.phase.is_parked() && after.phase.is_parked() && before.phase != after.phase {
        let (from, to) = (chain(before.phase), chain(after.phase));
        return Some(format!(
            "{first} moves from the {from} to the {to}, and stays parked."
        ));
    }
    if before.phase != after.phase {
        let (from, to) = (phase(before.phase), phase(after.phase));
        return Some(format!("{who} is sent back from {from} to {to}."));
    }
    let left = count(after.ticks.into(), "tick");
    (before.ticks != after.ticks).then(|| format!("{who} has {left} left."))
}

/// Who is ahead of whom by its rank, in the entry chain or with the monitor in hand.
fn passing(passing: &Passing, state: &State) -> String {
    let Passing { thread, others } = passing;
    let seen = state.thread(*thread);
    let rank = seen.map_or(0, |seen| seen.rank);
    let does = match seen.is_some_and(|seen| seen.phase.is_parked()) {
        true => "queues",
        false => "is handed the monitor",
    };
    let (who, others) = (start_thread(*thread), threads(others));
    format!("{who} (rank {rank}) {does} ahead of {others}.")
}

/// What became of the object that the event was about, and of others that it changed.
fn objects(happened: &Happened, state: &State) -> Vec<String> {
    let mut said = Vec::new();
    for change in &happened.objects {
        said.extend(object(happened, change));
    }
    let unchanged = |number: &u32| {
        let mut changed = happened.objects.iter();
        !changed.any(|change| change.after.record.number == *number && words_differ(change))
    };
    // A refused event says of itself what matters, unless it has made its thread idle.
    let told = happened.refusal().is_some() && happened.threads.is_empty();
    let about = happened.object.filter(|number| !told && unchanged(number));
    if let Some(object) = about.and_then(|number| state.object(number)) {
        let number = object.record.number;
        said.push(format!("The word of object {number} is {}.", word(object)));
    }
    said
}

fn words_differ(change: &Change<ObjectSeen>) -> bool {
    word(&change.before) != word(&change.after)
}

fn object(happened: &Happened, change: &Change<ObjectSeen>) -> Vec<String> {
    let (before, after) = (&change.before.record, &change.after.record);
    let number = after.number;
    let mut said = Vec::new();
    // Who is unparked to hold the monitor has been named.
    if before.holder != after.holder && !happened.outcome.unparked.contains(after.holder) {
        said.push(match after.holder {
            0 => format!("Nobody holds the monitor of object {number} any more."),
            holder => format!("Thread {holder} holds the monitor of object {number} now."),
        });
    }
    if before.flag != after.flag {
        let way = if after.flag { "goes up" } else { "comes down" };
        said.push(format!("The contention flag {way}."));
    }
    if words_differ(change) {
        let (was, is) = (word(&change.before), word(&change.after));
        said.push(format!(
            "The word of object {number} was {was}, and is {is}."
        ));
    }
    said
}
