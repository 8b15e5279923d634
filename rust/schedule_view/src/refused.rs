//! Why an event was refused, in words: the refusal's own, and what the table says that makes it apply.

use crate::line::Event;
use crate::run::{Happened, State, ThreadSeen};
use crate::words;
use duskclamp::{Refusal, MAX_OBJECTS, MAX_THREADS, MAX_TICKS};

/// The sentence for a refused event.
pub fn why(refusal: Refusal, happened: &Happened, state: &State) -> String {
    let reason = reason(refusal, happened, state);
    format!("Refused ({}): {reason}", refusal.number())
}

/// The sentence for sizes that no table has.
pub fn sizes(threads: u32, objects: u32) -> String {
    let asked = format!(
        "{} and {}",
        words::count(threads.into(), "thread"),
        words::count(objects.into(), "object")
    );
    format!(
        "Refused ({}): no table has {asked}; it has 1 to {MAX_THREADS} threads and 1 to {MAX_OBJECTS} objects.",
        Refusal::SizeOutOfRange.number()
    )
}

fn reason(refusal: Refusal, happened: &Happened, state: &State) -> String {
    let number = happened.event.thread().unwrap_or(0);
    let who = words::thread(number);
    let (threads, objects) = (state.threads.len(), state.objects.len());
    match refusal {
        Refusal::NoSuchThread => {
            format!(
                "there is no {who}; this table has {}.",
                numbered(threads, "thread")
            )
        }
        Refusal::NoSuchObject => {
            let object = asked_object(happened.event);
            format!(
                "there is no object {object}; this table has {}.",
                numbered(objects, "object")
            )
        }
        Refusal::NotIdle => format!("{who} is not idle: it is {}.", place(happened)),
        Refusal::ThreadIdle if happened.let_out => {
            format!("{who} is idle: its exit was let out before, and has finished.")
        }
        Refusal::ThreadIdle => {
            format!("{who} is idle, so it has no step to take. It has to begin an operation first.")
        }
        Refusal::ThreadParked => format!("{who} is parked, {}.", kept(happened)),
        Refusal::NotOwner => format!("{who} does not own {}", owned(happened, state)),
        Refusal::TooDeep => {
            let depth = happened.object.and_then(|object| state.object(object));
            let depth = depth.map_or(0, |object| object.record.depth);
            format!("{who} owns the object at depth {depth} already, the deepest that there is. It is idle now.")
        }
        Refusal::LimitOutOfRange => {
            format!("a timed wait has a limit of 1 to {MAX_TICKS} ticks.")
        }
        _ => format!("{}.", refusal.name()),
    }
}

/// "threads 1 to 5", or "thread 1 alone".
fn numbered(count: usize, thing: &str) -> String {
    match count {
        1 => format!("{thing} 1 alone"),
        _ => format!("{thing}s 1 to {count}"),
    }
}

fn asked_object(event: Event) -> u32 {
    match event {
        Event::Begin { object, .. } => object,
        _ => 0,
    }
}

/// "in its enter of object 1, at go in (4)".
fn place(happened: &Happened) -> String {
    let Some(ThreadSeen {
        operation: Some(operation),
        object,
        phase,
        ..
    }) = happened.thread
    else {
        return "idle".to_string();
    };
    let at = words::operation(operation, object);
    format!("in {at}, at {}", words::phase(phase))
}

fn kept(happened: &Happened) -> String {
    let Some(thread) = &happened.thread else {
        return String::new();
    };
    let at = thread
        .operation
        .map(|named| words::operation(named, thread.object));
    let at = at.unwrap_or_default();
    format!("in {at}, in the {}", words::parked(thread, happened.parked))
}

fn owned(happened: &Happened, state: &State) -> String {
    let Some(object) = happened.object.and_then(|number| state.object(number)) else {
        return "the object. It is idle now.".to_string();
    };
    let owner = match object.record.owner {
        0 => "nobody does".to_string(),
        owner => format!("thread {owner} does"),
    };
    let what = happened.thread.and_then(|thread| thread.operation);
    let what = what.map_or("operation".to_string(), |operation| operation.to_string());
    let number = object.record.number;
    format!("object {number}; {owner}. Its {what} has ended, and it is idle.")
}
