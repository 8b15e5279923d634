//! How things stand after the last line of a schedule, or of the part of it that is drawn: who owns what, who waits where, who is blocked by whom, and
//! who blocks each other.

use crate::engine::Engine;
use crate::run::{ObjectSeen, Run, State, ThreadSeen};
use crate::words;
use duskclamp::{Blocker, Chain, Operation, Phase};

/// How a run stands, a line each. An object or a thread of which there is nothing to say is only counted.
pub fn lines<E: Engine>(run: &Run<E>) -> Vec<String> {
    let state = run.state();
    let mut said: Vec<String> = Vec::new();
    let busy = |object: &&ObjectSeen| is_busy(object, state);
    let objects: Vec<&ObjectSeen> = state.objects.iter().filter(busy).collect();
    said.extend(objects.iter().map(|object| object_line(run, object)));
    said.extend(rest_of_objects(state.objects.len() - objects.len()));
    let concerned = |thread: &&ThreadSeen| {
        thread.phase != Phase::Idle || state.owned_by(thread.number).next().is_some()
    };
    let threads: Vec<&ThreadSeen> = state.threads.iter().filter(concerned).collect();
    said.extend(threads.iter().map(|thread| thread_line(run, thread)));
    said.extend(rest_of_threads(state.threads.len() - threads.len()));
    said.extend(rings(run).iter().map(|ring| deadlock(run, ring)));
    said.extend(standstill(state));
    said
}

/// The rings of threads that wait for each other, each from its lowest number on: a thread parked for an object, that object's owner parked for
/// another, and so on, until one is met again.
pub fn rings<E: Engine>(run: &Run<E>) -> Vec<Vec<u32>> {
    let numbers = run.state().threads.iter().map(|thread| thread.number);
    let ring = |start: u32| {
        let way = way(run, start);
        let closes = way.last().and_then(|last| waits_for(run, *last)) == Some(start);
        (closes && way.iter().min() == Some(&start)).then_some(way)
    };
    numbers.filter_map(ring).collect()
}

/// The thread, whom it waits for, and so on, each once.
fn way<E: Engine>(run: &Run<E>, start: u32) -> Vec<u32> {
    let mut way = vec![start];
    while let Some(next) = waits_for(run, *way.last().unwrap_or(&start)) {
        if way.contains(&next) {
            break;
        }
        way.push(next);
    }
    way
}

/// The owner that a parked thread waits for. An exit waits for none: whoever keeps it is the monitor's holder.
fn waits_for<E: Engine>(run: &Run<E>, thread: u32) -> Option<u32> {
    match run.engine().blocker(thread)? {
        Blocker::Owner(owner) => Some(owner),
        Blocker::Holder(_) => None,
    }
}

fn is_busy(object: &ObjectSeen, state: &State) -> bool {
    let number = object.record.number;
    object.record.owner != 0 || state.threads.iter().any(|thread| thread.object == number)
}

fn object_line<E: Engine>(run: &Run<E>, object: &ObjectSeen) -> String {
    let record = &object.record;
    let mut line = format!("Object {}: {}", record.number, words::word(object));
    if record.holder != 0 && record.holder != record.owner {
        line += &format!("; thread {} holds its monitor", record.holder);
    }
    let chains = [
        (Chain::Entry, "the entry chain"),
        (Chain::Contention, "the contention chain"),
        (Chain::Waiting, "the waiting chain"),
    ];
    for (chain, name) in chains {
        let members = run.engine().chain(record.number, chain);
        if !members.is_empty() {
            line += &format!("; {} in {name}", words::threads(&members));
        }
    }
    line + "."
}

fn thread_line<E: Engine>(run: &Run<E>, thread: &ThreadSeen) -> String {
    let state = run.state();
    let who = words::start_thread(thread.number);
    let owned: Vec<String> = state
        .owned_by(thread.number)
        .map(|object| format!("object {} at depth {}", object.number, object.depth))
        .collect();
    let owns = match owned.as_slice() {
        [] => String::new(),
        _ => format!(", which owns {}", words::listed(&owned)),
    };
    format!("{who}{owns}: {}.", doing(run, thread))
}

fn doing<E: Engine>(run: &Run<E>, thread: &ThreadSeen) -> String {
    let Some(operation) = thread.operation else {
        return "idle".to_string();
    };
    let at = words::operation(operation, thread.object);
    if !thread.phase.is_parked() {
        return format!("in {at}, next is {}", words::phase(thread.phase));
    }
    let place = words::parked(thread, run.parked(thread.number));
    let left = match (operation, thread.phase) {
        (Operation::TimedWait, Phase::Waiting) => {
            format!(", with {} left", words::count(thread.ticks.into(), "tick"))
        }
        _ => String::new(),
    };
    format!("in {at}, parked in the {place}{left}")
}

fn rest_of_objects(number: usize) -> Option<String> {
    match number {
        0 => None,
        1 => Some("1 object is owned by nobody, and nobody is at it.".to_string()),
        _ => Some(format!(
            "{number} objects are owned by nobody, and nobody is at them."
        )),
    }
}

fn rest_of_threads(number: usize) -> Option<String> {
    match number {
        0 => None,
        1 => Some("1 thread is idle and owns nothing.".to_string()),
        _ => Some(format!("{number} threads are idle and own nothing.")),
    }
}

fn deadlock<E: Engine>(run: &Run<E>, ring: &[u32]) -> String {
    let links: Vec<String> = ring
        .iter()
        .filter_map(|number| {
            let object = run.state().thread(*number)?.object;
            let owner = waits_for(run, *number)?;
            let who = words::thread(*number);
            Some(format!(
                "{who} waits for object {object}, which thread {owner} owns"
            ))
        })
        .collect();
    let outside = run.state().threads.iter().map(|thread| thread.number);
    let behind: Vec<u32> = outside
        .filter(|number| !ring.contains(number))
        .filter(|number| way(run, *number).iter().any(|met| ring.contains(met)))
        .collect();
    let nor = match behind.as_slice() {
        [] => String::new(),
        _ => format!(", nor will {} behind them", words::threads(&behind)),
    };
    format!(
        "Deadlock: {}. None of them will get its object{nor}.",
        links.join("; ")
    )
}

/// Whether nobody is left who can take a step, though somebody is at an operation.
fn standstill(state: &State) -> Option<String> {
    let phases = || state.threads.iter().map(|thread| thread.phase);
    let parked = phases().any(Phase::is_parked);
    let still = phases().all(|phase| phase.is_parked() || phase == Phase::Idle);
    (parked && still).then(|| "No thread can take a step: each is idle or parked.".to_string())
}
