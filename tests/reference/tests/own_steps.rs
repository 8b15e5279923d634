//! Request L5: which steps are a thread's own, what starts its count again, that the check notices one step more than each start allows, and that six
//! bound the schedules from a fresh table, and not what follows on every sound one.

mod common;

use common::{each_event, fresh, place};
use reference::checked::Checked;
use reference::engine::{apply, Event};
use reference::met::{Met, Rare};
use reference::outcome::Returned;
use reference::own_steps::{phases, Count, OwnSteps, Phases, Start, MOST, PARKED};
use reference::sound::is_sound;
use reference::table::{Operation, Phase, Table, MAX_THREADS};
use std::fs;

const STEP: Event = Event::Step { thread: 1 };
const ANOTHERS_STEP: Event = Event::Step { thread: 2 };

/// An event, what it returned, and the phase that it left thread 1 in. The other threads are idle throughout.
type Record = (Event, Returned, u8);

fn begun(operation: Operation) -> Record {
    (Event::begin(1, operation, 1, 1), Returned::GoneOn, 1)
}

fn to_phase(phase: u8) -> Record {
    (STEP, Returned::GoneOn, phase)
}

const FINISHED: Record = (STEP, Returned::Finished, 0);

/// An enter of six steps: it cancels a reservation, looks again, goes in, and finds the word free at last.
fn six_steps() -> Vec<Record> {
    let mut records = vec![begun(Operation::Enter)];
    records.extend([3, 1, 4, 6, 7].map(to_phase));
    records.push(FINISHED);
    records
}

/// Thread 1's count behind the records, from an idle thread on, and what the check says there.
fn behind(records: &[Record]) -> (Count, Result<(), String>) {
    let mut own_steps = OwnSteps::default();
    let mut before: Phases = [0; MAX_THREADS];
    for (event, returned, phase) in records {
        let mut after = before;
        after[0] = *phase;
        own_steps.feed(*event, *returned, &before, &after, &mut Met::default());
        before = after;
    }
    (own_steps.count(1), own_steps.check(&before))
}

fn count(start: Start, taken: u32) -> Count {
    Count { start, taken }
}

/// The first of the records behind which the check fails, from 1.
fn noticed(records: &[Record]) -> Option<usize> {
    (1..=records.len()).find(|number| behind(&records[..*number]).1.is_err())
}

#[test]
fn the_most_of_each_start() {
    for operation in Operation::ALL {
        let most = match operation {
            Operation::Notify | Operation::NotifyAll => 1,
            _ => MOST,
        };
        assert_eq!(Start::Begun(operation).most(), most, "{operation:?}");
    }
    for phase in 0..=15 {
        let most = match phase {
            0 => 0,
            15 => 1,
            _ => 2,
        };
        assert_eq!(Start::Unparked(phase).most(), most, "{phase}");
    }
    assert_eq!((Start::Nothing.most(), MOST), (0, 6));
}

#[test]
fn steps_of_its_own() {
    let own = [
        Returned::GoneOn,
        Returned::Finished,
        Returned::Parked,
        Returned::NotOwner,
        Returned::TooDeep,
    ];
    let none = [
        Returned::NotSound,
        Returned::NoSuchThread,
        Returned::ThreadIdle,
        Returned::ThreadParked,
        Returned::NoRule,
    ];
    let numbers = own.map(|returned| (returned, 1));
    for (returned, taken) in numbers
        .into_iter()
        .chain(none.map(|returned| (returned, 0)))
    {
        let records = [begun(Operation::Exit), (STEP, returned, 1)];
        let start = Start::Begun(Operation::Exit);
        assert_eq!(behind(&records).0, count(start, taken), "{returned:?}");
    }
    for event in [ANOTHERS_STEP, Event::Tick] {
        let records = [begun(Operation::Exit), (event, Returned::GoneOn, 1)];
        assert_eq!(behind(&records).0.taken, 0, "{event:?}");
    }
}

#[test]
fn six_steps_pass_and_another_is_noticed() {
    let six = six_steps();
    assert_eq!(behind(&six).0, count(Start::Begun(Operation::Enter), 6));
    assert_eq!(noticed(&six), None);
    // One that goes on behind the sixth has none left; one that ends with a seventh has taken too many.
    let mut seven = six.clone();
    seven.insert(6, to_phase(7));
    assert_eq!(noticed(&seven), Some(7));
    let wrong = behind(&seven).1.expect_err("seven steps");
    assert!(wrong.contains("after 7 steps of its own"), "{wrong}");
    assert!(wrong.contains("at most 6"), "{wrong}");
}

/// Looking and cancelling for ever.
#[test]
fn a_thread_that_spins_is_noticed() {
    let mut records = vec![begun(Operation::Enter)];
    records.extend([3, 1].repeat(20).into_iter().map(to_phase));
    assert_eq!(noticed(&records), Some(7));
    // And with refused events between its steps, which start nothing again.
    let refused = [
        (STEP, Returned::ThreadParked, 1),
        (begun(Operation::Exit).0, Returned::ThreadBusy, 1),
    ];
    let steps = (0..20).flat_map(|_| [refused[0], refused[1], to_phase(1)]);
    let records: Vec<Record> = [begun(Operation::Exit)].into_iter().chain(steps).collect();
    assert_eq!(noticed(&records), Some(1 + 6 * 3));
}

#[test]
fn a_begin_starts_again_if_it_is_accepted() {
    let mut records = six_steps();
    records.push(begun(Operation::Exit));
    records.extend([1, 9, 4, 10, 11].map(to_phase));
    records.push(FINISHED);
    assert_eq!(noticed(&records), None);
    assert_eq!(behind(&records).0, count(Start::Begun(Operation::Exit), 6));
    for returned in [
        Returned::NotSound,
        Returned::NoSuchThread,
        Returned::NoSuchOperation,
        Returned::NoSuchObject,
        Returned::ThreadBusy,
        Returned::LimitOutOfRange,
    ] {
        records[7] = (begun(Operation::Exit).0, returned, 0);
        let refused = behind(&records[..8]).0;
        assert_eq!(refused, count(Start::Begun(Operation::Enter), 6));
        assert_eq!(noticed(&records), Some(9), "{returned:?}");
    }
}

#[test]
fn a_begin_of_no_operation_has_no_steps() {
    let Event::Begin { thread, .. } = begun(Operation::Enter).0 else {
        unreachable!("a begin");
    };
    let unknown = Event::Begin {
        thread,
        operation: 7,
        object: 1,
        limit: 0,
    };
    assert_eq!(noticed(&[(unknown, Returned::GoneOn, 1)]), Some(1));
}

#[test]
fn a_notify_has_one_step() {
    for operation in [Operation::Notify, Operation::NotifyAll] {
        assert_eq!(noticed(&[begun(operation), FINISHED]), None);
        let refused = (STEP, Returned::NotOwner, 0);
        assert_eq!(noticed(&[begun(operation), refused]), None);
        let records = [begun(operation), to_phase(1), FINISHED];
        assert_eq!(noticed(&records), Some(2));
        assert!(behind(&records).1.is_err());
    }
}

/// Thread 1 has begun, and its first step left it parked in this phase.
fn parked_in(phase: u8) -> Vec<Record> {
    vec![begun(Operation::Wait), (STEP, Returned::Parked, phase)]
}

#[test]
fn being_unparked_starts_again() {
    for parked in PARKED {
        for event in [ANOTHERS_STEP, Event::Tick] {
            for phase in 0..=15 {
                let mut records = parked_in(parked);
                records.push((event, Returned::GoneOn, phase));
                // Moved to another chain it is parked as before.
                let expected = match PARKED.contains(&phase) {
                    true => count(Start::Begun(Operation::Wait), 1),
                    false => count(Start::Unparked(phase), 0),
                };
                assert_eq!(behind(&records).0, expected, "{parked} to {phase}");
            }
        }
    }
}

/// Others' events leave a count as it is, unless they unpark the thread: sent back from 2 to 1 it was not parked.
#[test]
fn being_sent_back_does_not_start_again() {
    let mut records = vec![begun(Operation::Exit), to_phase(2)];
    records.push((ANOTHERS_STEP, Returned::GoneOn, 1));
    assert_eq!(behind(&records).0, count(Start::Begun(Operation::Exit), 1));
}

/// Unparked into this phase, and then so many steps that go on with it.
fn unparked_and_stepped(phase: u8, steps: usize) -> Vec<Record> {
    let mut records = parked_in(5);
    records.push((Event::Tick, Returned::GoneOn, phase));
    records.extend(vec![to_phase(phase); steps]);
    records
}

#[test]
fn a_step_too_many_from_being_unparked_is_noticed() {
    for phase in [6, 10, 12, 15] {
        let most = Start::Unparked(phase).most() as usize;
        let mut records = unparked_and_stepped(phase, most - 1);
        records.push(FINISHED);
        assert_eq!(noticed(&records), None, "{phase}");
        let records = unparked_and_stepped(phase, most);
        assert_eq!(noticed(&records), Some(records.len()), "{phase}");
    }
    // An exit that was let out is idle: a step of it is refused, and no step.
    let mut records = unparked_and_stepped(0, 0);
    records.push((STEP, Returned::ThreadIdle, 0));
    assert_eq!(noticed(&records), None);
    assert_eq!(behind(&records).0, count(Start::Unparked(0), 0));
    records.push(FINISHED);
    assert_eq!(noticed(&records), Some(records.len()));
}

/// The counts behind a schedule, and what it met.
fn run(input: &str) -> (OwnSteps, Met) {
    let (mut own_steps, mut met): (OwnSteps, Met) = Default::default();
    each_event(input.as_bytes(), |before, after, event, outcome| {
        let (before, after) = (phases(before), phases(after));
        own_steps.feed(event, outcome.returned, &before, &after, &mut met);
        assert_eq!(own_steps.check(&after), Ok(()));
    });
    (own_steps, met)
}

fn stored(name: &str) -> String {
    let folder = concat!(env!("CARGO_MANIFEST_DIR"), "/../schedules");
    fs::read_to_string(format!("{folder}/{name}.in")).expect("a stored schedule")
}

/// The last line of each is the last step of a thread, which it counts as rare.
#[test]
fn stored_schedules_take_all_steps() {
    let [enter, exit] = [Operation::Enter, Operation::Exit].map(Start::Begun);
    let [wait, timed] = [Operation::Wait, Operation::TimedWait].map(Start::Begun);
    for (name, thread, start, rare) in [
        ("six-steps-enter", 2, enter, Rare::SixStepsOfEnter),
        ("six-steps-exit", 1, exit, Rare::SixStepsOfExit),
        ("six-steps-wait", 1, wait, Rare::SixStepsOfWait),
        ("six-steps-timed-wait", 1, timed, Rare::SixStepsOfTimedWait),
        ("listing", 2, Start::Unparked(6), Rare::TwoStepsUnparked),
    ] {
        let input = stored(name);
        let (own_steps, met) = run(&input);
        let most = start.most();
        assert_eq!(own_steps.count(thread), count(start, most), "{name}");
        assert_eq!(met.number(rare), 1, "{name}");
        let last_step = format!("S {thread}\n");
        let (own_steps, met) = run(input.strip_suffix(&last_step).expect("the last step"));
        assert_eq!(own_steps.count(thread), count(start, most - 1), "{name}");
        assert_eq!(met.number(rare), 0, "{name}");
    }
}

#[test]
fn a_resume_takes_one_step() {
    let input = "L 1 1 0\nE 1 1\nS 1\nV 1 1 1\nS 1\nS 1\nS 1\nS 1\nC\n";
    let (own_steps, met) = run(input);
    assert_eq!(own_steps.count(1), count(Start::Unparked(15), 0));
    assert_eq!(met.number(Rare::OneStepOfResume), 0);
    let (own_steps, met) = run(&format!("{input}S 1\n"));
    assert_eq!(own_steps.count(1), count(Start::Unparked(15), 1));
    assert_eq!(met.number(Rare::OneStepOfResume), 1);
}

#[test]
fn checked_after_every_event() {
    let mut checked = Checked::new(fresh());
    let enter = Event::begin(1, Operation::Enter, 1, 0);
    checked.event(enter).expect("a begin");
    let start = Start::Begun(Operation::Enter);
    assert_eq!(checked.own_steps.count(1), count(start, 0));
    checked.own_steps = OwnSteps::default();
    let wrong = checked.event(Event::Tick).expect_err("no step left");
    assert!(wrong.contains("thread 1 is in phase 1 after 0"), "{wrong}");
}

/// A sound table that no schedule reaches: object 1 is reserved for thread 3, and thread 1 is about to store a word that it kept when the object was
/// reserved for itself. Whoever cancelled that reservation would have sent it back.
fn with_a_stale_word() -> Table {
    let mut table = fresh();
    table.object_mut(1).word = 0x000306;
    place(&mut table, 1, Operation::Enter, Phase::Store);
    table.thread_mut(1).kept_word = 0x000102;
    assert!(is_sound(&table));
    table
}

/// There the store makes the object reserved a second time, behind the first cancel, and thread 2 must cancel again.
#[test]
fn on_other_sound_tables_eight_steps_occur() {
    let mut table = with_a_stale_word();
    let mut own_steps = OwnSteps::default();
    let mut stepped_from = Vec::new();
    let mut event = |table: &mut Table, event: Event| {
        let before = phases(table);
        let returned = apply(table, event).returned;
        assert!(!returned.is_refusal());
        own_steps.feed(
            event,
            returned,
            &before,
            &phases(table),
            &mut Met::default(),
        );
        if event == ANOTHERS_STEP {
            stepped_from.push(before[1]);
        }
    };
    event(&mut table, Event::begin(2, Operation::Enter, 1, 0));
    for step in [2, 2, 1, 2, 2, 2, 2, 2, 2] {
        event(&mut table, Event::step(step));
    }
    assert_eq!(stepped_from, [1, 3, 1, 3, 1, 4, 6, 7]);
    assert_eq!(table.thread(2).phase, Phase::Contending);
    let taken = own_steps.count(2);
    assert_eq!(taken, count(Start::Begun(Operation::Enter), 8));
    assert!(own_steps.check(&phases(&table)).is_err());
}
