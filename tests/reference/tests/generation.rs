//! That generated schedules go everywhere, are the same for the same seed, and shrink.

mod common;

use common::each_event;
use reference::checked::check_schedule;
use reference::engine::Event;
use reference::generate::{given_schedule, long_schedule, schedule};
use reference::met::{Met, Rare};
use reference::outcome::{Outcome, Returned};
use reference::shrink::shrink;
use reference::table::{Onward, Operation, Phase, Table, ThreadRecord, MAX_LIMIT};
use std::collections::BTreeSet;
use std::ops::Range;

const SEEDS: Range<u64> = 0..400;

/// The phases stepped from and the numbers returned in a schedule.
fn visit(input: &[u8], phases: &mut BTreeSet<u8>, numbers: &mut BTreeSet<u8>) {
    each_event(input, |before, _, event, outcome| {
        if let Event::Step { thread } = event {
            let record = before
                .thread_number(thread)
                .map(|thread| before.thread(thread));
            phases.extend(record.map(|record| record.phase.number()));
        }
        numbers.insert(outcome.returned.number());
    });
}

#[test]
fn every_phase_and_number_is_reached() {
    let (mut phases, mut numbers) = (BTreeSet::new(), BTreeSet::new());
    for seed in SEEDS {
        visit(&schedule(seed), &mut phases, &mut numbers);
    }
    assert_eq!(phases, (0..=15).collect());
    let reached = BTreeSet::from([0, 1, 2, 12, 13, 14, 15, 16, 18, 23]);
    assert_eq!(numbers, reached);
}

/// What may befall a timed wait.
#[derive(Clone, Copy, Debug, PartialEq, Eq, PartialOrd, Ord)]
enum Fate {
    LongestLimit,
    FinishedRunOut,
    FinishedNotified,
    TickedWhenNotified,
    RunOutAndHanded,
    RunOutAndQueued,
    RunOutTogether,
    RunOutBeforeOthers,
}

fn is_timed(record: &ThreadRecord) -> bool {
    record.operation == Some(Operation::TimedWait)
}

/// What a tick does to the timed waits of a table.
fn fates_of_tick(before: &Table, after: &Table) -> Vec<Fate> {
    let records = before.thread_records.iter().zip(&after.thread_records);
    let waited = records.filter(|(old, _)| old.phase == Phase::Waiting);
    let phases: Vec<Phase> = waited.map(|(_, new)| new.phase).collect();
    let handed = phases.contains(&Phase::Resume);
    let queued = phases.contains(&Phase::Queued(Onward::Resume));
    let run_out = phases.iter().filter(|phase| phase.is_woken()).count();
    let notified = before
        .thread_records
        .iter()
        .any(|old| is_timed(old) && old.phase.is_woken() && old.ticks > 0);
    let seen = [
        (notified, Fate::TickedWhenNotified),
        (handed, Fate::RunOutAndHanded),
        (queued, Fate::RunOutAndQueued),
        (run_out > 1, Fate::RunOutTogether),
        (
            (1..phases.len()).contains(&run_out),
            Fate::RunOutBeforeOthers,
        ),
    ];
    let seen = seen.into_iter().filter(|(is_so, _)| *is_so);
    seen.map(|(_, fate)| fate).collect()
}

/// What the event does to a timed wait, if anything.
fn fates(before: &Table, after: &Table, event: Event, outcome: Outcome) -> Vec<Fate> {
    match (event, outcome.returned) {
        (Event::Tick, _) => fates_of_tick(before, after),
        (Event::Begin { thread, .. }, Returned::GoneOn) => {
            let longest = after.thread(thread as u8).ticks == MAX_LIMIT;
            longest.then_some(Fate::LongestLimit).into_iter().collect()
        }
        (Event::Step { thread }, Returned::Finished) if is_timed(before.thread(thread as u8)) => {
            match outcome.woken {
                0 => vec![Fate::FinishedNotified],
                _ => vec![Fate::FinishedRunOut],
            }
        }
        _ => Vec::new(),
    }
}

fn fates_in(input: &[u8]) -> BTreeSet<Fate> {
    let mut found = BTreeSet::new();
    each_event(input, |before, after, event, outcome| {
        found.extend(fates(before, after, event, outcome));
    });
    found
}

#[test]
fn timed_waits_meet_every_fate() {
    let found: BTreeSet<Fate> = SEEDS.flat_map(|seed| fates_in(&schedule(seed))).collect();
    let all = BTreeSet::from([
        Fate::LongestLimit,
        Fate::FinishedRunOut,
        Fate::FinishedNotified,
        Fate::TickedWhenNotified,
        Fate::RunOutAndHanded,
        Fate::RunOutAndQueued,
        Fate::RunOutTogether,
        Fate::RunOutBeforeOthers,
    ]);
    assert_eq!(found, all);
}

/// What the schedules of benchmarks add up to, so that measurements before and after a change are of the same one. A change of the rules may change
/// them, since they go by the engine's table.
#[test]
fn benchmarks_keep_their_schedules() {
    let sum = long_schedule(1, 1_000, 8, 3, 0)
        .into_iter()
        .fold(0_u64, |sum, byte| {
            sum.wrapping_mul(31).wrapping_add(byte.into())
        });
    assert_eq!(sum, 0xde83_4eea_e025_2200);
}

#[test]
fn long_schedules_have_timed_waits_and_ticks_only_if_asked() {
    let letters = |ticks: u64| -> BTreeSet<u8> {
        let schedule = long_schedule(1, 5_000, 4, 2, ticks);
        let lines = schedule.split(|byte| *byte == b'\n');
        lines.filter_map(|line| line.first().copied()).collect()
    };
    assert!(letters(0).is_disjoint(&BTreeSet::from(*b"VC")));
    assert!(letters(5).is_superset(&BTreeSet::from(*b"VC")));
    let ticked = long_schedule(1, 5_000, 4, 2, 5);
    assert!(fates_in(&ticked).contains(&Fate::FinishedRunOut));
    assert!(check_schedule(&ticked).is_ok());
}

#[test]
fn a_seed_makes_one_schedule() {
    assert_eq!(schedule(7), schedule(7));
    assert_ne!(schedule(7), schedule(8));
}

/// Demand 3 holds of generated schedules, and they meet what is rare often enough.
fn meet(generate: fn(u64) -> Vec<u8>, seeds: Range<u64>, least: fn(Rare) -> u64) {
    let mut met = Met::default();
    for seed in seeds {
        match check_schedule(&generate(seed)) {
            Ok(found) => met.add_all(&found),
            Err(wrong) => panic!("seed {seed}: {wrong}"),
        }
    }
    for rare in Rare::ALL {
        assert!(met.number(rare) >= least(rare), "{rare:?}: {met:?}");
    }
}

/// A fifth of what the cross-check runs, without ranks; exits that end without going in, twice as often.
#[test]
fn demand_3_holds() {
    meet(schedule, SEEDS, |rare| match rare {
        rare if Rare::by_rank().contains(&rare) => 0,
        Rare::EndedAtTheFlag | Rare::LetOutAtCheck | Rare::LetOutAtTry | Rare::LetOutAtInflate => {
            40
        }
        _ => 20,
    });
}

/// A fifth of what the self-check runs.
#[test]
fn demand_3_holds_with_ranks() {
    meet(given_schedule, 0..1_000, |_| 20);
}

#[test]
fn shrinking_keeps_what_fails() {
    let input: Vec<u8> = (0..500)
        .flat_map(|number| format!("S {number}\n").into_bytes())
        .collect();
    let fails = |input: &[u8]| {
        let text = String::from_utf8_lossy(input);
        text.contains("S 17\n") && text.contains("S 401\n")
    };
    assert_eq!(shrink(&input, fails), b"S 17\nS 401\n");
}
