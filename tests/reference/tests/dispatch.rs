//! Request L6: whose step comes next, what counts as one, what a run leaves behind, and what is refused; and that the check of a run notices mistakes.

mod common;

use common::{held, place, FAT, FLAT_1, FREE};
use reference::dispatch::{dispatch, dispatch_mistaken, Input, Mistake, Run, Script};
use reference::dispatch_check::{check_refused, check_run, Origin};
use reference::engine::{apply, Event};
use reference::generate::UNTIMED;
use reference::happened::Happened;
use reference::outcome::Returned;
use reference::script_inputs::input;
use reference::table::{Operation, Phase, Table, MAX_DEPTH};
use reference::tally::Kind;
use reference::word::MAX_COUNT;

const ENTER: Operation = Operation::Enter;
const EXIT: Operation = Operation::Exit;
const WAIT: Operation = Operation::Wait;
const NOTIFY: Operation = Operation::Notify;

type Scripted<'a> = &'a [(Operation, u8)];

fn fresh(threads: u16, objects: u16) -> Table {
    Table::fresh(threads, objects, false).expect("sizes in range")
}

/// The scripts one behind the other, one for each thread.
fn with_scripts(table: Table, quantum: u32, scripts: &[Scripted]) -> Input {
    let mut input = Input {
        table,
        quantum,
        scripts: Vec::new(),
        cursors: Vec::new(),
    };
    for script in scripts {
        input.cursors.push(Script {
            start: input.lent() as u32,
            length: script.len() as u32,
            cursor: 0,
        });
        let numbers = script.iter();
        let bytes = numbers.flat_map(|(operation, object)| [operation.number(), *object]);
        input.scripts.extend(bytes);
    }
    input
}

/// The run, with all that the check says of it.
fn run(input: &Input) -> Run {
    let run = dispatch(input);
    check_run(input, &run, Origin::Construction).expect("a good run");
    run
}

/// Thread and returned number of each step.
fn steps(run: &Run) -> Vec<(u8, u8)> {
    let steps = run.trace.iter();
    steps
        .map(|entry| (entry.thread, entry.outcome.returned.number()))
        .collect()
}

fn threads(run: &Run) -> Vec<u8> {
    run.trace.iter().map(|entry| entry.thread).collect()
}

fn cursors(run: &Run) -> Vec<u32> {
    run.cursors.iter().map(|script| script.cursor).collect()
}

#[test]
fn a_script_is_run_to_its_end() {
    let input = with_scripts(fresh(1, 1), 10, &[&[(ENTER, 1), (EXIT, 1)]]);
    let run = run(&input);
    assert_eq!(run.returned, Returned::GoneOn);
    assert_eq!(steps(&run), [(1, 1), (1, 0), (1, 1)]);
    let began: Vec<bool> = run.trace.iter().map(|entry| entry.began).collect();
    assert_eq!(began, [true, true, false]);
    assert_eq!(cursors(&run), [2]);
    assert_eq!(run.table, fresh(1, 1));
    let events = [
        Event::begin(1, ENTER, 1, 0),
        Event::step(1),
        Event::begin(1, EXIT, 1, 0),
        Event::step(1),
        Event::step(1),
    ];
    assert_eq!(run.events, events);
}

#[test]
fn threads_take_turns_in_rising_number() {
    let scripts: [Scripted; 2] = [&[(ENTER, 1), (EXIT, 1)], &[(ENTER, 2), (EXIT, 2)]];
    for (quantum, expected) in [
        (1, [1, 2, 1, 2, 1, 2]),
        (2, [1, 1, 2, 2, 1, 2]),
        (3, [1, 1, 1, 2, 2, 2]),
        (100, [1, 1, 1, 2, 2, 2]),
    ] {
        let run = run(&with_scripts(fresh(2, 2), quantum, &scripts));
        assert_eq!(threads(&run), expected);
    }
}

/// Thread 3 owns object 1 by its monitor when the others queue up for it, thread 1 first. It goes to thread 2 if that has the higher rank.
#[test]
fn a_higher_rank_gets_the_monitor_first() {
    let work: Scripted = &[(ENTER, 1), (EXIT, 1)];
    for (rank, expected) in [
        (0, [1, 1, 2, 2, 3, 3, 1, 1, 1, 2, 2, 2]),
        (3, [1, 1, 2, 2, 3, 3, 2, 2, 2, 1, 1, 1]),
    ] {
        let mut table = fresh(3, 1);
        table.object_mut(1).word = FAT;
        (
            table.object_mut(1).monitor.holder,
            table.object_mut(1).monitor.depth,
        ) = (3, 1);
        table.thread_mut(2).rank = rank;
        let run = run(&with_scripts(table, 3, &[work, work, &[(EXIT, 1)]]));
        assert_eq!(threads(&run), expected);
    }
}

#[test]
fn a_park_ends_the_turn_and_an_end_with_parked_threads_returns_0() {
    let scripts: [Scripted; 3] = [&[(ENTER, 1)], &[(ENTER, 1), (EXIT, 1)], &[(ENTER, 2)]];
    let run = run(&with_scripts(fresh(3, 2), 100, &scripts));
    let expected = [(1, 1), (2, 0), (2, 0), (2, 0), (2, 2), (3, 1)];
    assert_eq!(steps(&run), expected);
    assert_eq!(run.returned, Returned::GoneOn);
    assert_eq!(run.table.thread(2).phase, Phase::Contending);
    // The enter was begun, so it is behind the cursor.
    assert_eq!(cursors(&run), [1, 1, 1]);
}

#[test]
fn a_thread_that_is_unparked_goes_on_in_its_next_turn() {
    let scripts: [Scripted; 2] = [&[(ENTER, 1), (EXIT, 1)], &[(ENTER, 1), (EXIT, 1)]];
    let run = run(&with_scripts(fresh(2, 1), 1, &scripts));
    assert_eq!(run.table, fresh(2, 1));
    assert_eq!(cursors(&run), [2, 2]);
}

#[test]
fn two_threads_that_keep_each_other_end_the_run() {
    let scripts: [Scripted; 2] = [&[(ENTER, 1), (ENTER, 2)], &[(ENTER, 2), (ENTER, 1)]];
    let input = with_scripts(fresh(2, 2), 1, &scripts);
    let run = dispatch(&input);
    let happened = check_run(&input, &run, Origin::Schedule).expect("a good run");
    assert_eq!(happened.number(Happened::Deadlock), 1);
    assert_eq!(run.returned, Returned::GoneOn);
}

#[test]
fn a_wait_is_notified_or_lasts_for_ever() {
    let waits: Scripted = &[(ENTER, 1), (WAIT, 1), (EXIT, 1)];
    let notifies: Scripted = &[(ENTER, 1), (NOTIFY, 1), (EXIT, 1)];
    let notified = run(&with_scripts(fresh(2, 1), 100, &[waits, notifies]));
    assert_eq!(cursors(&notified), [3, 3]);
    assert_eq!(notified.table, fresh(2, 1));
    // The other way round nobody waits yet when the notify comes.
    let waiting = run(&with_scripts(fresh(2, 1), 100, &[notifies, waits]));
    assert_eq!(cursors(&waiting), [3, 2]);
    assert_eq!(waiting.table.thread(2).phase, Phase::Waiting);
}

#[test]
fn refused_with_18_is_a_step() {
    let script: Scripted = &[(EXIT, 1), (NOTIFY, 1), (ENTER, 1)];
    for quantum in [1, 100] {
        let run = run(&with_scripts(fresh(1, 1), quantum, &[script]));
        assert_eq!(steps(&run), [(1, 18), (1, 18), (1, 1)]);
    }
    // It takes up a turn.
    let scripts: [Scripted; 2] = [&[(EXIT, 1), (EXIT, 1)], &[(ENTER, 1)]];
    let run = run(&with_scripts(fresh(2, 1), 1, &scripts));
    assert_eq!(steps(&run), [(1, 18), (2, 1), (1, 18)]);
}

#[test]
fn refused_with_19_is_a_step() {
    let script = vec![(ENTER, 1); usize::from(MAX_DEPTH) + 2];
    let run = run(&with_scripts(fresh(1, 1), 100, &[&script]));
    // Enters finish with one step in a flat word and with two in a monitor. The one that inflates, by way of 4 and 6, takes three.
    let flat = usize::from(MAX_COUNT) + 1;
    let expected = flat + 3 + 2 * (script.len() - flat - 1);
    assert_eq!(run.trace.len(), expected);
    let last: Vec<(u8, u8)> = steps(&run).split_off(expected - 6);
    assert_eq!(last, [(1, 0), (1, 1), (1, 0), (1, 19), (1, 0), (1, 19)]);
    assert_eq!(run.table.owner(1), (1, MAX_DEPTH));
}

#[test]
fn a_step_without_a_rule_is_none_and_ends_the_turn_alone() {
    // Thread 1 is to check a word whose monitor nobody holds.
    let mut table = common::fresh();
    place(&mut table, 1, ENTER, Phase::Check);
    let none: Scripted = &[(EXIT, 2)];
    let input = with_scripts(table.clone(), 5, &[none, &[(ENTER, 2)], &[], &[]]);
    let run = run(&input);
    assert_eq!(steps(&run), [(2, 1)]);
    assert_eq!(cursors(&run), [0, 1, 0, 0]);
    assert_eq!(run.table.thread(1), table.thread(1));
    assert_eq!(run.without_rule, 2);
}

#[test]
fn an_operation_that_was_begun_before_goes_on() {
    // Thread 1 holds the monitor and is about to try a free word.
    let table = held(FREE, ENTER, Phase::Try);
    let input = with_scripts(table, 1, &[&[(EXIT, 1)], &[], &[], &[]]);
    let run = run(&input);
    assert_eq!(steps(&run), [(1, 1), (1, 0), (1, 1)]);
    assert_eq!(cursors(&run), [1, 0, 0, 0]);
    let began: Vec<bool> = run.trace.iter().map(|entry| entry.began).collect();
    assert_eq!(began, [false, true, false]);
}

#[test]
fn an_exit_that_is_let_out_goes_on_with_its_script() {
    let mut table = held(FREE, ENTER, Phase::Try);
    common::park(&mut table, 2, common::EXIT_QUEUED);
    let input = with_scripts(table, 1, &[&[], &[(ENTER, 2)], &[], &[]]);
    let run = run(&input);
    assert_eq!(steps(&run), [(1, 1), (2, 1)]);
    assert_eq!(run.trace[0].outcome.unparked.bits(), 0b10);
    assert!(run.trace[1].began);
    assert_eq!(run.table.owner(2), (2, 1));
}

#[test]
fn timed_waits_get_no_ticks() {
    let mut table = common::with_monitor(0, 0);
    common::park(&mut table, 1, (Operation::TimedWait, Phase::Waiting));
    let input = with_scripts(table.clone(), 9, &[&[(ENTER, 1)], &[], &[], &[]]);
    let run = run(&input);
    assert!(run.trace.is_empty());
    assert_eq!(run.table, table);
    assert_eq!(cursors(&run), [0; 4]);
}

#[test]
fn scripts_may_be_the_same_and_overlap_and_what_lies_between_is_not_read() {
    let mut input = with_scripts(fresh(3, 1), 2, &[&[(ENTER, 1), (EXIT, 1), (ENTER, 1)]]);
    input.scripts.extend([0, 0, 255, 255, 7]);
    let record = |start: u32, length: u32| Script {
        start,
        length,
        cursor: 0,
    };
    input.cursors = vec![record(0, 2), record(0, 2), record(1, 2)];
    let run = run(&input);
    assert_eq!(cursors(&run), [2, 2, 2]);
    assert_eq!(run.table.owner(1), (3, 1));
    // An empty script may begin behind the last operation.
    input.cursors[1] = record(5, 0);
    assert_eq!(dispatch(&input).returned, Returned::GoneOn);
}

#[test]
fn a_cursor_may_be_in_the_middle_or_at_the_end() {
    let script: Scripted = &[(EXIT, 1), (ENTER, 1), (EXIT, 1)];
    let mut input = with_scripts(fresh(1, 1), 1, &[script]);
    for (cursor, expected) in [(0, 4), (1, 3), (2, 1), (3, 0)] {
        input.cursors[0].cursor = cursor;
        let run = run(&input);
        assert_eq!((run.trace.len(), cursors(&run)), (expected, vec![3]));
    }
}

fn assert_refused(input: &Input, returned: Returned) {
    check_refused(input, &dispatch(input), returned).expect("a refusal");
}

fn good_input() -> Input {
    let scripts: [Scripted; 2] = [&[(ENTER, 1), (EXIT, 1)], &[(ENTER, 2), (EXIT, 2)]];
    with_scripts(fresh(2, 2), 5, &scripts)
}

#[test]
fn refused_with_11_then_25_then_26() {
    let mut input = good_input();
    input.cursors.pop();
    assert_refused(&input, Returned::ScriptUnknown);
    input.quantum = 0;
    assert_refused(&input, Returned::QuantumOutOfRange);
    input.table.object_mut(1).word = 3;
    assert_refused(&input, Returned::NotSound);
    input.quantum = 5;
    assert_refused(&input, Returned::NotSound);
    let (quantum, unknown) = (Returned::QuantumOutOfRange, Returned::ScriptUnknown);
    assert_eq!((quantum.number(), unknown.number()), (25, 26));
}

#[test]
fn a_turn_has_1_to_100_steps() {
    let mut input = good_input();
    for (quantum, is_good) in [
        (0, false),
        (1, true),
        (100, true),
        (101, false),
        (256 + 1, false),
        (u32::MAX, false),
    ] {
        input.quantum = quantum;
        let refused = dispatch(&input).returned == Returned::QuantumOutOfRange;
        assert_eq!(refused, !is_good);
    }
}

#[test]
fn there_is_a_record_for_each_thread_and_no_other() {
    let input = good_input();
    for number in [0, 1, 3, 32, 33] {
        let mut other = input.clone();
        other.cursors.resize(number, Script::default());
        assert_refused(&other, Returned::ScriptUnknown);
    }
}

#[test]
fn scripts_lie_in_what_is_lent_and_cursors_in_their_scripts() {
    for (start, length, cursor, is_good) in [
        (0, 4, 4, true),
        (4, 0, 0, true),
        (5, 0, 0, false),
        (0, 5, 0, false),
        (3, 2, 0, false),
        (u32::MAX, 1, 0, false),
        (1, u32::MAX, 0, false),
        (u32::MAX, u32::MAX, 0, false),
        (0, 4, 5, false),
        (0, 0, 1, false),
        (0, 2, u32::MAX, false),
    ] {
        let mut input = good_input();
        input.cursors[1] = Script {
            start,
            length,
            cursor,
        };
        let whole = dispatch(&input).returned;
        assert_eq!(whole == Returned::GoneOn, is_good, "{start} {length}");
        // An odd byte behind the last operation adds none.
        input.scripts.push(1);
        assert_eq!(dispatch(&input).returned, whole);
    }
}

#[test]
fn unknown_operations_and_objects_are_refused_also_before_the_cursor() {
    for cursor in [0, 2] {
        for (operation, object) in [(0, 1), (6, 1), (7, 1), (255, 1), (1, 0), (1, 3), (1, 255)] {
            let mut input = good_input();
            input.cursors[0].cursor = cursor;
            input.scripts[..2].copy_from_slice(&[operation, object]);
            assert_refused(&input, Returned::ScriptUnknown);
            // Nobody has that operation in a script.
            input.cursors[0] = Script::default();
            assert_eq!(dispatch(&input).returned, Returned::GoneOn);
        }
    }
}

/// How often an unparked thread with work left saw as many steps of others as it may.
fn longest_waits(input: &Input) -> u64 {
    let checked = check_run(input, &dispatch(input), Origin::Schedule);
    checked.expect("a good run").number(Happened::LongestWait)
}

#[test]
fn the_bound_of_fairness_is_reached() {
    let script: Scripted = &[(ENTER, 1), (EXIT, 1)];
    let apart: [Scripted; 2] = [script, &[(ENTER, 2), (EXIT, 2)]];
    assert!(longest_waits(&with_scripts(fresh(2, 2), 1, &apart)) > 0);
    // Eight threads that never meet, nine operations each, with three steps a turn.
    let scripts: Vec<Vec<(Operation, u8)>> = (1..=8).map(|n| vec![(ENTER, n); 9]).collect();
    let scripts: Vec<Scripted> = scripts.iter().map(Vec::as_slice).collect();
    assert!(longest_waits(&with_scripts(fresh(8, 8), 3, &scripts)) > 0);
}

/// The mistaken run of an input, by the check of a good one.
fn is_noticed(input: &Input, mistake: Mistake, origin: Origin) -> bool {
    let run = dispatch_mistaken(input, Some(mistake));
    check_run(input, &run, origin).is_err()
}

#[test]
fn the_check_notices_mistakes() {
    for mistake in [
        Mistake::NotOwnerIsNoStep,
        Mistake::CursorMovesAtTheEnd,
        Mistake::TurnGoesOnParked,
        Mistake::EndRefused,
        Mistake::RoundEndsEarly,
    ] {
        let seen = |seed: &u64| is_noticed(&input(*seed), mistake, Origin::Schedule);
        let times = (0..200).filter(seen).count();
        assert!(times > 20, "{mistake:?} is noticed {times} times");
    }
    let mut table = common::fresh();
    place(&mut table, 1, ENTER, Phase::Check);
    let no_rule = with_scripts(table, 5, &[&[], &[], &[], &[]]);
    let mistake = Mistake::NoRuleIsAStep;
    assert!(is_noticed(&no_rule, mistake, Origin::Construction));
    // And a step without a rule is no good run from a schedule.
    assert!(check_run(&no_rule, &dispatch(&no_rule), Origin::Schedule).is_err());
    let mut unsound = good_input();
    unsound.quantum = 0;
    unsound.table.object_mut(1).word = 3;
    let run = dispatch_mistaken(&unsound, Some(Mistake::QuantumFirst));
    assert!(check_refused(&unsound, &run, Returned::NotSound).is_err());
}

#[test]
fn the_check_notices_what_a_run_leaves_otherwise() {
    let input = good_input();
    let good = dispatch(&input);
    let wrong = |change: fn(&mut Run)| {
        let mut run = good.clone();
        change(&mut run);
        check_run(&input, &run, Origin::Schedule).is_err()
    };
    assert!(!wrong(|_| {}));
    assert!(wrong(|run| run.cursors[1].cursor -= 1));
    assert!(wrong(|run| run.table.object_mut(1).word = FLAT_1));
    assert!(wrong(|run| run.trace.truncate(1)));
    assert!(wrong(|run| run.events.push(Event::step(1))));
    assert!(wrong(|run| run.events.swap(0, 2)));
    assert!(wrong(|run| run.trace[0].began = false));
    assert!(wrong(|run| run.trace[1].outcome.committed = false));
    assert!(wrong(|run| run.trace[0].thread = 2));
    assert!(wrong(|run| run.without_rule = 1));
}

/// Generated inputs are the same for the same seed, and some come from a table at which a schedule has been at work.
#[test]
fn inputs_are_made_again_by_their_seed() {
    let mut reached = 0;
    for seed in 0..200 {
        let (one, other) = (input(seed), input(seed));
        assert_eq!(one.table, other.table);
        assert_eq!((one.quantum, &one.scripts), (other.quantum, &other.scripts));
        assert_eq!(one.cursors, other.cursors);
        let objects = one.table.object_records.iter();
        reached += usize::from(objects.clone().any(|object| object.word == FAT));
    }
    assert!(reached > 10);
}

/// A begun operation always has a step: no begin is left over in a round without one.
#[test]
fn a_look_always_has_a_rule() {
    for seed in 0..200 {
        let Input { mut table, .. } = input(seed);
        for thread in 1..=table.threads {
            if table.thread(thread).phase != Phase::Idle {
                continue;
            }
            for operation in UNTIMED {
                apply(&mut table, Event::begin(thread, operation, 1, 0));
                let mut stepped = table.clone();
                let returned = apply(&mut stepped, Event::step(thread)).returned;
                assert_ne!(returned, Returned::NoRule);
                table.make_idle(thread);
            }
        }
    }
}

#[test]
fn everything_that_may_happen_is_listed_at_its_place() {
    for (place, happened) in Happened::ALL.into_iter().enumerate() {
        assert_eq!(happened.place(), place);
        assert!(!happened.name().is_empty() && happened.least() > 0);
    }
    assert_eq!(Happened::from_schedules().len(), Happened::ALL.len() - 2);
}
