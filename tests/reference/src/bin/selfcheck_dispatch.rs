//! Checks the reference's dispatcher alone, on generated scripts and on such as are refused: what request L6 says of every run.
//! Usage: selfcheck_dispatch [COUNT] [SEED]

use reference::arguments::count_and_seed;
use reference::dispatch::dispatch;
use reference::dispatch_check::{check_refused, check_run, Origin};
use reference::happened::Happened;
use reference::random::Random;
use reference::report::Report;
use reference::script_inputs::{input, spoil};
use reference::tally::Tally;
use std::process::ExitCode;

const DEFAULT_COUNT: u64 = 10_000;

fn main() -> ExitCode {
    let usage = "selfcheck_dispatch [COUNT] [SEED]";
    let Some((_, count, seed)) = count_and_seed(DEFAULT_COUNT, usage) else {
        return ExitCode::FAILURE;
    };
    let mut report = Report::default();
    let mut happened = Tally::default();
    for place in 0..count {
        happened.add_all(&check_seed(seed.wrapping_add(place), &mut report));
    }
    happened.print(Happened::from_schedules());
    if count >= DEFAULT_COUNT {
        happened.check(Happened::from_schedules(), &mut report);
    }
    report.finish()
}

/// The run of a seed's input, and the refusal of the input spoiled. Gives what happened in the run.
fn check_seed(seed: u64, report: &mut Report) -> Tally<Happened> {
    let mut input = input(seed);
    let checked = check_run(&input, &dispatch(&input), Origin::Schedule);
    let happened = checked.clone().unwrap_or_default();
    report.check(&format!("scripts of seed {seed}"), checked.map(|_| ()));
    let returned = spoil(&mut Random::new(seed), &mut input);
    let refused = check_refused(&input, &dispatch(&input), returned);
    report.check(&format!("scripts of seed {seed}, spoiled"), refused);
    happened
}
