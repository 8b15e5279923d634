//! Feeds the engine tables that no schedule reaches and compares bytes and answers with the second engine's.
//! Usage: tables [COUNT] [SEED] [REPLAY_PROGRAM]
//! COUNT tables, each with three events and questions; the replay program, if given, is fed malformed lines, for 21.

use std::process::ExitCode;
use tables::call::Call;
use tables::compare::Run;

const USAGE: &str = "tables [COUNT] [SEED] [REPLAY_PROGRAM]";
const DEFAULT_COUNT: u64 = 150_000;
const FRESH_CASES: u64 = 2_000;
const REPLAY_CASES: u64 = 200;
/// One table of so many gets a run too, which the kinds of tables, eight by turns, all come to.
const RUN_EVERY: u64 = 5;

fn main() -> ExitCode {
    let Some(call) = Call::read(DEFAULT_COUNT, USAGE) else {
        return ExitCode::FAILURE;
    };
    let mut run = Run::new(call.seed);
    run.check_cases();
    for place in 0..call.count {
        run.check_table(place);
        if place % RUN_EVERY == 0 {
            run.check_run(place);
        }
    }
    for _ in 0..FRESH_CASES {
        run.check_any_fresh();
    }
    if let Some(program) = &call.replay_program {
        for place in 0..REPLAY_CASES {
            run.check_replay(program, call.seed.wrapping_add(place));
        }
    }
    if call.count >= DEFAULT_COUNT {
        run.check_met();
    }
    run.finish(call.replay_program.is_some())
}
