//! Feeds the library's dispatcher scripts, on tables of all kinds, and compares answers, traces, tables and records with the second dispatcher's.
//! Usage: dispatch [COUNT] [SEED] [REPLAY_PROGRAM]
//! COUNT inputs; the replay program, if given, replays the traces of some more.

use std::process::ExitCode;
use tables::call::Call;
use tables::dispatches::Dispatches;

const DEFAULT_COUNT: u64 = 60_000;
const REPLAY_CASES: u64 = 200;

fn main() -> ExitCode {
    let Some(call) = Call::read(DEFAULT_COUNT, "dispatch [COUNT] [SEED] [REPLAY_PROGRAM]") else {
        return ExitCode::FAILURE;
    };
    let mut dispatches = Dispatches::default();
    for place in 0..call.count {
        dispatches.check(call.seed.wrapping_add(place));
    }
    if let Some(program) = &call.replay_program {
        for place in 0..REPLAY_CASES {
            dispatches.check_replay(program, call.seed.wrapping_add(place));
        }
    }
    dispatches.finish(call.count >= DEFAULT_COUNT)
}
