//! The arguments of the programs that may be given a replay program: `[COUNT] [SEED] [REPLAY_PROGRAM]`.

use reference::arguments::count_and_seed;
use std::path::Path;

pub struct Call {
    pub count: u64,
    pub seed: u64,
    pub replay_program: Option<String>,
}

impl Call {
    /// Prints the seed; or what is wrong with the arguments.
    pub fn read(default_count: u64, usage: &str) -> Option<Call> {
        let (arguments, count, seed) = count_and_seed(default_count, usage)?;
        let replay_program = arguments.get(2).cloned();
        if let Some(program) = replay_program
            .as_ref()
            .filter(|program| !Path::new(program).is_file())
        {
            eprintln!("{program} is not there; `tools/build.sh replay` builds target/bin/replay\nusage: {usage}");
            return None;
        }
        Some(Call {
            count,
            seed,
            replay_program,
        })
    }
}
