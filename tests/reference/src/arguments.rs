//! Numbers on the command line.

pub const DEFAULT_SEED: u64 = 1;

/// The number at a place of the arguments, or the default where there is none.
pub fn number(arguments: &[String], place: usize, default: u64) -> Result<u64, String> {
    match arguments.get(place) {
        Some(text) => text
            .parse()
            .map_err(|error| format!("{text} is no number: {error}")),
        None => Ok(default),
    }
}

/// The arguments of a program whose first two are a count and a seed that may be left out, and these two. Prints the seed, so that a run can be made
/// again; or what the call should have been.
pub fn count_and_seed(default_count: u64, usage: &str) -> Option<(Vec<String>, u64, u64)> {
    let arguments: Vec<String> = std::env::args().skip(1).collect();
    let count = number(&arguments, 0, default_count);
    let seed = number(&arguments, 1, DEFAULT_SEED);
    match count.and_then(|count| Ok((count, seed?))) {
        Ok((count, seed)) => {
            println!("seed {seed}");
            Some((arguments, count, seed))
        }
        Err(wrong) => {
            eprintln!("{wrong}\nusage: {usage}");
            None
        }
    }
}
