//! Shrinks a failing schedule: drops lines, in ever smaller pieces, while it still fails.

use std::time::{Duration, Instant};

/// Enough for all but the longest schedules, which are then left as far as they came.
const TIME_LIMIT: Duration = Duration::from_secs(5);

/// The shortest failing schedule found.
pub fn shrink(input: &[u8], mut fails: impl FnMut(&[u8]) -> bool) -> Vec<u8> {
    let end_of_time = Instant::now() + TIME_LIMIT;
    let mut lines: Vec<&[u8]> = input.split_inclusive(|byte| *byte == b'\n').collect();
    let mut piece = lines.len().div_ceil(2);
    while piece > 0 {
        let mut dropped = false;
        let mut start = 0;
        while start < lines.len() && Instant::now() < end_of_time {
            let end = lines.len().min(start + piece);
            let shorter = [&lines[..start], &lines[end..]].concat();
            if fails(&shorter.concat()) {
                lines = shorter;
                dropped = true;
            } else {
                start = end;
            }
        }
        // Single lines are tried again as long as one could be dropped.
        let again = piece == 1 && dropped && Instant::now() < end_of_time;
        if !again {
            piece /= 2;
        }
    }
    lines.concat()
}
