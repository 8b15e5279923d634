//! Schedules with ranks to be given with the fresh table, which the replay's do not have: lines `poke rank THREAD RANK` right behind the header.

use crate::random::Random;
use crate::replay::split_lines;
use crate::table::{Given, MAX_RANK, MAX_THREADS};
use std::io::Write;

/// In percent, how often ranks are drawn at all, and how often something stands for a thread that the table does not have.
const RANKED: u64 = 60;
const PAST: u64 = 30;

/// What the lines behind the header give; nothing where there are none, as in an input of the replay.
pub fn read_given(input: &[u8]) -> Given {
    let mut given = Given::default();
    for (place, rank) in split_lines(input).skip(1).map_while(read_rank) {
        given.ranks[place] = rank;
    }
    given
}

/// The place of the thread, and its rank.
pub fn read_rank(line: &[u8]) -> Option<(usize, u8)> {
    let line = std::str::from_utf8(line).ok()?.strip_suffix('\n')?;
    let (thread, rank) = line.strip_prefix("poke rank ")?.split_once(' ')?;
    let place = thread.parse::<usize>().ok()?.checked_sub(1)?;
    (place < MAX_THREADS).then_some((place, rank.parse().ok()?))
}

pub fn write_given(given: &Given, text: &mut Vec<u8>) {
    for (thread, rank) in (1..).zip(given.ranks) {
        if rank != 0 {
            writeln!(text, "poke rank {thread} {rank}").expect("a vector takes any text");
        }
    }
}

/// Ranks for so many threads, at times all 0. What stands behind them is not to be read, and may be no rank.
pub fn draw_given(random: &mut Random, threads: u8) -> Given {
    let mut given = Given::default();
    let (ranks, past) = given.ranks.split_at_mut(threads.into());
    if random.percent(RANKED) {
        let most = random.pick(&[1, MAX_RANK, MAX_RANK]);
        let chance = random.pick(&[20, 50, 100]);
        for rank in ranks {
            let any = random.between(0, most.into()) as u8;
            *rank = if random.percent(chance) { any } else { 0 };
        }
    }
    if random.percent(PAST) {
        past.fill_with(|| random.draw() as u8);
    }
    given
}
