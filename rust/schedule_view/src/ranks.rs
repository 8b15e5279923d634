//! The ranks that the threads of a schedule have, which its lines do not say.

use crate::line;
use crate::run::State;
use crate::words::threads;
use duskclamp::MAX_RANK;

/// Of threads 1, 2 and so on; all others have 0. There may be more ranks than threads.
#[derive(Clone, Debug, Default, PartialEq, Eq)]
pub struct Ranks {
    first: Vec<u32>,
}

impl Ranks {
    /// Reads `3,0,1`; nothing where it is not ranks with commas between them.
    pub fn read(text: &str) -> Option<Ranks> {
        let rank = |digits: &str| line::read_number(digits.as_bytes());
        let ranks = text.split(',').map(rank);
        let first: Vec<u32> = ranks.collect::<Option<_>>()?;
        let known = first.iter().all(|rank| *rank <= MAX_RANK);
        known.then_some(Ranks { first })
    }

    /// Each thread that has one, with its rank.
    pub fn given(&self) -> impl Iterator<Item = (u32, u32)> + '_ {
        (1..).zip(self.first.iter().copied())
    }
}

/// Who has which rank: "Ranks: 3 for thread 1; 1 for threads 3 and 4; 0 for all others."; nothing where all have 0.
pub fn sentence(state: &State) -> Option<String> {
    let of = |rank: u32| -> Vec<u32> {
        let members = state.threads.iter().filter(|seen| seen.rank == rank);
        members.map(|seen| seen.number).collect()
    };
    let above = (1..=MAX_RANK).rev().map(|rank| (rank, of(rank)));
    let mut said: Vec<String> = above
        .filter(|(_, members)| !members.is_empty())
        .map(|(rank, members)| format!("{rank} for {}", threads(&members)))
        .collect();
    if said.is_empty() {
        return None;
    }
    if !of(0).is_empty() {
        said.push("0 for all others".to_string());
    }
    Some(format!("Ranks: {}.", said.join("; ")))
}
