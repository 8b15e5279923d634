//! Writes a long, collision-heavy schedule for benchmarks: `make_schedule EVENTS THREADS OBJECTS [SEED] [TICKS]`.
//! TICKS percent of the events are ticks, none if not given; with ticks threads wait too, with limits.

use reference::generate::long_schedule;
use std::env;
use std::io::{self, Write};

fn argument(place: usize, otherwise: u64) -> u64 {
    env::args()
        .nth(place)
        .and_then(|word| word.parse().ok())
        .unwrap_or(otherwise)
}

fn main() -> io::Result<()> {
    let (threads, objects) = (argument(2, 8) as u8, argument(3, 3) as u8);
    io::stdout().write_all(&long_schedule(
        argument(4, 1),
        argument(1, 1_000_000),
        threads,
        objects,
        argument(5, 0),
    ))
}
