//! The replay program without the test of soundness at every event, for benchmarks; it is built with the feature `untested` alone.

use reference::replay::replay_stream;
use std::io;

fn main() -> io::Result<()> {
    replay_stream(io::stdin().lock(), io::stdout().lock())
}
