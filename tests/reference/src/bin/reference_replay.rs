//! The reference's replay program: standard input to standard output.

use reference::replay::replay_stream;
use std::io;

#[cfg(feature = "untested")]
compile_error!(
    "this program and the tests test every event; build reference_replay_untested alone"
);

#[cfg(feature = "stale_store")]
compile_error!(
    "this program and the tests are of the right engine; tests/accident draws the wrong one"
);

fn main() -> io::Result<()> {
    replay_stream(io::stdin().lock(), io::stdout().lock())
}
