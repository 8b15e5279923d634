//! Runs another program on an input, feeding and reading it at once and not waiting for ever.

use std::io::{Read, Write};
use std::process::{Child, Command, Stdio};
use std::sync::mpsc;
use std::thread;
use std::time::Duration;

/// Far more than any case needs; a program that takes longer counts as failed.
const TIME_LIMIT: Duration = Duration::from_secs(60);
/// The status of a program that ended before its input, and what it then printed: of the replay that there is no header or a bad one, of the report
/// that there are too many lines.
const ENDED_EARLY: i32 = 3;
const EARLY: [&[u8]; 3] = [b"21\n", b"22\n", b"24\n"];
/// A program that prints without end is cut off here.
const MAX_OUTPUT: u64 = 1 << 26;

/// What the program printed, or why there is no output to speak of.
pub fn run(program: &str, input: &[u8]) -> Result<Vec<u8>, String> {
    let mut child = Command::new(program)
        .stdin(Stdio::piped())
        .stdout(Stdio::piped())
        .spawn()
        .map_err(|error| format!("the program does not start: {error}"))?;
    let mut stdin = child.stdin.take().ok_or("no standard input")?;
    let stdout = child.stdout.take().ok_or("no standard output")?;
    let (sender, receiver) = mpsc::channel();
    let reader = thread::spawn(move || {
        let mut output = Vec::new();
        let read = stdout.take(MAX_OUTPUT).read_to_end(&mut output);
        // Nobody listens any more once the time limit has passed.
        let _ = sender.send(read.map(|_| output));
    });
    let received = thread::scope(|scope| {
        scope.spawn(move || {
            // A program may end before its input does, as after a bad header; then this write fails.
            let _ = stdin.write_all(input);
        });
        let received = receiver.recv_timeout(TIME_LIMIT);
        if received.is_err() {
            // Ends the pipes too, so that neither thread is left behind.
            let _ = child.kill();
        }
        received
    });
    let _ = reader.join();
    let output = received.map_err(|_| "the program does not end".to_string());
    let early = wait(child)?;
    let output = output?.map_err(|error| format!("output not readable: {error}"))?;
    if early && !EARLY.contains(&output.as_slice()) {
        return Err(format!("the program ended with status {ENDED_EARLY}, and not early"));
    }
    Ok(output)
}

/// Whether it ended before its input, by its status.
fn wait(mut child: Child) -> Result<bool, String> {
    match child.wait() {
        Ok(status) if status.success() => Ok(false),
        Ok(status) if status.code() == Some(ENDED_EARLY) => Ok(true),
        Ok(status) => Err(format!("the program ended with {status}")),
        Err(error) => Err(format!("the program cannot be waited for: {error}")),
    }
}
