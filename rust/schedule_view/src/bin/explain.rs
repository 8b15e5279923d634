//! Explains a schedule, line by line: `explain [--ranks R,R,..] [--schedule K] [FILE]`.

use duskclamp::Table;
use schedule_view::command::{self, Status};
use schedule_view::explain::{explain, Ended, Failure};
use std::io::Write;
use std::process::ExitCode;

const USAGE: &str = "usage: explain [--ranks R,R,..] [--schedule K] [FILE]";

fn main() -> ExitCode {
    command::end("explain", run())
}

fn run() -> Result<Status, (String, Status)> {
    let arguments = command::arguments(std::env::args_os().skip(1), false);
    let arguments = arguments.ok_or_else(|| (USAGE.to_string(), Status::Usage))?;
    if arguments.help {
        return command::help(USAGE);
    }
    let schedule = command::open(&arguments)?;
    let mut output = command::output().map_err(|error| command::write_failed(&error))?;
    let ended = explain::<Table>(schedule, &mut output);
    let flushed = output.flush().map_err(Failure::Write);
    match ended.and_then(|ended| flushed.map(|()| ended)) {
        Ok(Ended::AllRead) => Ok(Status::Done),
        Ok(Ended::BadHeader) => Ok(Status::EndedEarly),
        Err(Failure::Read(error)) => Err(command::read_failed(&error)),
        Err(Failure::Write(error)) => Err(command::write_failed(&error)),
    }
}
