//! Draws a schedule as a page, or with `--svg` as a picture for documents:
//! `timeline [--svg] [--lines FROM-TO] [--ranks R,R,..] [--schedule K] [FILE]`.

use duskclamp::Table;
use schedule_view::command::{self, Status};
use schedule_view::timeline;
use std::process::ExitCode;

const USAGE: &str =
    "usage: timeline [--svg] [--lines FROM-TO] [--ranks R,R,..] [--schedule K] [FILE]";

fn main() -> ExitCode {
    let arguments = command::arguments(std::env::args_os().skip(1), true);
    let ended = match arguments {
        None => Err((USAGE.to_string(), Status::Usage)),
        Some(arguments) if arguments.help => command::help(USAGE),
        Some(arguments) => {
            let title = command::title(&arguments);
            timeline::program::<Table>(&arguments, title, None)
        }
    };
    command::end("timeline", ended)
}
