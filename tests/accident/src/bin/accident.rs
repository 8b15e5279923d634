//! Draws a schedule as a wrong engine runs it, in which cancelling a reservation does not send its owner back, so that the old word goes in. The picture
//! says that it is wrong. It is called as `timeline` is.

use accident::Second;
use schedule_view::command::{self, Status};
use schedule_view::timeline;
use std::process::ExitCode;

const USAGE: &str =
    "usage: accident [--svg] [--lines FROM-TO] [--ranks R,R,..] [--schedule K] [FILE]";
const WARNING: &str =
    "WRONG ON PURPOSE, not Duskclamp: this engine's cancel does not send the owner back from its store.";

fn main() -> ExitCode {
    let arguments = command::arguments(std::env::args_os().skip(1), true);
    let ended = match arguments.filter(|arguments| !arguments.help) {
        None => Err((USAGE.to_string(), Status::Usage)),
        Some(arguments) => {
            let title = format!("{}, had the old word gone in", command::title(&arguments));
            timeline::program::<Second>(&arguments, title, Some(WARNING.to_string()))
        }
    };
    command::end("accident", ended)
}
