//! What both programs share: their arguments, where the input comes from, and the statuses that they end with.

use crate::ranks::Ranks;
use crate::schedule::Schedule;
use crate::words::count;
use std::ffi::OsString;
use std::fs::File;
use std::io::{self, BufRead, BufReader, BufWriter, ErrorKind, Write};
use std::ops::RangeInclusive;
use std::os::fd::AsFd;
use std::path::Path;
use std::process::ExitCode;

/// How a program ends; docs/REFERENCE.md has the same numbers.
#[derive(Clone, Copy, Debug, PartialEq, Eq)]
pub enum Status {
    Done = 0,
    /// Other arguments than there are, or a file that cannot be opened.
    Usage = 2,
    /// The header is bad, or there is nothing to draw.
    EndedEarly = 3,
    ReadFailed = 4,
    WriteFailed = 5,
    /// Nobody reads the output any more: as the signal would end it.
    NobodyReads = 141,
}

impl From<Status> for ExitCode {
    fn from(status: Status) -> ExitCode {
        ExitCode::from(status as u8)
    }
}

/// What a program was asked for.
#[derive(Clone, Debug, PartialEq, Eq)]
pub struct Arguments {
    pub help: bool,
    pub svg: bool,
    /// Which of several schedules; else the input is one.
    pub schedule: Option<u64>,
    pub lines: RangeInclusive<u64>,
    pub ranks: Ranks,
    pub file: Option<OsString>,
}

/// Reads arguments, each in the one form in which the scripts hand it on (tools/view.sh); nothing where they are not as the usage has it. Only pictures
/// have `--svg` and `--lines`.
pub fn arguments(given: impl IntoIterator<Item = OsString>, pictures: bool) -> Option<Arguments> {
    let mut arguments = Arguments {
        help: false,
        svg: false,
        schedule: None,
        lines: 1..=u64::MAX,
        ranks: Ranks::default(),
        file: None,
    };
    let mut given = given.into_iter();
    while let Some(argument) = given.next() {
        match &*argument.to_string_lossy() {
            "--help" | "-h" => arguments.help = true,
            "--svg" if pictures => arguments.svg = true,
            "--schedule" => arguments.schedule = Some(positive(given.next()?.to_str()?)?),
            "--ranks" => arguments.ranks = Ranks::read(given.next()?.to_str()?)?,
            "--lines" if pictures => arguments.lines = range(given.next()?.to_str()?)?,
            option if option.starts_with('-') => return None,
            _ if arguments.file.is_some() => return None,
            _ => arguments.file = Some(argument),
        }
    }
    Some(arguments)
}

fn positive(text: &str) -> Option<u64> {
    let digits = text.bytes().all(|byte| byte.is_ascii_digit());
    text.parse().ok().filter(|number| digits && *number > 0)
}

/// `FROM-TO`, or `FROM-` up to the end.
fn range(text: &str) -> Option<RangeInclusive<u64>> {
    let (from, to) = text.split_once('-')?;
    let from = positive(from)?;
    let to = match to {
        "" => u64::MAX,
        _ => positive(to)?,
    };
    (from <= to).then_some(from..=to)
}

/// The schedule that was asked for; else the sentence that says why there is none, and the status.
pub fn open(arguments: &Arguments) -> Result<Schedule<Box<dyn BufRead>>, (String, Status)> {
    let input: Box<dyn BufRead> = match &arguments.file {
        None => Box::new(io::stdin().lock()),
        Some(file) => Box::new(BufReader::new(File::open(file).map_err(|error| {
            let sentence = format!("{} cannot be opened: {error}", file.to_string_lossy());
            (sentence, Status::Usage)
        })?)),
    };
    let ranks = arguments.ranks.clone();
    let Some(number) = arguments.schedule else {
        return Ok(Schedule::whole(input).ranked(ranks));
    };
    match Schedule::nth(input, number) {
        Err(error) => Err(read_failed(&error)),
        Ok(Ok(schedule)) => Ok(schedule.ranked(ranks)),
        Ok(Err(found)) => Err((
            format!(
                "there is no schedule {number}: the input has {}",
                count(found, "header")
            ),
            Status::EndedEarly,
        )),
    }
}

/// The sentence about an input that could not be read, and the status.
pub fn read_failed(error: &io::Error) -> (String, Status) {
    (
        format!("the input could not be read: {error}"),
        Status::ReadFailed,
    )
}

/// The same about the output; nothing to say where nobody reads it any more.
pub fn write_failed(error: &io::Error) -> (String, Status) {
    match error.kind() {
        ErrorKind::BrokenPipe => (String::new(), Status::NobodyReads),
        _ => (
            format!("the output could not be written: {error}"),
            Status::WriteFailed,
        ),
    }
}

/// Ends a program: what it has to say, if anything, and its status.
pub fn end(name: &str, ended: Result<Status, (String, Status)>) -> ExitCode {
    let (sentence, status) = match ended {
        Ok(status) => (String::new(), status),
        Err(told) => told,
    };
    if !sentence.is_empty() {
        // Where nobody hears it, the status still says how it ended.
        let _ = writeln!(io::stderr(), "{name}: {sentence}");
    }
    status.into()
}

/// Standard output as a file: the library's own takes a descriptor that cannot be written for one that can.
pub fn output() -> io::Result<BufWriter<File>> {
    let descriptor = io::stdout().as_fd().try_clone_to_owned()?;
    Ok(BufWriter::new(File::from(descriptor)))
}

/// Prints how a program is called.
pub fn help(usage: &str) -> Result<Status, (String, Status)> {
    let written = output().and_then(|mut output| {
        writeln!(output, "{usage}")?;
        output.flush()
    });
    written.map_err(|error| write_failed(&error))?;
    Ok(Status::Done)
}

/// What a picture of the file is called.
pub fn title(arguments: &Arguments) -> String {
    let name = arguments
        .file
        .as_ref()
        .and_then(|file| Path::new(file).file_name());
    let name = name.map_or("a schedule".into(), |name| name.to_string_lossy());
    let part = match arguments.schedule {
        None => String::new(),
        Some(number) => format!(", schedule {number}"),
    };
    let lines = match (*arguments.lines.start(), *arguments.lines.end()) {
        (1, u64::MAX) => String::new(),
        (from, u64::MAX) => format!(", from line {from} on"),
        (from, to) if from == to => format!(", line {from}"),
        (from, to) => format!(", lines {from} to {to}"),
    };
    format!("{name}{part}{lines}")
}
