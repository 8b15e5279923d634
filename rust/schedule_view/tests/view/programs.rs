//! The two programs as they are called: where they read from, what they write where, and the statuses that they end with.

use crate::common::{contents, files, repository};
use std::ffi::{OsStr, OsString};
use std::fs::{self, File};
use std::io::Write;
use std::os::unix::ffi::OsStringExt;
use std::path::Path;
use std::process::{Command, Stdio};

const EXPLAIN: &str = env!("CARGO_BIN_EXE_explain");
const TIMELINE: &str = env!("CARGO_BIN_EXE_timeline");
const PROGRAMS: [(&str, &str); 2] = [("explain", EXPLAIN), ("timeline", TIMELINE)];

const LISTING: &str = "examples/listing.txt";

/// How a program ended, and what it wrote.
#[derive(Debug, PartialEq, Eq)]
struct Ran {
    status: Option<i32>,
    output: String,
    said: String,
}

fn ran(program: &str, arguments: &[&str], input: &[u8]) -> Ran {
    let mut command = Command::new(program);
    command.args(arguments);
    finished(command, input)
}

fn finished(mut command: Command, input: &[u8]) -> Ran {
    command.stdin(Stdio::piped());
    let mut child = command
        .stdout(Stdio::piped())
        .stderr(Stdio::piped())
        .spawn()
        .expect("the program");
    let mut stdin = child.stdin.take().expect("its input");
    // A program that has ended already reads nothing; its status says why.
    let _ = stdin.write_all(input);
    drop(stdin);
    let output = child.wait_with_output().expect("its end");
    Ran {
        status: output.status.code(),
        output: String::from_utf8(output.stdout).expect("text"),
        said: String::from_utf8(output.stderr).expect("text"),
    }
}

/// A file of the repository as an argument.
fn file(path: &str) -> String {
    repository(path).to_str().expect("a plain path").to_string()
}

/// That the program wrote nothing but one sentence of its own about an error.
fn assert_told(ran: &Ran, name: &str, status: i32, words: &str) {
    assert_eq!(ran.status, Some(status), "{ran:?}");
    assert_eq!(ran.output, "", "{ran:?}");
    let sentence = ran.said.strip_suffix('\n').expect("a line");
    assert!(sentence.starts_with(&format!("{name}: ")), "{ran:?}");
    assert!(
        !sentence.contains('\n') && sentence.contains(words),
        "{ran:?}"
    );
}

#[test]
fn a_file_and_standard_input_give_the_same() {
    let listing = contents(LISTING);
    for (program, options) in [
        (EXPLAIN, &[][..]),
        (TIMELINE, &[]),
        (TIMELINE, &["--svg"]),
        (TIMELINE, &["--lines", "5-9"]),
        (TIMELINE, &["--svg", "--schedule", "1"]),
        (EXPLAIN, &["--ranks", "0,3"]),
        (TIMELINE, &["--svg", "--ranks", "0,3", "--schedule", "1"]),
    ] {
        let path = file(LISTING);
        let by_name = [options, &[path.as_str()]].concat();
        let from_file = ran(program, &by_name, b"");
        let mut from_input = ran(program, options, &listing);
        // A picture is called by its file.
        from_input.output = from_input.output.replace("a schedule", "listing.txt");
        assert_eq!(from_file.status, Some(0));
        assert!(from_file.output.len() > 500);
        assert_eq!(from_file, from_input, "{options:?}");
    }
}

#[test]
fn usage() {
    let listing = file(LISTING);
    let shared: &[&[&str]] = &[
        &["--unknown"],
        &["-x"],
        &["--"],
        &[&listing, &listing],
        &["--schedule"],
        &["--schedule", "0", &listing],
        &["--schedule", "-1", &listing],
        &["--schedule", "one", &listing],
        &["--schedule", "99999999999999999999", &listing],
        &["--schedule=1", &listing],
        &["--ranks"],
        &["--ranks", "", &listing],
        &["--ranks", "4", &listing],
        &["--ranks", "3,,1", &listing],
        &["--ranks", "3,one", &listing],
        &["--ranks=3", &listing],
    ];
    let pictures: &[&[&str]] = &[
        &["--lines"],
        &["--lines", "", &listing],
        &["--lines", "5", &listing],
        &["--lines", "-5", &listing],
        &["--lines", "0-5", &listing],
        &["--lines", "9-5", &listing],
        &["--lines", "a-b", &listing],
        &["--lines", "1-2-3", &listing],
    ];
    for (name, program) in PROGRAMS {
        let usage = format!("usage: {name} ");
        for arguments in shared.iter().chain(pictures) {
            assert_told(&ran(program, arguments, b""), name, 2, &usage);
        }
        let absent = ran(program, &["no/such/file"], b"");
        assert_told(&absent, name, 2, "no/such/file cannot be opened: ");
    }
    for option in [&["--svg"][..], &["--lines", "1-5"]] {
        assert_told(&ran(EXPLAIN, option, b""), "explain", 2, "usage: ");
    }
}

#[test]
fn help() {
    for (name, program) in PROGRAMS {
        for option in ["--help", "-h"] {
            let ran = ran(program, &[option], b"");
            assert_eq!((ran.status, ran.said.as_str()), (Some(0), ""));
            assert!(ran.output.starts_with(&format!("usage: {name} [")));
            assert!(ran.output.contains("[--ranks R,R,..] [--schedule K]"));
            assert!(ran.output.ends_with("[FILE]\n"));
        }
    }
}

#[test]
fn bad_headers() {
    for (input, words) in [
        (&b""[..], "there is no input"),
        (b"E 1 1\n", "it is an event, and the header comes first"),
        (
            b"L 33 1 0\n",
            "Refused (22): no table has 33 threads and 1 object",
        ),
    ] {
        assert_told(&ran(TIMELINE, &[], input), "timeline", 3, words);
        let explained = ran(EXPLAIN, &[], input);
        assert_eq!((explained.status, explained.said.as_str()), (Some(3), ""));
        // Whatever line a word is on.
        let said: Vec<&str> = explained.output.split_whitespace().collect();
        assert!(said.join(" ").contains(words), "{explained:?}");
    }
}

#[test]
fn nothing_to_draw_and_too_much() {
    let listing = contents(LISTING);
    let none = ran(TIMELINE, &["--lines", "17-"], &listing);
    assert_told(&none, "timeline", 3, "no line of the schedule");
    let ticks = [b"L 1 1 0\n".to_vec(), b"C\n".repeat(24_999)].concat();
    let words = "more than 20000 lines to draw: choose some by --lines FROM-TO";
    assert_told(&ran(TIMELINE, &[], &ticks), "timeline", 3, words);
    assert_eq!(
        ran(TIMELINE, &["--lines", "20000-20010"], &ticks).status,
        Some(0)
    );
    assert_eq!(ran(EXPLAIN, &[], &ticks).status, Some(0));
}

#[test]
fn one_of_several_schedules() {
    let branches = file("examples/branches.txt");
    for (name, program) in PROGRAMS {
        for number in ["1", "2", "3", "4"] {
            let ran = ran(program, &["--schedule", number, &branches], b"");
            assert_eq!((ran.status, ran.said.as_str()), (Some(0), ""));
        }
        let fifth = ran(program, &["--schedule", "5", &branches], b"");
        let words = "there is no schedule 5: the input has 4 headers";
        assert_told(&fifth, name, 3, words);
    }
    let second = ran(EXPLAIN, &["--schedule", "2", &branches], b"").output;
    let first_number: usize = second.split_whitespace().next().unwrap().parse().unwrap();
    let lines = contents("examples/branches.txt");
    let mut headers = lines.split(|byte| *byte == b'\n').enumerate();
    let header = headers.nth(first_number - 1).expect("a line").1;
    assert!(first_number > 1 && header.starts_with(b"L"));
}

/// The ranks of an example, which are in a file beside it; else none.
fn ranks_of(example: &Path) -> String {
    let ranks = fs::read_to_string(example.with_extension("ranks"));
    ranks.map_or("0".to_string(), |ranks| ranks.trim_end().to_string())
}

#[test]
fn explained_examples() {
    let stored = files("examples", "explained");
    assert_eq!(stored.len(), 2);
    for path in stored {
        let example = path.with_extension("txt");
        let name = example.to_str().expect("a plain path");
        let ran = ran(EXPLAIN, &["--ranks", &ranks_of(&example), name], b"");
        let expected = fs::read_to_string(&path).expect("what is said");
        assert_eq!((ran.status, ran.output), (Some(0), expected), "{name}");
    }
}

#[test]
fn ranks_of_every_schedule_of_an_input() {
    let branches = file("examples/branches.txt");
    for number in ["2", "3"] {
        let given = ["--ranks", "0,1", "--schedule", number, &branches];
        let explained = ran(EXPLAIN, &given, b"").output;
        let said: Vec<&str> = explained.split_whitespace().collect();
        let ranks = "Ranks: 1 for thread 2; 0 for all others.";
        assert!(said.join(" ").contains(ranks), "{number}");
        let drawn = ran(TIMELINE, &[&["--svg"], &given[..]].concat(), b"").output;
        assert!(drawn.contains(">thread 2, rank 1<"), "{number}");
    }
}

#[test]
fn inputs_that_cannot_be_read() {
    let words = "the input could not be read: ";
    for (name, program) in PROGRAMS {
        for options in [&[][..], &["--schedule", "1"]] {
            let folder = file("examples");
            let arguments = [options, &[folder.as_str()]].concat();
            assert_told(&ran(program, &arguments, b""), name, 4, words);
            let mut command = Command::new(program);
            command
                .args(options)
                .stdin(File::open(&folder).expect("a folder"));
            let output = command.output().expect("the program");
            assert_eq!(output.status.code(), Some(4), "{output:?}");
        }
    }
}

fn full() -> Stdio {
    let device = File::options().write(true).open("/dev/full");
    device.expect("a device that takes nothing").into()
}

/// That the program says that nothing could be written.
fn assert_unwritten(name: &str, program: &str, argument: &str) {
    // What is open to be read alone cannot be written either.
    let read_only = File::open("/dev/null").expect("a device").into();
    for nowhere in [full(), read_only] {
        let mut command = Command::new(program);
        let output = command.arg(argument).stdout(nowhere).output();
        let output = output.expect("the program");
        assert_eq!(output.status.code(), Some(5), "{output:?}");
        let said = String::from_utf8(output.stderr).expect("text");
        let words = format!("{name}: the output could not be written: ");
        assert!(said.starts_with(&words), "{said}");
        assert_eq!(said.lines().count(), 1, "{said}");
    }
}

#[test]
fn outputs_that_cannot_be_written() {
    for (name, program) in PROGRAMS {
        assert_unwritten(name, program, &file(LISTING));
    }
}

#[test]
fn help_that_cannot_be_written() {
    for (name, program) in PROGRAMS {
        assert_unwritten(name, program, "--help");
    }
}

#[test]
fn nobody_reads_the_output() {
    let listing = contents(LISTING);
    for (_, program) in PROGRAMS {
        let mut command = Command::new(program);
        command.stdin(Stdio::piped()).stdout(Stdio::piped());
        let mut child = command.stderr(Stdio::piped()).spawn().expect("the program");
        // Before it has anything to write, since it waits for its input.
        drop(child.stdout.take());
        let mut stdin = child.stdin.take().expect("its input");
        stdin.write_all(&listing).expect("a reader");
        drop(stdin);
        let output = child.wait_with_output().expect("its end");
        assert_eq!(output.status.code(), Some(141));
        assert!(output.stderr.is_empty(), "{output:?}");
    }
}

#[test]
fn nobody_reads_what_is_said() {
    for (_, program) in PROGRAMS {
        let mut command = Command::new(program);
        let status = command.arg("--unknown").stderr(full()).status();
        assert_eq!(status.expect("the program").code(), Some(2), "{program}");
    }
}

/// A schedule under this name, in the folder that cargo keeps for tests.
fn named(name: &OsStr) -> OsString {
    let path = Path::new(env!("CARGO_TARGET_TMPDIR")).join(name);
    fs::write(&path, contents(LISTING)).expect("a file");
    path.into_os_string()
}

/// That a file of this name is read, and that its name does no harm to what is written.
fn assert_read(file: &[u8]) {
    let path = named(&OsString::from_vec(file.to_vec()));
    for options in [&[EXPLAIN][..], &[TIMELINE], &[TIMELINE, "--svg"]] {
        let mut command = Command::new(options[0]);
        command.args(&options[1..]).arg(&path);
        let ran = finished(command, b"");
        let place = format!("{options:?} {:?}", String::from_utf8_lossy(file));
        assert_eq!(ran.status, Some(0), "{place}: {}", ran.said);
        assert!(!ran.output.contains("<b>"), "{place}");
        let strange = |c: char| c.is_control() && c != '\n';
        assert!(!ran.output.contains(strange), "{place}");
    }
}

#[test]
fn a_file_whose_name_is_mark_up() {
    assert_read(b"<b> & \"c\".txt");
}

#[test]
fn a_file_with_a_control_character_in_its_name() {
    assert_read(b"a\x01b.txt");
}

#[test]
fn a_file_whose_name_is_no_text() {
    assert_read(b"\xff.txt");
}
