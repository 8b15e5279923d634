//! Any input gives words and a picture or a clear error, never a panic; and what is written is well formed and needs nothing from elsewhere.

use crate::common::{contents, explained, files, paragraph};
use crate::markup::{self, Kind};
use duskclamp::Table;
use schedule_view::document::{self, Heading};
use schedule_view::drawing::Drawing;
use schedule_view::explain::{explain, Ended};
use schedule_view::page;
use schedule_view::schedule::Schedule;
use schedule_view::timeline::{draw, Failure, MOST_DRAWN};
use std::fs;
use std::ops::RangeInclusive;

const ALL: RangeInclusive<u64> = 1..=u64::MAX;
/// No line that `explain` writes is longer.
const WIDTH: usize = 110;

fn heading() -> Heading {
    Heading {
        title: "a schedule".to_string(),
        warning: None,
    }
}

fn page_of(drawing: &Drawing, heading: &Heading) -> String {
    let mut output = Vec::new();
    page::write(drawing, heading, &mut output).expect("memory to write to");
    String::from_utf8(output).expect("text")
}

fn picture_of(drawing: &Drawing, heading: &Heading) -> String {
    let mut output = Vec::new();
    document::write(drawing, heading, &mut output).expect("memory to write to");
    String::from_utf8(output).expect("text")
}

/// The tags of the page and of the picture, which are both well formed.
fn tags_of(drawing: &Drawing, heading: &Heading) -> (Vec<String>, Vec<String>) {
    let tags = |text: String, kind: Kind| {
        markup::tags(&text, kind).unwrap_or_else(|wrong| panic!("{kind:?}: {wrong}\n{text}"))
    };
    (
        tags(page_of(drawing, heading), Kind::Page),
        tags(picture_of(drawing, heading), Kind::Picture),
    )
}

fn drawn(input: &[u8]) -> Drawing {
    draw::<Table>(Schedule::whole(input), ALL).expect("a picture")
}

/// Explains and draws an input. Both take every line, or say the same of its header.
fn check(input: &[u8]) {
    let place = String::from_utf8_lossy(&input[..input.len().min(400)]);
    let lines = input.split_inclusive(|byte| *byte == b'\n').count();
    let (output, ended) = explained(input);
    let strange = |c: char| c.is_control() && c != '\n';
    assert!(!output.contains(strange), "{place}");
    let long = output.lines().find(|line| line.chars().count() > WIDTH);
    assert_eq!(long, None, "{place}");
    match (ended, draw::<Table>(Schedule::whole(input), ALL)) {
        (Ended::AllRead, Ok(drawing)) => {
            let last = lines as u64;
            assert_eq!(drawing.rows.len(), lines, "{place}");
            assert!(paragraph(&output, last).is_some(), "{place}");
            assert!(paragraph(&output, last + 1).is_none(), "{place}");
            tags_of(&drawing, &heading());
        }
        (Ended::BadHeader, Err(Failure::Header(sentence))) => {
            let said = match lines {
                0 => output.trim_end().to_string(),
                _ => paragraph(&output, 1).expect("a line").1,
            };
            assert_eq!(said, sentence, "{place}");
            assert!(sentence.ends_with('.'), "{place}");
        }
        (ended, drawn) => panic!("{ended:?} and {:?}: {place}", drawn.err()),
    }
}

/// Numbers that look random and are the same in every run.
struct Random(u64);

impl Random {
    fn below(&mut self, limit: usize) -> usize {
        self.0 ^= self.0 << 13;
        self.0 ^= self.0 >> 7;
        self.0 ^= self.0 << 17;
        (self.0 >> 16) as usize % limit
    }

    /// One of these.
    fn of<T: Copy>(&mut self, choice: &[T]) -> T {
        choice[self.below(choice.len())]
    }
}

#[test]
fn bytes_of_any_kind() {
    let mut random = Random(1);
    let all: Vec<u8> = (0..=255).collect();
    let alphabets: [&[u8]; 3] = [&all, b"LEXWVNASC 0123\n\n", b"<>&\"'/=!-S 1\n\t\r\0"];
    for _ in 0..300 {
        for alphabet in alphabets {
            let bytes = |random: &mut Random| {
                let length = random.below(120);
                (0..length).map(|_| random.of(alphabet)).collect()
            };
            let noise: Vec<u8> = bytes(&mut random);
            check(&noise);
            check(&[b"L 2 2 1\n", noise.as_slice()].concat());
        }
    }
}

#[test]
fn events_of_any_kind() {
    let mut random = Random(2);
    for _ in 0..200 {
        let mut input = format!("L 3 2 {}\n", random.below(2));
        for _ in 0..random.below(150) {
            let (thread, object) = (random.below(4), random.below(3));
            input += &match random.of(b"EEXWVNACSSSSSSSSSS") {
                b'C' => "C\n".to_string(),
                b'S' => format!("S {}\n", thread.max(1)),
                b'V' => format!("V {thread} {object} {}\n", random.below(4)),
                letter => format!("{} {thread} {}\n", char::from(letter), object.max(1)),
            };
        }
        check(input.as_bytes());
    }
}

#[test]
fn an_example_with_one_byte_wrong() {
    let listing = contents("examples/listing.txt");
    let others = *b"\0\n\r 09ESC<&\"\x7f\xff";
    for place in 0..=listing.len() {
        let (before, behind) = listing.split_at(place);
        let with = |middle: &[u8], behind: &[u8]| check(&[before, middle, behind].concat());
        for other in others {
            with(&[other], behind);
        }
        if let Some((_, rest)) = behind.split_first() {
            with(&[], rest);
            for other in others {
                with(&[other], rest);
            }
        }
    }
}

#[test]
fn every_example() {
    for path in files("examples", "txt") {
        check(&fs::read(path).expect("an example"));
    }
}

#[test]
fn lines_of_ten_megabytes() {
    const LENGTH: usize = 10_000_000;
    let told = format!("it has {LENGTH} bytes, and the longest line of the form has 19");
    let long = vec![b'S'; LENGTH];
    let input = [b"L 1 1 0\nC\n", long.as_slice(), b"\nC\n"].concat();
    check(&input);
    let (output, _) = explained(&input);
    let (line, words) = paragraph(&output, 3).expect("the long line");
    assert!(words.contains(&told), "{words}");
    assert!(line.chars().count() < 60, "{line}");

    let mut header = b"L 1 1 0".to_vec();
    header.resize(LENGTH, b'0');
    header.extend(b"\nE 1 1\n");
    check(&header);
    let (output, ended) = explained(&header);
    let (_, words) = paragraph(&output, 1).expect("the header");
    assert!(words.contains(&told), "{words}");
    assert_eq!(ended, Ended::BadHeader);
}

/// A schedule of so many lines.
fn ticks(lines: usize) -> Vec<u8> {
    [b"L 2 1 0\n".to_vec(), b"C\n".repeat(lines - 1)].concat()
}

#[test]
fn too_many_lines_to_draw() {
    let most = drawn(&ticks(MOST_DRAWN));
    assert_eq!(most.rows.len(), MOST_DRAWN);
    tags_of(&most, &heading());
    for lines in [MOST_DRAWN + 1, 25_000] {
        let failure = draw::<Table>(Schedule::whole(ticks(lines).as_slice()), ALL);
        assert!(matches!(failure, Err(Failure::TooMany)), "{lines}");
    }
    let input = ticks(25_000);
    let part = draw::<Table>(Schedule::whole(input.as_slice()), 24_001..=24_100);
    assert_numbers(&part.expect("a part"), 24_001..=24_100);
    let (output, _) = explained(&input);
    let counts = "after 24999 event lines: 24999 accepted, 0 refused, 0 malformed:";
    assert!(output.contains(counts));
    let told = output.lines().filter(|line| line.contains("  C  ->  0 "));
    assert_eq!(told.count(), 24_999);
}

/// That these lines are drawn.
fn assert_numbers(drawing: &Drawing, numbers: RangeInclusive<u64>) {
    let drawn = drawing.rows.iter().map(|row| row.number);
    assert_eq!(drawn.collect::<Vec<u64>>(), numbers.collect::<Vec<u64>>());
}

#[test]
fn ranges_of_lines() {
    let listing = contents("examples/listing.txt");
    let whole = drawn(&listing);
    assert_numbers(&whole, 1..=16);
    for (range, met) in [
        (1..=1, 1..=1),
        (1..=16, 1..=16),
        (5..=8, 5..=8),
        (16..=16, 16..=16),
        (10..=u64::MAX, 10..=16),
        (2..=99, 2..=16),
    ] {
        let part = draw::<Table>(Schedule::whole(listing.as_slice()), range);
        let part = part.expect("a part");
        assert_numbers(&part, met.clone());
        let first = *met.start() as usize - 1;
        for (row, same) in part.rows.iter().zip(&whole.rows[first..]) {
            assert_eq!((&row.answer, &row.words), (&same.answer, &same.words));
        }
        tags_of(&part, &heading());
    }
    for range in [17..=20, u64::MAX..=u64::MAX] {
        let none = draw::<Table>(Schedule::whole(listing.as_slice()), range);
        assert!(matches!(none, Err(Failure::NoLines)));
    }
}

/// One of several schedules, which there is.
fn nth(input: &[u8], number: u64) -> Schedule<&[u8]> {
    let found = Schedule::nth(input, number).expect("memory to read from");
    found.unwrap_or_else(|found| panic!("there are {found} schedules"))
}

#[test]
fn one_of_several_schedules() {
    let input = contents("examples/branches.txt");
    let lines: Vec<&[u8]> = input.split_inclusive(|byte| *byte == b'\n').collect();
    let headers = (0..lines.len()).filter(|place| lines[*place].starts_with(b"L"));
    let mut starts: Vec<usize> = headers.collect();
    assert_eq!(starts.len(), 4);
    starts.push(lines.len());
    for (place, bounds) in starts.windows(2).enumerate() {
        let (start, end) = (bounds[0], bounds[1]);
        let alone = drawn(&lines[start..end].concat());
        let part = draw::<Table>(nth(&input, place as u64 + 1), ALL).expect("a picture");
        assert_numbers(&part, start as u64 + 1..=end as u64);
        let mut output = Vec::new();
        let schedule = nth(&input, place as u64 + 1);
        let ended = explain::<Table>(schedule, &mut output).expect("memory to write to");
        assert_eq!(ended, Ended::AllRead);
        let output = String::from_utf8(output).expect("text");
        for (row, same) in part.rows.iter().zip(&alone.rows) {
            assert_eq!((&row.answer, &row.words), (&same.answer, &same.words));
            let (_, words) = paragraph(&output, row.number).expect("a line");
            assert_eq!(words, same.words);
        }
        assert_eq!(paragraph(&output, end as u64 + 1), None);
    }
    let none = Schedule::nth(input.as_slice(), 5).expect("memory to read from");
    assert_eq!(none.err(), Some(4));
}

/// Lines that would be mark-up if they were written as they are.
const HOSTILE: [&str; 8] = [
    "<script>1</script>",
    "</title>",
    "</svg><p>",
    "<!--",
    "E 1 <b>",
    "&lt;&#60;&",
    "S \"><a b=\"1",
    "' onclick='x",
];

#[test]
fn lines_are_escaped() {
    let harmless = |c: char| if "<>&\"'".contains(c) { 'z' } else { c };
    for line in HOSTILE {
        let input = format!("L 1 1 0\n{line}\nE 1 1\n");
        let drawing = drawn(input.as_bytes());
        let plain: String = line.chars().map(harmless).collect();
        let like = drawn(format!("L 1 1 0\n{plain}\nE 1 1\n").as_bytes());
        assert_eq!(tags_of(&drawing, &heading()), tags_of(&like, &heading()));
        let escaped = line.replace('&', "&amp;").replace('<', "&lt;");
        let escaped = escaped.replace('>', "&gt;").replace('"', "&quot;");
        for text in [
            page_of(&drawing, &heading()),
            picture_of(&drawing, &heading()),
        ] {
            assert!(text.contains(&escaped), "{line}");
        }
    }
}

#[test]
fn titles_and_warnings_are_escaped() {
    let drawing = drawn(b"L 1 1 0\n");
    let headed = |words: &str| Heading {
        title: words.to_string(),
        warning: Some(words.to_string()),
    };
    for words in HOSTILE {
        assert_eq!(
            tags_of(&drawing, &headed(words)),
            tags_of(&drawing, &headed("plain words"))
        );
    }
}

#[test]
fn a_page_needs_nothing_from_elsewhere() {
    for path in files("examples", "txt") {
        let drawing = drawn(&fs::read(&path).expect("an example"));
        let page = page_of(&drawing, &heading());
        for outside in [
            "src=", "href=", "url(", "@import", "http:", "https:", "import(", "fetch(",
        ] {
            assert!(!page.contains(outside), "{outside}: {}", path.display());
        }
    }
}
