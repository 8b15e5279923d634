//! Pictures: their elements counted against the schedule, which is run once more beside them, and no text over another.

use crate::common::repository;
use crate::scan::{canvas, elements, text_box, Element, Extent};
use duskclamp::{Answer, LockWord, Phase, Refusal, Table, Thread};
use schedule_view::document::{self, Heading};
use schedule_view::drawing::{Band, Column, Drawing, Lane};
use schedule_view::engine::Engine;
use schedule_view::layout::ROW;
use schedule_view::line::{self, Event, Header, Line};
use schedule_view::page;
use schedule_view::picture::BLOCK;
use schedule_view::ranks::Ranks;
use schedule_view::schedule::Schedule;
use schedule_view::timeline::draw;
use std::collections::{BTreeMap, BTreeSet};
use std::fs;

/// The schedules of the examples and of the tests that have a good header, and some long ones on large tables, by name.
fn schedules() -> Vec<(String, Vec<u8>)> {
    let mut schedules = Vec::new();
    for folder in ["examples", "tests/schedules"] {
        let entries = fs::read_dir(repository(folder)).expect("the folder");
        for entry in entries {
            let path = entry.expect("an entry").path();
            let kind = path.extension().and_then(|kind| kind.to_str());
            if matches!(kind, Some("txt" | "in")) {
                let input = fs::read(&path).expect("a schedule");
                schedules.push((path.display().to_string(), input));
            }
        }
    }
    schedules.retain(|(_, input)| drawing(input).is_some());
    schedules.sort();
    for (seed, header) in ["L 32 64 1", "L 32 3 0", "L 9 2 1", "L 1 1 0"]
        .iter()
        .enumerate()
    {
        schedules.push((
            format!("made, {header}"),
            made(header, 600, seed as u32 + 1),
        ));
    }
    schedules
}

/// A schedule of lines by chance, some of them refused or malformed.
fn made(header: &str, lines: u32, seed: u32) -> Vec<u8> {
    let mut state = seed;
    let mut below = |most: u32| {
        state = state.wrapping_mul(1_664_525).wrapping_add(1_013_904_223);
        (state >> 8) % most
    };
    let mut text = format!("{header}\n");
    for _ in 0..lines {
        let thread = 1 + below(33);
        let object = 1 + below(4) * below(20);
        text += &match below(24) {
            0..=6 => format!("E {thread} {object}\n"),
            7 => format!("X {thread} {object}\n"),
            8 => format!("V {thread} {object} {}\n", below(4)),
            9 => format!("A {thread} {object}\n"),
            10 => "C\n".to_string(),
            11 => "S  <1>\r\n".to_string(),
            _ => format!("S {thread}\n"),
        };
    }
    text.into_bytes()
}

fn drawing(input: &[u8]) -> Option<Drawing> {
    draw::<Table>(Schedule::whole(input), 1..=u64::MAX).ok()
}

fn picture(drawing: &Drawing) -> String {
    let heading = Heading {
        title: "a title".to_string(),
        warning: None,
    };
    let mut svg = Vec::new();
    document::write(drawing, &heading, &mut svg).expect("written");
    String::from_utf8(svg).expect("text")
}

fn html(drawing: &Drawing) -> String {
    let mut written = Vec::new();
    page::write(drawing, &Heading::default(), &mut written).expect("written");
    String::from_utf8(written).expect("text")
}

/// What there must be, counted from the engine's answers and from its tables after each line.
#[derive(Default)]
struct Expected {
    counts: BTreeMap<String, usize>,
    /// After each line, from the header on.
    threads: Vec<Vec<Thread>>,
    objects: Vec<Vec<(duskclamp::Object, LockWord)>>,
    named: BTreeSet<u32>,
}

impl Expected {
    fn of(input: &[u8]) -> Expected {
        let mut lines = input.split_inclusive(|byte| *byte == b'\n').map(|line| {
            let ended = line.strip_suffix(b"\n");
            ended.and_then(line::read)
        });
        let Some(Some(Line::Header(header))) = lines.next() else {
            panic!("no header");
        };
        let mut table = <Table as Engine>::fresh(header, &Ranks::default()).expect("a table");
        let mut expected = Expected::default();
        expected.note_table(&table, header);
        for line in lines {
            match line {
                Some(Line::Event(event)) => expected.event(&mut table, event),
                _ => expected.add("refused", 1),
            }
            expected.add("line", 1);
            expected.note_table(&table, header);
        }
        expected.add("line", 1);
        expected.bands();
        expected.add("name", (header.threads + header.objects) as usize);
        expected
    }

    fn add(&mut self, class: &str, number: usize) {
        if number > 0 {
            *self.counts.entry(class.to_string()).or_default() += number;
        }
    }

    fn note_table(&mut self, table: &Table, header: Header) {
        self.threads.push(table.threads().collect());
        let words = (1..=header.objects).map(|n| Engine::lock_word(table, n));
        self.objects.push(table.objects().zip(words).collect());
    }

    fn event(&mut self, table: &mut Table, event: Event) {
        let before: Vec<Thread> = table.threads().collect();
        let outcome = table.apply(event);
        let after: Vec<Thread> = table.threads().collect();
        match (outcome.result, event) {
            (Err(_), _) => self.add("refused", 1),
            (Ok(_), Event::Begin { .. }) => self.add("begun", 1),
            (Ok(_), Event::Step { .. }) => self.add("step", 1),
            (Ok(_), Event::Tick) => self.add("tick", 1),
        }
        if let Event::Begin { object, .. } = event {
            self.named.insert(object);
        }
        if let Ok(Answer::Finished { .. }) = outcome.result {
            self.add("finished", 1);
        }
        if outcome.result != Err(Refusal::NoSuchThread) && event != Event::Tick {
            self.add("act", 1);
        }
        for (before, after) in before.iter().zip(&after) {
            if Some(before.number) != event.thread() {
                self.touched(before.phase, after.phase);
            }
        }
    }

    fn touched(&mut self, before: Phase, after: Phase) {
        let kind = match (before.is_parked(), after.is_parked()) {
            _ if before == after => return,
            (true, false) if after == Phase::Idle => {
                self.add("finished", 1);
                "let-out"
            }
            (true, false) => "handed",
            (true, true) if before == Phase::Waiting => "woken",
            (true, true) => "told",
            _ => "sent-back",
        };
        self.add(&format!("arrow {kind}"), 1);
        self.add(&format!("tip {kind}"), 1);
    }

    /// Bands: in each block of rows, each run of rows in which a column says the same.
    fn bands(&mut self) {
        let threads: Vec<Vec<Option<(Phase, String)>>> = self.columns(&self.threads, |thread| {
            let class = thread.phase.name().replace(' ', "-");
            let class = if thread.phase.is_parked() {
                "parked".to_string()
            } else {
                class
            };
            (thread.phase != Phase::Idle).then_some((thread.phase, class))
        });
        let words = self.columns(&self.objects, |(object, word)| {
            let named = self.named.contains(&object.number);
            named.then(|| word_band(*word))
        });
        let owners = self.columns(&self.objects, |(object, _)| {
            let owned = (object.owner, object.depth);
            (object.owner != 0).then(|| (owned, "owner".to_string()))
        });
        let holders = self.columns(&self.objects, |(object, _)| {
            (object.holder != 0).then(|| (object.holder, "holder".to_string()))
        });
        let flags = self.columns(&self.objects, |(object, _)| {
            object.flag.then(|| ((), "flag".to_string()))
        });
        self.runs(threads);
        self.runs(words);
        self.runs(owners);
        self.runs(holders);
        self.runs(flags);
        let owned = self.counts.get("owner").copied().unwrap_or(0);
        self.add("owned", owned);
    }

    /// What the function says of each thread or object, row after row.
    fn columns<T, S>(
        &self,
        rows: &[Vec<T>],
        says: impl Fn(&T) -> Option<S>,
    ) -> Vec<Vec<Option<S>>> {
        let places = rows.first().map_or(0, Vec::len);
        let column = |place: usize| rows.iter().map(|row| says(&row[place])).collect();
        (0..places).map(column).collect()
    }

    fn runs<S: PartialEq>(&mut self, columns: Vec<Vec<Option<(S, String)>>>) {
        for block in columns.iter().flat_map(|column| column.chunks(BLOCK)) {
            for run in block.chunk_by(|one, next| one == next) {
                if let Some((_, class)) = &run[0] {
                    self.add(class, 1);
                }
            }
        }
    }
}

/// What the band of a word says, and its class.
fn word_band(word: LockWord) -> ((&'static str, u32), String) {
    let thread = match word {
        LockWord::Reserved { thread, .. } => thread,
        _ => 0,
    };
    let class = match word {
        LockWord::Anonymous => "reserved",
        _ => word.name(),
    };
    ((word.name(), thread), class.to_string())
}

/// What there is, by class; the legend and the background are no part of the schedule.
fn counted(found: &[Element]) -> BTreeMap<String, usize> {
    let ours = |element: &&Element| matches!(element.group.as_str(), "lanes" | "gutter" | "head");
    let mut counts = BTreeMap::new();
    for element in found.iter().filter(ours) {
        let class = match (
            element.tag.as_str(),
            element.group.as_str(),
            element.class.as_str(),
        ) {
            ("text", "head", "caption") if !is_short_name(&element.content) => continue,
            ("text", "head", _) => "name",
            ("text", _, "line") => "line",
            ("text", _, _) => continue,
            (_, _, class) if class.ends_with("guide") => continue,
            (_, _, class) => class,
        };
        *counts.entry(class.to_string()).or_default() += 1;
    }
    counts
}

/// Whether it names a lane in which nothing happens.
fn is_short_name(text: &str) -> bool {
    let number = text.trim_start_matches(['t', 'o']);
    text.len() == number.len() + 1 && number.parse::<u32>().is_ok()
}

#[test]
fn elements_are_those_of_the_schedule() {
    for (name, input) in schedules() {
        let drawing = drawing(&input).expect("a picture");
        assert_eq!(drawing.accidents, [] as [String; 0], "{name}");
        let found = counted(&elements(&picture(&drawing)));
        assert_eq!(found, Expected::of(&input).counts, "{name}");
    }
}

#[test]
fn every_kind_of_element_is_met() {
    let mut met = BTreeSet::new();
    for (_, input) in schedules() {
        met.extend(Expected::of(&input).counts.into_keys());
    }
    let arrows = ["handed", "let-out", "told", "woken", "sent-back"];
    let phases = [
        "look", "store", "cancel", "go-in", "check", "try", "test", "tell", "leave",
    ];
    let rest = [
        "inflate", "give-up", "resume", "parked", "free", "flat", "reserved", "monitor",
    ];
    let marks = [
        "begun", "step", "tick", "refused", "finished", "owner", "holder", "flag",
    ];
    for class in phases.iter().chain(&rest).chain(&marks) {
        assert!(met.contains(*class), "{class}");
    }
    for kind in arrows {
        assert!(met.contains(&format!("arrow {kind}")), "{kind}");
    }
}

/// A page has the same blocks as a picture, and the words of every line.
#[test]
fn a_page_has_what_a_picture_has() {
    for (name, input) in schedules() {
        let drawing = drawing(&input).expect("a picture");
        let html = html(&drawing);
        let svg = picture(&drawing);
        let start = svg.find("<g class=\"gutter\"").expect("a block");
        let end = svg.find("<g class=\"legend\"").expect("a legend");
        let mut place = 0;
        for element in svg[start..end]
            .lines()
            .filter(|line| !line.contains("g>") && !line.starts_with("<g "))
        {
            let found = html[place..].find(element);
            place += found.unwrap_or_else(|| panic!("{name}: no {element}"));
        }
        assert_eq!(
            html.matches("<g class=\"row\"").count(),
            drawing.rows.len(),
            "{name}"
        );
        for row in &drawing.rows {
            let words = schedule_view::svg::escaped(&row.words);
            assert!(html.contains(&words), "{name}: line {}", row.number);
        }
    }
}

/// The boxes of texts are apart, are in the picture, and no arrow or tick goes through one.
#[test]
fn no_text_is_over_another() {
    for (name, input) in schedules() {
        apart(&name, &picture(&drawing(&input).expect("a picture")));
        let ranks = Ranks::read("3,0,1,2,3,0,1,2,3").expect("ranks");
        let ranked = Schedule::whole(&input[..]).ranked(ranks);
        let ranked = draw::<Table>(ranked, 1..=u64::MAX).expect("a picture");
        apart(&name, &picture(&ranked));
    }
    let folder = fs::read_dir(repository("docs/pictures")).expect("pictures");
    for entry in folder {
        let path = entry.expect("an entry").path();
        apart(
            &path.display().to_string(),
            &fs::read_to_string(&path).expect("a picture"),
        );
    }
}

fn apart(name: &str, svg: &str) {
    let found = elements(svg);
    let canvas = canvas(svg);
    let texts: Vec<(&Element, Extent)> = found
        .iter()
        .filter(|element| element.tag == "text")
        .map(|text| (text, text_box(text)))
        .collect();
    let mut rows: BTreeMap<i64, Vec<(&Element, Extent)>> = BTreeMap::new();
    for (text, extent) in texts {
        assert!(
            extent.is_in(&canvas),
            "{name}: {text:?} is not in the picture"
        );
        let row = rows.entry(extent.top as i64 / ROWS).or_default();
        row.push((text, extent));
    }
    let near = |row: i64, by: &[i64]| -> Vec<(&Element, Extent)> {
        let rows = by.iter().filter_map(|by| rows.get(&(row + by)));
        rows.flatten().copied().collect()
    };
    for row in rows.keys() {
        let near = near(*row, &[0, 1]);
        for (place, (one, extent)) in near.iter().enumerate() {
            for (other, beside) in &near[place + 1..] {
                assert!(!extent.meets(beside), "{name}: {one:?} and {other:?}");
            }
        }
    }
    for line in found.iter().filter_map(across) {
        for (text, extent) in near(line.top as i64 / ROWS, &[-1, 0, 1]) {
            assert!(!extent.meets(&line), "{name}: a line through {text:?}");
        }
    }
}

/// Arrows go forward and stay in the picture, tips and all; no tip is in a row that is not the arrow's.
#[test]
fn arrows_are_in_the_picture() {
    let mut input = b"L 2 1 0\n".to_vec();
    // Thread 1 waits, and the clock hands it the monitor.
    input.extend(b"E 1 1\nS 1\nV 1 1 1\nS 1\nS 1\nS 1\nS 1\nC\nS 1\n");
    let mut all = schedules();
    all.push(("run out".to_string(), input));
    for (name, input) in all {
        let svg = picture(&drawing(&input).expect("a picture"));
        let found = elements(&svg);
        let arrows = found
            .iter()
            .filter(|element| element.class.starts_with("arrow"));
        let tips = found
            .iter()
            .filter(|element| element.class.starts_with("tip"));
        for (arrow, tip) in arrows.zip(tips).filter(|(arrow, _)| arrow.group == "lanes") {
            let (from, stop) = ends(&arrow.content);
            let (end, y) = tip_of(&tip.content);
            let forward = from < stop && stop < end || end < stop && stop < from;
            assert!(forward && 0.0 <= end, "{name}: {arrow:?} {tip:?}");
            let lower = f64::from(ROW) - y.rem_euclid(f64::from(ROW));
            assert!(3.0 <= lower, "{name}: {tip:?} is cut off");
        }
    }
}

/// Where an arrow's way begins and ends, across.
fn ends(way: &str) -> (f64, f64) {
    let from = way.trim_start_matches('M').split(' ').next();
    let stop = way.rsplit('H').next();
    let number = |text: Option<&str>| text.and_then(|text| text.parse().ok()).expect("a place");
    (number(from), number(stop))
}

/// The point of a tip.
fn tip_of(way: &str) -> (f64, f64) {
    let point = way
        .trim_start_matches('M')
        .split('l')
        .next()
        .expect("a point");
    let (x, y) = point.split_once(' ').expect("two numbers");
    (x.parse().expect("a number"), y.parse().expect("a number"))
}

/// What is drawn of some lines is what the whole picture has in their rows, with a lane for whoever is at something.
#[test]
fn a_part_is_a_part_of_the_whole() {
    for (name, input) in schedules() {
        let whole = drawing(&input).expect("a picture");
        let rows = whole.rows.len();
        if rows < 4 {
            continue;
        }
        let (from, to) = (rows / 3, rows - rows / 4);
        let lines = from as u64 + 1..=to as u64;
        let part = draw::<Table>(Schedule::whole(&input[..]), lines).expect("a picture");
        assert_eq!(part.rows, whole.rows[from..to], "{name}");
        assert_eq!(
            bands(&part.bands, 0, to - from),
            bands(&whole.bands, from, to),
            "{name}"
        );
        let shown = part.bands.iter().filter(|band| band.column != Column::Word);
        assert!(
            shown
                .map(|band| band.lane)
                .all(|lane| part.used.contains(&lane)),
            "{name}"
        );
        assert!(whole.whole && !part.whole);
        assert_eq!(part.last_line(), to as u64);
    }
}

/// A page says after which line things stand so, and whether it is the last.
#[test]
fn a_page_says_where_it_stops() {
    let input = b"L 1 1 0\nE 1 1\nS 1\n";
    let stops = [
        (
            1..=u64::MAX,
            "<summary>After line 3, the last</summary>",
            "2 event lines",
        ),
        (
            1..=2,
            "<summary>After line 2</summary>",
            "up to line 2, 1 event line:",
        ),
        (
            3..=9,
            "<summary>After line 3</summary>",
            "up to line 3, 2 event lines:",
        ),
    ];
    for (lines, summary, caption) in stops {
        let part = draw::<Table>(Schedule::whole(&input[..]), lines).expect("a picture");
        let html = html(&part);
        assert!(html.contains(summary), "{summary}");
        assert!(html.contains(&format!("<p>{caption}")), "{caption}");
    }
}

/// The bands in some rows, counted from the first of these; in which slot an object is does not matter.
fn bands(all: &[Band], from: usize, to: usize) -> Vec<(Lane, Column, usize, usize, String)> {
    let met = all.iter().filter(|band| band.first < to && from < band.end);
    let mut bands: Vec<_> = met
        .map(|band| {
            let column = match band.column {
                Column::Owned(_) => Column::Owned(0),
                column => column,
            };
            let (first, end) = (band.first.max(from) - from, band.end.min(to) - from);
            (band.lane, column, first, end, band.label.clone())
        })
        .collect();
    bands.sort();
    bands
}

/// Texts that meet are in the same band of so many pixels, or in two that are side by side.
const ROWS: i64 = 20;

/// The part of an arrow or a tick that goes across, a pixel and a half thick.
fn across(element: &Element) -> Option<Extent> {
    let line = element.class.starts_with("arrow") || element.class == "tick";
    if !line || element.group != "lanes" {
        return None;
    }
    let (start, rest) = element.content.strip_prefix('M')?.split_once(' ')?;
    let (down, end) = rest.split_once('H')?;
    let height = down.rsplit('V').next()?.parse::<f64>().ok()?;
    let (from, to): (f64, f64) = (start.parse().ok()?, end.parse().ok()?);
    let middle = element.y + height;
    Some(Extent {
        left: element.x + from.min(to),
        top: middle - 0.75,
        right: element.x + from.max(to),
        bottom: middle + 0.75,
    })
}
