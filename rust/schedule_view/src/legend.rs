//! What the marks, bands and arrows of a picture mean: those that are in it, in as many rows as its width takes.

use crate::drawing::{Column, Drawing, Mark, Touch};
use crate::layout::{BASE, ROW};
use crate::picture::touch_class;
use crate::svg::{text_width, Elements, TEXT};

/// How wide a sample is, and the space behind an entry.
const SAMPLE: i32 = 34;
const SPACE: i32 = 18;

/// What stands before the words of an entry.
#[derive(Clone, Copy)]
enum Sample {
    Begun,
    Step,
    Finished,
    Refused,
    Band(&'static str, &'static str),
    Parked,
    Flag,
    Tick,
    Arrow(Touch),
}

/// The legend, and its height. Its first line is at the top.
pub fn legend(drawing: &Drawing, width: i32) -> (Elements, i32) {
    let mut elements = Elements::default();
    let (mut left, mut top) = (0, 0);
    for (sample, words) in entries(drawing) {
        let needed = SAMPLE + text_width(words.chars().count(), TEXT);
        if left > 0 && left + needed > width {
            (left, top) = (0, top + ROW);
        }
        draw(sample, left, top, &mut elements);
        elements.text("entry", left + SAMPLE, top + BASE, words);
        left += needed + SPACE;
    }
    (elements, top + ROW)
}

/// The entries of what is in the drawing.
fn entries(drawing: &Drawing) -> Vec<(Sample, &'static str)> {
    let marks: Vec<&Mark> = drawing
        .rows
        .iter()
        .flat_map(|row| &row.marks)
        .map(|(_, mark)| mark)
        .collect();
    let touches: Vec<Touch> = drawing
        .rows
        .iter()
        .flat_map(|row| &row.arrows)
        .map(|(touch, _)| *touch)
        .collect();
    let met = |sample: &Sample| match *sample {
        Sample::Begun => marks.iter().any(|mark| matches!(mark, Mark::Begun(_))),
        Sample::Step => marks.iter().any(|mark| **mark == Mark::Stepped),
        Sample::Finished => marks.iter().any(|mark| matches!(mark, Mark::Finished(_))),
        Sample::Refused => marks.iter().any(|mark| matches!(mark, Mark::Refused(_))),
        Sample::Band(class, _) => drawing.bands.iter().any(|band| band.class == class),
        Sample::Parked => drawing.bands.iter().any(|band| band.class == "parked"),
        Sample::Flag => drawing.bands.iter().any(|band| band.column == Column::Flag),
        Sample::Tick => drawing.rows.iter().any(|row| row.tick),
        Sample::Arrow(touch) => touches.contains(&touch),
    };
    let arrows = Touch::ALL.map(|touch| (Sample::Arrow(touch), meaning(touch)));
    let all = ENTRIES.into_iter().chain(arrows);
    all.filter(|(sample, _)| met(sample)).collect()
}

/// What marks and bands mean.
const ENTRIES: [(Sample, &str); 11] = [
    (Sample::Begun, "begins; E1: an enter of object 1"),
    (Sample::Step, "takes a step"),
    (Sample::Finished, "finished"),
    (Sample::Refused, "refused or malformed, with its number"),
    (Sample::Parked, "parked"),
    (Sample::Band("owned", "o1×2"), "owns object 1 at depth 2"),
    (
        Sample::Band("overrun", "o1!"),
        "still inside, though the word names another",
    ),
    (
        Sample::Band("owner", "t1×2"),
        "owned by thread 1 at depth 2",
    ),
    (Sample::Band("holder", "t1"), "thread 1 holds the monitor"),
    (Sample::Flag, "contention flag up"),
    (Sample::Tick, "a tick of the clock"),
];

fn meaning(touch: Touch) -> &'static str {
    match touch {
        Touch::Handed => "handed the monitor: unparked",
        Touch::LetOut => "let out of its exit: unparked",
        Touch::Told => "moved from the contention chain to the entry chain",
        Touch::Woken => "moved from the waiting chain to the entry chain",
        Touch::SentBack => "sent back to look again",
    }
}

fn draw(sample: Sample, left: i32, top: i32, elements: &mut Elements) {
    let middle = top + ROW / 2;
    let centre = left + SAMPLE - 12;
    match sample {
        Sample::Begun => elements.circle("begun", centre, middle, 3),
        Sample::Step => elements.circle("step", centre, middle, 3),
        Sample::Finished => {
            elements.path("finished", &format!("M{} {middle}l3 4l6 -8", centre - 5));
        }
        Sample::Refused => {
            let (x, y) = (centre - 4, middle - 4);
            elements.path("refused", &format!("M{x} {y}l8 8m0 -8l-8 8"));
        }
        Sample::Band(class, label) => {
            elements.rect(class, left, top + 3, SAMPLE - 6, ROW - 5);
            elements.text("label", left + 1, top + BASE, label);
        }
        Sample::Parked => elements.path(
            "parked",
            &format!("M{centre} {}V{}", top + 3, top + ROW - 2),
        ),
        Sample::Flag => elements.rect("flag", centre, top + 3, 4, ROW - 5),
        Sample::Tick => elements.path("tick", &format!("M{left} {middle}h{}", SAMPLE - 6)),
        Sample::Arrow(touch) => {
            let kind = touch_class(touch);
            let end = left + SAMPLE - 6;
            elements.path(
                &format!("arrow {kind}"),
                &format!("M{left} {middle}H{}", end - 7),
            );
            elements.path(&format!("tip {kind}"), &format!("M{end} {middle}l-7 -4v8z"));
        }
    }
}
