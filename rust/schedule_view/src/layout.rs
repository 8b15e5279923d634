//! Where everything is: the places of lanes and of their columns, from the widest text in each.

use crate::drawing::{Column, Drawing, Lane, Mark};
use crate::svg::{text_width, CAPTION, NAME, TEXT};
use std::collections::BTreeMap;

/// The height of a row, and where in it a line of text stands.
pub const ROW: i32 = 20;
pub const BASE: i32 = 13;
/// The height of the lanes' names and of the captions under them.
pub const HEAD: i32 = 40;
/// Where in a lane the mark of an event is, and where its label begins.
pub const DOT: i32 = 8;
pub const LABEL: i32 = 15;
/// How far the text of a band is from its edge, and the text of a finished operation from its column's.
pub const INSET: i32 = 5;
pub const CHECKED: i32 = 15;

const GAP: i32 = 4;
const LANE_GAP: i32 = 12;
/// The width of the column that shows a flag.
const FLAG: i32 = 4;

#[derive(Clone, Copy, Debug, PartialEq, Eq)]
pub struct Place {
    pub left: i32,
    pub width: i32,
}

#[derive(Clone, Debug)]
pub struct PlacedLane {
    pub lane: Lane,
    /// Without the gap behind it.
    pub place: Place,
    pub name: String,
    /// Whether something happens in it; else it is narrow, and there to be counted.
    pub used: bool,
    pub columns: BTreeMap<Column, Place>,
}

/// Numbers, lines, and marks of events that are nobody's, on the left.
#[derive(Clone, Copy, Debug)]
pub struct Gutter {
    pub number_right: i32,
    pub text_left: i32,
    pub mark_left: i32,
    pub width: i32,
}

pub struct Layout {
    pub gutter: Gutter,
    pub lanes: BTreeMap<Lane, PlacedLane>,
    /// Of all lanes.
    pub width: i32,
}

impl Layout {
    pub fn of(drawing: &Drawing) -> Layout {
        let widest = widest(drawing);
        let mut lanes = BTreeMap::new();
        // An arrow from the clock has room before the first lane.
        let mut left = LANE_GAP;
        let threads = (1..=drawing.header.threads).map(Lane::Thread);
        let objects = (1..=drawing.header.objects).map(Lane::Object);
        for lane in threads.chain(objects) {
            let placed = match drawing.used.contains(&lane) {
                true => used_lane(drawing, lane, left, &widest),
                false => unused_lane(drawing, lane, left),
            };
            left += placed.place.width + if placed.used { LANE_GAP } else { GAP };
            lanes.insert(lane, placed);
        }
        Layout {
            gutter: gutter(drawing),
            lanes,
            width: left,
        }
    }

    pub fn column(&self, lane: Lane, column: Column) -> Option<Place> {
        self.lanes.get(&lane)?.columns.get(&column).copied()
    }
}

/// What a caption says over a column.
pub fn caption(column: Column) -> &'static str {
    match column {
        Column::Phase => "phase",
        Column::Owned(0) => "owns",
        Column::Word => "word",
        Column::Owner => "owner",
        Column::Holder => "holder",
        Column::Owned(_) | Column::Flag => "",
    }
}

/// A lane's long name, or its short one where nothing happens in it; with the thread's rank where that is not 0.
fn name(drawing: &Drawing, lane: Lane, used: bool) -> String {
    let rank = match lane {
        Lane::Thread(number) => drawing.ranks.get(number as usize - 1).copied().unwrap_or(0),
        Lane::Object(_) => 0,
    };
    let name = match (lane, used) {
        (Lane::Thread(number), true) => format!("thread {number}"),
        (Lane::Object(number), true) => format!("object {number}"),
        (Lane::Thread(number), false) => format!("t{number}"),
        (Lane::Object(number), false) => format!("o{number}"),
    };
    match (rank, used) {
        (0, _) => name,
        (_, true) => format!("{name}, rank {rank}"),
        (_, false) => format!("{name} r{rank}"),
    }
}

/// The widths that the texts of each column need, and, under no column, those of a lane's labels of marks.
fn widest(drawing: &Drawing) -> BTreeMap<(Lane, Option<Column>), i32> {
    let mut widest = BTreeMap::new();
    let mut note = |lane, column, width: i32| {
        let most: &mut i32 = widest.entry((lane, column)).or_default();
        *most = width.max(*most);
    };
    for band in &drawing.bands {
        let width = match band.column {
            Column::Flag => FLAG,
            column => {
                let caption = text_width(caption(column).len(), CAPTION);
                let label = 2 * INSET + text_width(band.label.chars().count(), TEXT);
                label.max(caption)
            }
        };
        note(band.lane, Some(band.column), width);
    }
    for (thread, mark) in drawing.rows.iter().flat_map(|row| &row.marks) {
        let Some(lane) = thread.map(Lane::Thread) else {
            continue;
        };
        match mark {
            Mark::Begun(label) => note(lane, None, text_width(label.len(), TEXT)),
            Mark::Refused(_) => note(lane, None, text_width(2, TEXT)),
            Mark::Finished(label) => {
                let width = CHECKED + text_width(label.len(), TEXT);
                note(lane, Some(Column::Phase), width);
            }
            Mark::Stepped => {}
        }
    }
    widest
}

fn used_lane(
    drawing: &Drawing,
    lane: Lane,
    left: i32,
    widest: &BTreeMap<(Lane, Option<Column>), i32>,
) -> PlacedLane {
    let labels = widest.get(&(lane, None)).copied().unwrap_or(0);
    let mut right = match lane {
        Lane::Thread(_) => left + LABEL + labels + GAP,
        Lane::Object(_) => left + GAP,
    };
    let mut columns = BTreeMap::new();
    let own = widest
        .range((lane, None)..)
        .take_while(|((other, _), _)| *other == lane);
    for ((_, column), width) in own {
        if let Some(column) = column {
            let width = *width;
            columns.insert(*column, Place { left: right, width });
            right += width + GAP;
        }
    }
    let name = name(drawing, lane, true);
    let width = (right - left).max(text_width(name.len(), NAME) + GAP);
    PlacedLane {
        lane,
        place: Place { left, width },
        name,
        used: true,
        columns,
    }
}

fn unused_lane(drawing: &Drawing, lane: Lane, left: i32) -> PlacedLane {
    let name = name(drawing, lane, false);
    let width = text_width(name.len(), CAPTION) + GAP;
    PlacedLane {
        lane,
        place: Place { left, width },
        name,
        used: false,
        columns: BTreeMap::new(),
    }
}

fn gutter(drawing: &Drawing) -> Gutter {
    let rows = drawing.rows.iter();
    let digits = drawing
        .rows
        .last()
        .map_or(1, |row| row.number.to_string().len());
    let characters = rows.map(|row| row.text.chars().count()).max().unwrap_or(0);
    let number_right = GAP + text_width(digits.max(4), TEXT);
    let text_left = number_right + 3 * GAP;
    let mark_left = text_left + text_width(characters.max(5), TEXT) + 2 * GAP;
    Gutter {
        number_right,
        text_left,
        mark_left,
        width: mark_left + 2 * DOT + text_width(2, TEXT) + GAP,
    }
}
