//! A drawing as elements: the head with the lanes' names, and blocks of rows, each of which can stand by itself.

use crate::drawing::{Band, Column, Drawing, Lane, Mark, Row, Touch};
use crate::layout::{caption, Layout, Place, BASE, CHECKED, DOT, HEAD, INSET, LABEL, ROW};
use crate::svg::Elements;
use std::ops::Range;

/// So many rows are a block. What goes on from the block before is labelled again, so that a label is never far.
pub const BLOCK: usize = 40;

pub struct Picture<'a> {
    pub drawing: &'a Drawing,
    pub layout: Layout,
    /// The places in the drawing's list of the bands of each block.
    blocks: Vec<Vec<usize>>,
}

impl<'a> Picture<'a> {
    pub fn of(drawing: &'a Drawing) -> Picture<'a> {
        let mut blocks = vec![Vec::new(); drawing.rows.len().div_ceil(BLOCK)];
        for (place, band) in drawing.bands.iter().enumerate() {
            for block in &mut blocks[band.first / BLOCK..band.end.div_ceil(BLOCK)] {
                block.push(place);
            }
        }
        Picture {
            drawing,
            layout: Layout::of(drawing),
            blocks,
        }
    }

    pub fn block_count(&self) -> usize {
        self.blocks.len()
    }

    /// The rows of a block.
    pub fn rows_of(&self, block: usize) -> Range<usize> {
        block * BLOCK..((block + 1) * BLOCK).min(self.drawing.rows.len())
    }

    /// The names of the lanes and the captions of their columns.
    pub fn head(&self) -> Elements {
        let mut head = Elements::default();
        for placed in self.layout.lanes.values() {
            let left = placed.place.left;
            let class = if placed.used { "name" } else { "caption" };
            head.text(class, left, HEAD - 22, &placed.name);
            for (column, place) in &placed.columns {
                if !caption(*column).is_empty() {
                    head.text("caption", place.left, HEAD - 6, caption(*column));
                }
            }
        }
        head
    }

    /// Numbers and lines of a block's rows.
    pub fn gutter(&self, block: usize) -> Elements {
        let gutter = &self.layout.gutter;
        let mut elements = Elements::default();
        for (top, row) in self.rows(block) {
            let number = row.number.to_string();
            elements.text_before("number", gutter.number_right, top + BASE, &number);
            elements.text("line", gutter.text_left, top + BASE, &row.text);
            for (thread, mark) in &row.marks {
                if let (None, Mark::Refused(number)) = (thread, mark) {
                    refusal(&mut elements, gutter.mark_left, top, *number);
                }
            }
        }
        elements
    }

    /// The lanes of a block.
    pub fn lanes(&self, block: usize) -> Elements {
        let mut elements = Elements::default();
        self.guides(block, &mut elements);
        for (top, row) in self.rows(block) {
            self.ground(row, top, &mut elements);
        }
        for band in &self.blocks[block] {
            self.band(
                &self.drawing.bands[*band],
                self.rows_of(block),
                &mut elements,
            );
        }
        for (top, row) in self.rows(block) {
            for (thread, mark) in &row.marks {
                self.mark(*thread, mark, top, &mut elements);
            }
            for (touch, thread) in &row.arrows {
                self.arrow(row, *touch, *thread, top, &mut elements);
            }
        }
        elements
    }

    fn rows(&self, block: usize) -> impl Iterator<Item = (i32, &Row)> {
        let rows = &self.drawing.rows[self.rows_of(block)];
        rows.iter()
            .enumerate()
            .map(|(place, row)| (place as i32 * ROW, row))
    }

    /// A line under each row and one down each lane.
    fn guides(&self, block: usize, elements: &mut Elements) {
        let rows = self.rows_of(block).len() as i32;
        let width = self.layout.width;
        let across: String = (1..=rows)
            .map(|row| format!("M0 {}H{width}", row * ROW))
            .collect();
        elements.path("guide", &across);
        let lanes = self.layout.lanes.values();
        let down: String = lanes
            .map(|placed| format!("M{} 0V{}", placed.place.left + DOT, rows * ROW))
            .collect();
        elements.path("thread-guide", &down);
    }

    /// What lies under a row: the lane of whose event it is, a tick, an accident.
    fn ground(&self, row: &Row, top: i32, elements: &mut Elements) {
        if row.overrun {
            elements.rect("accident", 0, top, self.layout.width, ROW);
        }
        if row.tick {
            elements.path("tick", &format!("M0 {}H{}", top + 2, self.layout.width));
        }
        if let Some(Place { left, width }) = row.actor.and_then(|thread| self.lane_place(thread)) {
            elements.rect("act", left, top, width, ROW);
        }
    }

    fn lane_place(&self, thread: u32) -> Option<Place> {
        let lane = self.layout.lanes.get(&Lane::Thread(thread))?;
        Some(lane.place)
    }

    fn band(&self, band: &Band, rows: Range<usize>, elements: &mut Elements) {
        let Some(Place { left, width }) = self.layout.column(band.lane, band.column) else {
            return;
        };
        let first = band.first.max(rows.start) - rows.start;
        let end = band.end.min(rows.end) - rows.start;
        let (begins, ends) = (band.first >= rows.start, band.end <= rows.end);
        // A band that begins or ends here leaves a pixel to the next.
        let top = first as i32 * ROW + i32::from(begins);
        let bottom = end as i32 * ROW - i32::from(ends);
        match band.class {
            "parked" => {
                let (x, from) = (left + width / 2, first as i32 * ROW + ROW - 3);
                if from < bottom {
                    elements.path("parked", &format!("M{x} {from}V{bottom}"));
                }
            }
            "holder" | "overrun" => {
                let way = outline(left, left + width, top..bottom, begins, ends);
                elements.path(band.class, &way);
            }
            class => elements.rect(class, left, top, width, bottom - top),
        }
        if band.column != Column::Flag {
            let class = if band.class == "parked" {
                "absent"
            } else {
                "label"
            };
            elements.text(class, left + INSET, first as i32 * ROW + BASE, &band.label);
        }
    }

    fn mark(&self, thread: Option<u32>, mark: &Mark, top: i32, elements: &mut Elements) {
        let Some(thread) = thread else {
            return;
        };
        let Some(Place { left, .. }) = self.lane_place(thread) else {
            return;
        };
        let middle = top + ROW / 2;
        match mark {
            Mark::Begun(label) => {
                elements.circle("begun", left + DOT, middle, 3);
                elements.text("letter", left + LABEL, top + BASE, label);
            }
            Mark::Stepped => elements.circle("step", left + DOT, middle, 3),
            Mark::Refused(number) => refusal(elements, left, top, *number),
            Mark::Finished(label) => {
                if let Some(place) = self.layout.column(Lane::Thread(thread), Column::Phase) {
                    let (x, y) = (place.left + 3, middle);
                    elements.path("finished", &format!("M{x} {y}l3 4l6 -8"));
                    elements.text("done", place.left + CHECKED, top + BASE, label);
                }
            }
        }
    }

    /// From the row's mark, or from the left where it is the clock's, along the row's lower edge to the other thread's lane.
    fn arrow(&self, row: &Row, touch: Touch, to: u32, top: i32, elements: &mut Elements) {
        let from = row.actor.and_then(|thread| self.lane_place(thread));
        let Some(Place { left, width }) = self.lane_place(to) else {
            return;
        };
        let kind = touch_class(touch);
        let y = top + ROW - 3;
        let (start, start_y) = match from {
            Some(place) => (place.left + DOT, top + ROW / 2 + 3),
            None => (0, y),
        };
        let (end, back) = match start < left {
            true => (left - 1, -7),
            false => (left + width + 1, 7),
        };
        let stop = end + back;
        elements.path(
            &format!("arrow {kind}"),
            &format!("M{start} {start_y}V{y}H{stop}"),
        );
        elements.path(&format!("tip {kind}"), &format!("M{end} {y}l{back} -3v6z"));
    }
}

/// The sides of a band, and its ends where they are there.
fn outline(left: i32, right: i32, rows: Range<i32>, begins: bool, ends: bool) -> String {
    let Range { start, end } = rows;
    let mut way = format!("M{left} {start}V{end}M{right} {start}V{end}");
    for (there, at) in [(begins, start), (ends, end)] {
        if there {
            way += &format!("M{left} {at}H{right}");
        }
    }
    way
}

fn refusal(elements: &mut Elements, left: i32, top: i32, number: u32) {
    let (x, y) = (left + DOT - 4, top + ROW / 2 - 4);
    elements.path("refused", &format!("M{x} {y}l8 8m0 -8l-8 8"));
    elements.text("refusal", left + LABEL, top + BASE, &number.to_string());
}

pub fn touch_class(touch: Touch) -> &'static str {
    match touch {
        Touch::Handed => "handed",
        Touch::LetOut => "let-out",
        Touch::Told => "told",
        Touch::Woken => "woken",
        Touch::SentBack => "sent-back",
    }
}
