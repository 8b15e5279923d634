//! A picture for documents: one SVG with its title, the lanes and the legend.

use crate::drawing::Drawing;
use crate::layout::{HEAD, ROW};
use crate::legend::legend;
use crate::picture::{Picture, BLOCK};
use crate::svg::{escaped, text_width, Elements, NAME, TEXT};
use std::io::{self, Write};

/// The colours, which the page shares.
pub const STYLE: &str = include_str!("picture.css");

const MARGIN: i32 = 12;
/// Of the title and the line under it.
const TITLE: i32 = 44;
/// A picture is not narrower, so that its legend has room.
const NARROWEST: i32 = 560;

/// What a picture is called, and what is wrong with it, if it is of a wrong engine.
#[derive(Clone, Debug, Default)]
pub struct Heading {
    pub title: String,
    pub warning: Option<String>,
}

impl Heading {
    /// What a reader has to be warned of: the engine, and what it did.
    pub fn warnings<'a>(&'a self, drawing: &'a Drawing) -> impl Iterator<Item = &'a String> {
        self.warning.iter().chain(&drawing.accidents)
    }
}

/// Writes the picture.
pub fn write(drawing: &Drawing, heading: &Heading, output: &mut impl Write) -> io::Result<()> {
    let picture = Picture::of(drawing);
    let gutter = picture.layout.gutter.width;
    let (front, inner) = front(drawing, heading, gutter + picture.layout.width);
    let (legend, legend_height) = legend(drawing, inner);
    let top = MARGIN + TITLE + heading.warnings(drawing).count() as i32 * ROW;
    let bottom = top + HEAD + drawing.rows.len() as i32 * ROW + MARGIN;
    let (width, height) = (inner + 2 * MARGIN, bottom + legend_height + MARGIN);
    let title = escaped(&heading.title);
    writeln!(
        output,
        "<!-- A schedule drawn by ./timeline -->\n\
         <svg xmlns=\"http://www.w3.org/2000/svg\" width=\"{width}\" height=\"{height}\" \
         viewBox=\"0 0 {width} {height}\" role=\"img\">\n\
         <title>{title}</title>\n<style>\n{STYLE}</style>"
    )?;
    let mut ground = Elements::default();
    ground.rect("ground", 0, 0, width, height);
    output.write_all(ground.text.as_bytes())?;
    output.write_all(front.text.as_bytes())?;
    let mut put = |name: &str, left: i32, top: i32, elements: &Elements| {
        let text = &elements.text;
        write!(
            output,
            "<g class=\"{name}\" transform=\"translate({left} {top})\">\n{text}</g>\n"
        )
    };
    put("head", MARGIN + gutter, top, &picture.head())?;
    for block in 0..picture.block_count() {
        let at = top + HEAD + (block * BLOCK) as i32 * ROW;
        put("gutter", MARGIN, at, &picture.gutter(block))?;
        put("lanes", MARGIN + gutter, at, &picture.lanes(block))?;
    }
    put("legend", MARGIN, bottom, &legend)?;
    writeln!(output, "</svg>")
}

/// The title and what stands under it, and how wide the picture is inside its margins: as wide as its lanes, or as these need.
fn front(drawing: &Drawing, heading: &Heading, lanes: i32) -> (Elements, i32) {
    let mut front = Elements::default();
    front.text("title", MARGIN, MARGIN + 14, &heading.title);
    front.text("caption", MARGIN, MARGIN + 30, &drawing.caption());
    let mut inner = lanes.max(NARROWEST);
    inner = inner.max(text_width(heading.title.chars().count(), NAME));
    for (place, warning) in heading.warnings(drawing).enumerate() {
        let base = MARGIN + TITLE + 8 + place as i32 * ROW;
        front.text("warning", MARGIN, base, warning);
        inner = inner.max(text_width(warning.chars().count(), TEXT));
    }
    (front, inner)
}
