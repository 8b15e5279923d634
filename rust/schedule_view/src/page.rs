//! A picture as a page of its own: it needs no network, scrolls with its head in place, and shows each line in words.

use crate::document::{Heading, STYLE};
use crate::drawing::{Drawing, Lane, Row};
use crate::layout::{HEAD, ROW};
use crate::legend::legend;
use crate::picture::{Picture, BLOCK};
use crate::svg::{escaped, Elements};
use std::io::{self, Write};

const PAGE_STYLE: &str = include_str!("page.css");
const SCRIPT: &str = include_str!("page.js");

/// What stands where a line's words will.
const HINT: &str = "Point at a line to read it in words. \
                    A click or Enter keeps it; then the arrow keys go from line to line.";

/// How wide the legend of a page is.
const LEGEND: i32 = 1100;

/// Writes the page.
pub fn write(drawing: &Drawing, heading: &Heading, output: &mut impl Write) -> io::Result<()> {
    let picture = Picture::of(drawing);
    let title = escaped(&heading.title);
    writeln!(
        output,
        "<!doctype html>\n<html lang=\"en\">\n<head>\n<meta charset=\"utf-8\">\n\
         <meta name=\"viewport\" content=\"width=device-width\">\n\
         <meta name=\"color-scheme\" content=\"light dark\">\n\
         <title>{title}</title>\n<style>\n{STYLE}{PAGE_STYLE}</style>\n</head>\n<body>"
    )?;
    front(drawing, heading, output)?;
    let line = drawing.rows.first().map_or(0, |row| row.number);
    writeln!(
        output,
        "<main tabindex=\"0\" data-row=\"{ROW}\" data-block=\"{BLOCK}\" data-rows=\"{}\" data-line=\"{line}\">",
        drawing.rows.len()
    )?;
    lanes(&picture, output)?;
    writeln!(
        output,
        "<div id=\"cursor\"></div>\n</main>\n<footer>{HINT}</footer>\n\
         <script>\n{SCRIPT}</script>\n</body>\n</html>"
    )
}

/// The head and the blocks, with the words of each row.
fn lanes(picture: &Picture, output: &mut impl Write) -> io::Result<()> {
    let (gutter, lanes) = (picture.layout.gutter.width, picture.layout.width);
    let width = gutter + lanes;
    writeln!(output, "<div class=\"head\" style=\"width:{width}px\">")?;
    svg("gutter", gutter, HEAD, &Elements::default(), output)?;
    svg("names", lanes, HEAD, &picture.head(), output)?;
    writeln!(output, "</div>")?;
    for block in 0..picture.block_count() {
        let rows = picture.rows_of(block);
        let (first, height) = (rows.start, rows.len() as i32 * ROW);
        writeln!(
            output,
            "<div class=\"block\" data-first=\"{first}\" style=\"width:{width}px;height:{height}px\">"
        )?;
        svg("gutter", gutter, height, &picture.gutter(block), output)?;
        let mut elements = picture.lanes(block);
        for (place, row) in picture.drawing.rows[rows].iter().enumerate() {
            hit(picture, row, place as i32 * ROW, &mut elements);
        }
        svg("lanes", lanes, height, &elements, output)?;
        writeln!(output, "</div>")?;
    }
    Ok(())
}

/// What stands above the lanes.
fn front(drawing: &Drawing, heading: &Heading, output: &mut impl Write) -> io::Result<()> {
    let (title, caption) = (escaped(&heading.title), drawing.caption());
    writeln!(output, "<header>\n<h1>{title}</h1><p>{caption}</p>")?;
    for warning in heading.warnings(drawing) {
        writeln!(output, "<p class=\"beware\">{}</p>", escaped(warning))?;
    }
    let deadlock = |line: &String| line.starts_with("Deadlock");
    for line in drawing.ending.iter().filter(|line| deadlock(line)) {
        writeln!(output, "<p class=\"beware\">{}</p>", escaped(line))?;
    }
    let (last, end) = (
        drawing.last_line(),
        if drawing.whole { ", the last" } else { "" },
    );
    writeln!(
        output,
        "<details><summary>After line {last}{end}</summary>\n<ul>"
    )?;
    for line in &drawing.ending {
        let class = if deadlock(line) {
            " class=\"deadlock\""
        } else {
            ""
        };
        writeln!(output, "<li{class}>{}</li>", escaped(line))?;
    }
    writeln!(
        output,
        "</ul></details>\n<details><summary>What the marks mean</summary>"
    )?;
    let (legend, height) = legend(drawing, LEGEND);
    svg("legend", LEGEND, height, &legend, output)?;
    writeln!(output, "</details>\n</header>")
}

fn svg(
    class: &str,
    width: i32,
    height: i32,
    elements: &Elements,
    output: &mut impl Write,
) -> io::Result<()> {
    writeln!(
        output,
        "<svg class=\"{class}\" width=\"{width}\" height=\"{height}\">"
    )?;
    output.write_all(elements.text.as_bytes())?;
    writeln!(output, "</svg>")
}

/// The whole row answers the pointer, and knows where the lane is of whose event it is.
fn hit(picture: &Picture, row: &Row, top: i32, elements: &mut Elements) {
    let width = picture.layout.width;
    let lane = row
        .actor
        .and_then(|thread| picture.layout.lanes.get(&Lane::Thread(thread)));
    let (left, right) = lane.map_or((0, 0), |lane| {
        (lane.place.left, lane.place.left + lane.place.width)
    });
    let answers = match row.answer.as_str() {
        "" => String::new(),
        answer => format!(", answers {answer}"),
    };
    let words = format!("Line {}, {}{answers}.\n{}", row.number, row.text, row.words);
    elements.add(format_args!(
        "<g class=\"row\" data-left=\"{left}\" data-right=\"{right}\"><title>{}</title>\
         <rect class=\"hit\" x=\"0\" y=\"{top}\" width=\"{width}\" height=\"{ROW}\"/></g>\n",
        escaped(&words)
    ));
}
