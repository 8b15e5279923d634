//! Reads the elements of a picture back: their names, classes and places, groups that are moved included. It takes what svg.rs writes, not any SVG.

use schedule_view::svg::{text_width, CAPTION, NAME, TEXT};

#[derive(Clone, Debug)]
pub struct Element {
    pub tag: String,
    pub class: String,
    /// The class of the group that it is in.
    pub group: String,
    pub x: f64,
    pub y: f64,
    /// Of a path, its way; of a text, what it says.
    pub content: String,
    pub ends_there: bool,
}

/// The elements of one or several pictures, in their order.
pub fn elements(svg: &str) -> Vec<Element> {
    let mut group = (String::new(), 0.0, 0.0);
    let mut found = Vec::new();
    for line in svg.lines() {
        let Some(tag) = line.strip_prefix('<').map(|rest| tag(rest)) else {
            continue;
        };
        match tag {
            "g" if line.contains("transform") => {
                let (x, y) = moved(&attribute(line, "transform").unwrap_or_default());
                group = (attribute(line, "class").unwrap_or_default(), x, y);
            }
            "/g" => group = (String::new(), 0.0, 0.0),
            "rect" | "circle" | "path" | "text" => found.push(element(tag, line, &group)),
            _ => {}
        }
    }
    found
}

fn element(tag: &str, line: &str, group: &(String, f64, f64)) -> Element {
    let number = |name| attribute(line, name).and_then(|text| text.parse::<f64>().ok());
    let place = |name, round| number(name).or(number(round)).unwrap_or(0.0);
    let content = match tag {
        "path" => attribute(line, "d").unwrap_or_default(),
        _ => said(line),
    };
    Element {
        tag: tag.to_string(),
        class: attribute(line, "class").unwrap_or_default(),
        group: group.0.clone(),
        x: group.1 + place("x", "cx"),
        y: group.2 + place("y", "cy"),
        content,
        ends_there: line.contains("text-anchor=\"end\""),
    }
}

fn tag(rest: &str) -> &str {
    let end = rest.find([' ', '>']).unwrap_or(rest.len());
    &rest[..end]
}

pub fn attribute(line: &str, name: &str) -> Option<String> {
    let start = line.find(&format!(" {name}=\""))? + name.len() + 3;
    let length = line[start..].find('"')?;
    Some(line[start..start + length].to_string())
}

fn moved(transform: &str) -> (f64, f64) {
    let inner = transform
        .trim_start_matches("translate(")
        .trim_end_matches(')');
    let mut numbers = inner.split(' ').map(|number| number.parse().unwrap_or(0.0));
    (numbers.next().unwrap_or(0.0), numbers.next().unwrap_or(0.0))
}

/// What a text says, with what was escaped as one character each.
fn said(line: &str) -> String {
    let from = line.find('>').map_or(0, |place| place + 1);
    let to = line.rfind("</text>").unwrap_or(from);
    let text = line[from..to.max(from)]
        .replace("&lt;", "<")
        .replace("&gt;", ">");
    text.replace("&quot;", "\"").replace("&amp;", "&")
}

/// The space that a thing takes.
#[derive(Clone, Copy, Debug)]
pub struct Extent {
    pub left: f64,
    pub top: f64,
    pub right: f64,
    pub bottom: f64,
}

impl Extent {
    pub fn meets(&self, other: &Extent) -> bool {
        let beside = self.right <= other.left || other.right <= self.left;
        let above = self.bottom <= other.top || other.bottom <= self.top;
        !beside && !above
    }

    pub fn is_in(&self, other: &Extent) -> bool {
        let across = other.left <= self.left && self.right <= other.right;
        across && other.top <= self.top && self.bottom <= other.bottom
    }
}

/// The box of a text: as wide as its characters are at most, from a capital's top to under the line.
pub fn text_box(text: &Element) -> Extent {
    let size = match text.class.split(' ').next() {
        Some("name" | "title") => NAME,
        Some("caption") => CAPTION,
        _ => TEXT,
    };
    let width = f64::from(text_width(text.content.chars().count(), size));
    let left = if text.ends_there {
        text.x - width
    } else {
        text.x
    };
    Extent {
        left,
        top: text.y - 0.8 * f64::from(size),
        right: left + width,
        bottom: text.y + 0.25 * f64::from(size),
    }
}

/// The whole picture.
pub fn canvas(svg: &str) -> Extent {
    let line = svg
        .lines()
        .find(|line| line.starts_with("<svg"))
        .unwrap_or("");
    let size = |name| {
        attribute(line, name)
            .and_then(|text| text.parse().ok())
            .unwrap_or(0.0)
    };
    Extent {
        left: 0.0,
        top: 0.0,
        right: size("width"),
        bottom: size("height"),
    }
}
