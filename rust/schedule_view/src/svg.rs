//! Elements of a picture as text. Places are whole pixels.

use std::fmt::Write;

/// The size of most text, of captions and of names, in pixels.
pub const TEXT: i32 = 11;
pub const CAPTION: i32 = 10;
pub const NAME: i32 = 13;

/// How wide a text of so many characters is at most, in a font whose characters are all equally wide: 0.61 of its size, which the usual ones are not
/// above.
pub fn text_width(characters: usize, size: i32) -> i32 {
    (characters as i32 * size * 61 + 99) / 100
}

/// Text with the characters escaped that mark-up means something by; those that it must not have are dots.
pub fn escaped(text: &str) -> String {
    let mut safe = String::with_capacity(text.len());
    for character in text.chars() {
        match character {
            '&' => safe.push_str("&amp;"),
            '<' => safe.push_str("&lt;"),
            '>' => safe.push_str("&gt;"),
            '"' => safe.push_str("&quot;"),
            '\n' => safe.push(character),
            '\u{fffe}' | '\u{ffff}' => safe.push('·'),
            _ if character.is_control() => safe.push('·'),
            _ => safe.push(character),
        }
    }
    safe
}

/// Elements, one behind the other.
#[derive(Default)]
pub struct Elements {
    pub text: String,
}

impl Elements {
    pub fn rect(&mut self, class: &str, left: i32, top: i32, width: i32, height: i32) {
        self.add(format_args!(
            "<rect class=\"{class}\" x=\"{left}\" y=\"{top}\" width=\"{width}\" height=\"{height}\"/>\n"
        ));
    }

    pub fn circle(&mut self, class: &str, x: i32, y: i32, radius: i32) {
        self.add(format_args!(
            "<circle class=\"{class}\" cx=\"{x}\" cy=\"{y}\" r=\"{radius}\"/>\n"
        ));
    }

    pub fn path(&mut self, class: &str, way: &str) {
        self.add(format_args!("<path class=\"{class}\" d=\"{way}\"/>\n"));
    }

    /// Text whose line begins at this place, in the size and colour of the class.
    pub fn text(&mut self, class: &str, left: i32, base: i32, text: &str) {
        let text = escaped(text);
        self.add(format_args!(
            "<text class=\"{class}\" x=\"{left}\" y=\"{base}\">{text}</text>\n"
        ));
    }

    /// Text whose line ends at this place.
    pub fn text_before(&mut self, class: &str, right: i32, base: i32, text: &str) {
        let text = escaped(text);
        self.add(format_args!(
            "<text class=\"{class}\" x=\"{right}\" y=\"{base}\" text-anchor=\"end\">{text}</text>\n"
        ));
    }

    pub fn add(&mut self, element: std::fmt::Arguments<'_>) {
        // Writing to a string does not fail.
        let _ = self.text.write_fmt(element);
    }
}
