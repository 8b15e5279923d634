//! A small checker of mark-up: every opened tag is closed in order, attributes are quoted, and nothing in a text could be taken for a tag.

/// Elements of a page that have no end.
const VOID: [&str; 1] = ["meta"];
/// Elements of a page whose content is no mark-up.
const RAW: [&str; 2] = ["style", "script"];
const ENTITIES: [&str; 4] = ["&amp;", "&lt;", "&gt;", "&quot;"];

/// A page begins with its document type and has void elements; a picture is XML.
#[derive(Clone, Copy, Debug, PartialEq, Eq)]
pub enum Kind {
    Page,
    Picture,
}

struct Checker<'a> {
    kind: Kind,
    rest: &'a str,
    open: Vec<&'a str>,
    tags: Vec<String>,
}

/// The tags in their order, as `svg`, `/svg` and `rect/`; else what is wrong.
pub fn tags(text: &str, kind: Kind) -> Result<Vec<String>, String> {
    if let Some(control) = text.chars().find(|c| c.is_control() && *c != '\n') {
        return Err(format!("a control character, {control:?}"));
    }
    let mut checker = Checker {
        kind,
        rest: text,
        open: Vec::new(),
        tags: Vec::new(),
    };
    checker.prologue()?;
    while !checker.rest.is_empty() {
        checker.text()?;
        checker.tag()?;
    }
    let roots = checker.tags.iter().filter(|tag| is_root(tag, kind)).count();
    match (checker.open.as_slice(), roots) {
        ([], 2) => Ok(checker.tags),
        (open, _) => Err(format!("left open: {open:?}, {roots} tags of a root")),
    }
}

/// The root's element is opened and closed once; the pictures in a page are no roots.
fn is_root(tag: &str, kind: Kind) -> bool {
    let root = match kind {
        Kind::Page => "html",
        Kind::Picture => "svg",
    };
    tag.trim_start_matches('/') == root
}

impl<'a> Checker<'a> {
    fn prologue(&mut self) -> Result<(), String> {
        let (start, end) = match self.kind {
            Kind::Page => ("<!doctype html", ">\n"),
            Kind::Picture => ("<!-- ", " -->\n"),
        };
        let rest = self.rest.strip_prefix(start).ok_or("another start")?;
        let (inside, rest) = rest.split_once(end).ok_or("the start has no end")?;
        self.rest = rest;
        match inside.contains(['<', '>', '&']) || inside.contains("--") {
            true => Err(format!("a start with {inside:?}")),
            false => Ok(()),
        }
    }

    /// Takes the text up to the next tag.
    fn text(&mut self) -> Result<(), String> {
        let end = self.rest.find('<').unwrap_or(self.rest.len());
        let (text, rest) = self.rest.split_at(end);
        self.rest = rest;
        if self.open.is_empty() && !text.trim().is_empty() {
            return Err(format!("text outside of all elements: {text:?}"));
        }
        plain(text)
    }

    fn tag(&mut self) -> Result<(), String> {
        let Some(rest) = self.rest.strip_prefix('<') else {
            return Ok(());
        };
        let (inside, rest) = rest.split_once('>').ok_or("a tag without its end")?;
        self.rest = rest;
        if let Some(name) = inside.strip_prefix('/') {
            return self.close(name);
        }
        let (inside, empty) = match inside.strip_suffix('/') {
            Some(inside) => (inside, true),
            None => (inside, false),
        };
        let (name, attributes) = inside.split_once(' ').unwrap_or((inside, ""));
        named(name)?;
        attributed(attributes)?;
        self.tags
            .push(name.to_string() + if empty { "/" } else { "" });
        let void = self.kind == Kind::Page && VOID.contains(&name);
        if !empty && !void {
            self.open.push(name);
        }
        if RAW.contains(&name) {
            self.skip_raw(name)?;
        }
        Ok(())
    }

    fn close(&mut self, name: &'a str) -> Result<(), String> {
        self.tags.push(format!("/{name}"));
        match self.open.pop() {
            Some(opened) if opened == name => Ok(()),
            opened => Err(format!("{name} is closed where {opened:?} is open")),
        }
    }

    /// In a page raw text ends only with its end tag; in XML it is text like any other.
    fn skip_raw(&mut self, name: &str) -> Result<(), String> {
        if self.kind == Kind::Picture {
            return Ok(());
        }
        let end = self.rest.find(&format!("</{name}>"));
        let (raw, rest) = self.rest.split_at(end.ok_or("raw text without end")?);
        self.rest = rest;
        match raw.contains("</") || raw.contains("<!--") {
            true => Err(format!("a tag in the text of {name}")),
            false => Ok(()),
        }
    }
}

fn named(name: &str) -> Result<(), String> {
    let good = |c: char| c.is_ascii_lowercase() || c.is_ascii_digit() || c == '-';
    let begins = name.starts_with(|c: char| c.is_ascii_lowercase());
    let camel = name == "viewBox";
    match camel || (begins && name.chars().all(good)) {
        true => Ok(()),
        false => Err(format!("the name {name:?}")),
    }
}

/// Attributes as ` name="value"`, each once.
fn attributed(attributes: &str) -> Result<(), String> {
    let mut met = Vec::new();
    let mut rest = attributes;
    while !rest.is_empty() {
        let (name, behind) = rest.split_once("=\"").ok_or("an attribute unquoted")?;
        let (value, behind) = behind.split_once('"').ok_or("a quote without its end")?;
        named(name)?;
        plain(value)?;
        if met.contains(&name) {
            return Err(format!("{name} twice"));
        }
        met.push(name);
        rest = match behind.strip_prefix(' ') {
            Some(more) if !more.is_empty() => more,
            None if behind.is_empty() => behind,
            _ => return Err(format!("{behind:?} behind an attribute")),
        };
    }
    Ok(())
}

/// Text in which every `&` begins one of the entities, and no tag begins or ends.
fn plain(text: &str) -> Result<(), String> {
    if let Some(wrong) = text.chars().find(|c| matches!(c, '<' | '>')) {
        return Err(format!("{wrong} in {text:?}"));
    }
    for (place, _) in text.match_indices('&') {
        if !ENTITIES.iter().any(|one| text[place..].starts_with(one)) {
            return Err(format!("a bare & in {text:?}"));
        }
    }
    Ok(())
}

#[test]
fn takes_what_is_well_formed() {
    let page = "<!doctype html>\n<html><meta charset=\"u\"><p a=\"1\" b-c=\"&lt;\">x &amp; y</p><script>\n1 < 2 && 3\n</script></html>\n";
    let met = tags(page, Kind::Page).expect("a page");
    assert_eq!(
        met,
        ["html", "meta", "p", "/p", "script", "/script", "/html"]
    );
    let picture = "<!-- x -->\n<svg viewBox=\"0 0\"><rect x=\"1\"/></svg>";
    let met = tags(picture, Kind::Picture).expect("a picture");
    assert_eq!(met, ["svg", "rect/", "/svg"]);
}

#[test]
fn notices_what_is_not() {
    let rows = [
        ("<svg><g></svg></g>", "svg is closed"),
        ("<svg><g></g>", "left open"),
        ("<svg></svg><svg></svg>", "4 tags of a root"),
        ("<svg>a & b</svg>", "a bare &"),
        ("<svg>a &nbsp; b</svg>", "a bare &"),
        ("<svg>a > b</svg>", "> in"),
        ("<svg>a < b</svg>", "the name"),
        ("<svg x=1></svg>", "unquoted"),
        ("<svg x=\"1></svg>", "quote"),
        ("<svg x=\"1\"y=\"1\"></svg>", "behind an attribute"),
        ("<svg x=\"1\" x=\"1\"></svg>", "x twice"),
        ("<svg x=\"&\"></svg>", "a bare &"),
        ("<svg>\u{1}</svg>", "control"),
        ("<svg></svg>text", "outside"),
        ("<svg><meta></svg>", "meta"),
        ("<svg><style>a > b</style></svg>", "> in"),
    ];
    for (text, sentence) in rows {
        let wrong = tags(&format!("<!-- x -->\n{text}"), Kind::Picture).expect_err(text);
        assert!(wrong.contains(sentence), "{text}: {wrong}");
    }
}
