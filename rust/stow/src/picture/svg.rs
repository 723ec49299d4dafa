//! SVG as a tree of elements. What is written is well-formed, whatever names and titles hold, and text stays
//! in its area.

use std::fmt::{self, Display, Write};

/// An element. Tags and the names of attributes are the program's own; values and text may be anything.
pub struct Element {
    tag: &'static str,
    attributes: String,
    content: String,
}

impl Element {
    pub fn new(tag: &'static str) -> Element {
        Element { tag, attributes: String::new(), content: String::new() }
    }

    pub fn with(mut self, name: &'static str, value: impl Display) -> Element {
        let _ = write!(self.attributes, " {name}=\"{}\"", Escaped(&value.to_string()));
        self
    }

    /// A place or a length, to a hundredth.
    pub fn at(self, name: &'static str, value: f64) -> Element {
        let value = if value.is_finite() { value } else { 0.0 };
        self.with(name, (value * 100.0).round() / 100.0)
    }

    pub fn text(mut self, text: &str) -> Element {
        let _ = write!(self.content, "{}", Escaped(text));
        self
    }

    /// Text of the program's own that is not escaped: a style sheet.
    pub fn raw(mut self, text: &str) -> Element {
        self.content.push_str(text);
        self
    }

    pub fn child(mut self, child: Element) -> Element {
        let _ = write!(self.content, "{child}");
        self
    }

    /// Children with a line each.
    pub fn children(mut self, children: impl IntoIterator<Item = Element>) -> Element {
        for child in children {
            let _ = write!(self.content, "\n{child}");
        }
        self
    }

    /// What a browser shows to those who point at it.
    pub fn tip(self, text: &str) -> Element {
        self.child(Element::new("title").text(text))
    }
}

impl Display for Element {
    fn fmt(&self, f: &mut fmt::Formatter<'_>) -> fmt::Result {
        let Element { tag, attributes, content } = self;
        match content.as_str() {
            "" => write!(f, "<{tag}{attributes}/>"),
            _ => write!(f, "<{tag}{attributes}>{content}</{tag}>"),
        }
    }
}

/// Elements that belong together.
pub fn group(elements: impl IntoIterator<Item = Element>) -> Element {
    Element::new("g").children(elements)
}

/// Text as a document can have it.
struct Escaped<'a>(&'a str);

impl Display for Escaped<'_> {
    fn fmt(&self, f: &mut fmt::Formatter<'_>) -> fmt::Result {
        cleaned(self.0).try_for_each(|character| match character {
            '&' => f.write_str("&amp;"),
            '<' => f.write_str("&lt;"),
            '>' => f.write_str("&gt;"),
            '"' => f.write_str("&quot;"),
            '\'' => f.write_str("&#39;"),
            other => f.write_char(other),
        })
    }
}

/// The characters of a text without those that XML forbids, and without those that would turn its direction
/// and that of what stands beside it.
fn cleaned(text: &str) -> impl Iterator<Item = char> + '_ {
    text.chars().filter_map(|character| match character {
        '\t' | '\n' | '\r' | '\u{2028}' | '\u{2029}' => Some(' '),
        '\u{fffe}' | '\u{ffff}' => Some('\u{fffd}'),
        '\u{200e}' | '\u{200f}' | '\u{202a}'..='\u{202e}' | '\u{2066}'..='\u{2069}' => None,
        other if other.is_control() => Some('\u{fffd}'),
        other => Some(other),
    })
}

/// A kind of lettering. Its class is its name in the style sheet.
pub struct Face {
    pub class: &'static str,
    pub size: f64,
    pub mono: bool,
    pub bold: bool,
    pub fill: &'static str,
}

impl Face {
    /// Its rule in the style sheet.
    pub fn rule(&self) -> String {
        let Face { class, size, fill, .. } = self;
        let weight = if self.bold { "bold " } else { "" };
        let family = if self.mono { "monospace" } else { "sans-serif" };
        format!(".stow .{class}{{font:{weight}{size}px {family};fill:{fill}}}")
    }

    fn advance(&self, character: char) -> f64 {
        match self.mono {
            true if character.is_ascii() => MONO_EM * self.size,
            _ if self.bold => BOLD * em(character) * self.size,
            _ => em(character) * self.size,
        }
    }

    /// About how wide a text is; rather too wide.
    pub fn width(&self, text: &str) -> f64 {
        cleaned(text).map(|character| self.advance(character)).sum()
    }

    /// A text, cut to a width: `north qu…`
    pub fn cut(&self, text: &str, width: f64) -> String {
        if self.width(text) <= width {
            return cleaned(text).collect();
        }
        let mut room = width - self.advance(ELLIPSIS);
        let fits = |character: &char| {
            room -= self.advance(*character);
            room >= 0.0
        };
        let kept: String = cleaned(text).take_while(fits).collect();
        format!("{}{ELLIPSIS}", kept.trim_end())
    }

    /// A number with all its digits, or shortened where they do not fit.
    pub fn number(&self, value: u64, width: f64) -> String {
        let whole = value.to_string();
        if self.width(&whole) <= width {
            whole
        } else {
            short(value)
        }
    }
}

const ELLIPSIS: char = '…';

/// The widths of generic fonts differ between machines; these are those of wide ones, as parts of the size.
const MONO_EM: f64 = 0.605;
const BOLD: f64 = 1.1;

fn em(character: char) -> f64 {
    match character {
        'i' | 'j' | 'l' | 'I' | 'J' | ' ' | '.' | ',' | ':' | ';' | '\'' | '|' | '·' => 0.34,
        'f' | 'r' | 't' | '!' | '(' | ')' | '[' | ']' | '-' | '/' | '\\' | '"' => 0.43,
        'm' | 'w' | 'M' | 'W' | '@' | '%' => 1.0,
        'A'..='Z' | '#' | '&' | '+' | '<' | '=' | '>' | '^' | '~' => 0.8,
        ' '..='~' | '–' => 0.64,
        '\u{300}'..='\u{36f}' => 0.0,
        '\u{a0}'..='\u{52f}' => 0.8,
        _ => 1.05,
    }
}

/// Whether `em` knows how wide it is: Latin, Greek and Cyrillic letters without marks of their own.
fn is_known(character: char) -> bool {
    matches!(character, ' '..='\u{2ff}' | '\u{370}'..='\u{482}' | '\u{48a}'..='\u{52f}' | '–' | ELLIPSIS)
}

/// Three digits and a power of ten, cut and not rounded: 18.4e18 for 2^64 - 1.
pub fn short(value: u64) -> String {
    let digits = value.to_string();
    if digits.len() <= 3 {
        return digits;
    }
    let before = (digits.len() - 1) % 3 + 1;
    let power = digits.len() - before;
    match before {
        3 => format!("{}e{power}", &digits[..3]),
        _ => format!("{}.{}e{power}", &digits[..before], &digits[before..3]),
    }
}

/// At which side of its area a text stands.
#[derive(Clone, Copy)]
pub enum Side {
    Left,
    Middle,
    Right,
}

/// A part of the picture.
#[derive(Clone, Copy, PartialEq, Debug)]
pub struct Area {
    pub x: f64,
    pub y: f64,
    pub width: f64,
    pub height: f64,
}

/// How far below the middle of a line its letters stand, as part of their size.
const BASELINE: f64 = 0.36;

impl Area {
    pub const fn new(x: f64, y: f64, width: f64, height: f64) -> Area {
        Area { x, y, width, height }
    }

    /// Smaller on all sides.
    pub const fn inset(self, dx: f64, dy: f64) -> Area {
        Area::new(self.x + dx, self.y + dy, self.width - 2.0 * dx, self.height - 2.0 * dy)
    }

    /// The part of it that is so wide and begins so far from its left.
    pub const fn span(self, from: f64, width: f64) -> Area {
        Area::new(self.x + from, self.y, width, self.height)
    }

    /// The part of it that is so high and begins so far from its top.
    pub const fn line(self, from: f64, height: f64) -> Area {
        Area::new(self.x, self.y + from, self.width, height)
    }

    fn placed(self, element: Element) -> Element {
        element.at("x", self.x).at("y", self.y).at("width", self.width).at("height", self.height)
    }

    pub fn rect(self, class: &str) -> Element {
        self.placed(Element::new("rect").with("class", class))
    }

    /// A rule along its lower edge.
    pub fn rule(self, class: &str) -> Element {
        let y = self.y + self.height;
        let line = Element::new("line").with("class", class).at("x1", self.x).at("y1", y);
        line.at("x2", self.x + self.width).at("y2", y)
    }

    /// A line of text in the middle of its height. Where it is cut, the whole is its tip.
    pub fn text(self, side: Side, face: &Face, text: &str) -> Element {
        let is_cut = face.width(text) > self.width;
        self.written(side, face, text, is_cut.then_some(text))
    }

    /// The same, with a tip of its own.
    pub fn told(self, side: Side, face: &Face, text: &str, tip: &str) -> Element {
        self.written(side, face, text, Some(tip))
    }

    fn written(self, side: Side, face: &Face, text: &str, tip: Option<&str>) -> Element {
        let (part, anchor) = match side {
            Side::Left => (0.0, None),
            Side::Middle => (0.5, Some("middle")),
            Side::Right => (1.0, Some("end")),
        };
        let (x, y) = (self.x + part * self.width, self.y + self.height / 2.0 + BASELINE * face.size);
        let mut line = Element::new("text").with("class", face.class).at("x", x).at("y", y);
        if let Some(anchor) = anchor {
            line = line.with("text-anchor", anchor);
        }
        if let Some(tip) = tip {
            line = line.tip(tip);
        }
        self.kept_in(line.text(&face.cut(text, self.width)), text)
    }

    /// Where a width cannot be estimated, an inner picture cuts off what would stand outside.
    fn kept_in(self, shown: Element, text: &str) -> Element {
        if cleaned(text).all(is_known) {
            return shown;
        }
        let Area { x, y, width, height } = self;
        let view = format!("{x} {y} {width} {height}");
        self.placed(Element::new("svg")).with("viewBox", view).child(shown)
    }
}

#[cfg(test)]
pub mod tests {
    use super::*;

    const FACE: Face = Face { class: "test", size: 10.0, mono: false, bold: false, fill: "#000" };

    /// Tags balance, attributes are closed, and every `&` begins one of the entities above.
    pub fn assert_well_formed(document: &str) {
        let mut open = Vec::new();
        for part in document.split('<').skip(1) {
            let (tag, text) = part.split_once('>').expect("a tag ends");
            assert_eq!(tag.matches('"').count() % 2, 0, "{tag}");
            for entity in part.split('&').skip(1) {
                let known = ["amp;", "lt;", "gt;", "quot;", "#39;"];
                assert!(known.iter().any(|name| entity.starts_with(name)), "{part}");
            }
            assert!(!text.contains(['>', '"']) && !part.chars().any(|c| c.is_control() && c != '\n'));
            match tag.strip_prefix('/') {
                Some(name) => assert_eq!(open.pop(), Some(name)),
                None if tag.ends_with('/') => {}
                None => open.push(tag.split(' ').next().expect("a tag has a name")),
            }
        }
        assert_eq!(open, Vec::<&str>::new());
        assert!(!document.contains("NaN") && !document.contains("inf\""));
    }

    #[test]
    fn anything_is_escaped() {
        let odd = "<a b=\"c\">&'\u{0}\u{1b}\u{9f}\u{ffff}\u{202e}\n]]></a>";
        let element = Element::new("g").with("id", odd).text(odd).tip(odd);
        assert_well_formed(&element.to_string());
        assert_eq!(Escaped("\u{0}<&>\"'\n").to_string(), "\u{fffd}&lt;&amp;&gt;&quot;&#39; ");
        assert_eq!(
            Element::new("g").at("x", f64::NAN).at("y", 1.0 / 3.0).to_string(),
            "<g x=\"0\" y=\"0.33\"/>"
        );
    }

    #[test]
    fn text_is_cut_to_its_width() {
        assert_eq!(FACE.cut("north", 60.0), "north");
        assert_eq!(FACE.cut("north of the quay", 36.0), "nort…");
        assert_eq!(FACE.cut("north", 0.0), "…");
        for text in ["mmmmmmmmmm", "船船船船船船", "e\u{301}e\u{301}e\u{301}e\u{301}e\u{301}e\u{301}"] {
            assert!(FACE.width(&FACE.cut(text, 30.0)) <= 30.0);
        }
        assert!(Area::new(0.0, 0.0, 30.0, 9.0).text(Side::Left, &FACE, "船").to_string().starts_with("<svg"));
    }

    #[test]
    fn numbers_are_shortened() {
        let shown = [0, 999, 1_000, 12_345, 999_999, 1_000_000, u64::MAX].map(short);
        assert_eq!(shown, ["0", "999", "1.00e3", "12.3e3", "999e3", "1.00e6", "18.4e18"]);
        assert_eq!(FACE.number(1_234_567, 60.0), "1234567");
        assert_eq!(FACE.number(u64::MAX, 60.0), "18.4e18");
    }
}
