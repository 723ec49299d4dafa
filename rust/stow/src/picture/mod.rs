//! Pictures for planners: a board at one moment, and the waits of a day, each a whole SVG document.
//!
//! They read in grey: what differs, differs by text and by pattern, line or weight; colour only goes with it.

mod board;
mod desks;
mod svg;
mod waits;

pub use board::board;
pub use waits::waits;

use svg::{Area, Element, Face, Side};

/// The width of a page. It fits a browser of 1,300 pixels, and A4 landscape.
const PAGE: f64 = 1300.0;
const MARGIN: f64 = 16.0;
const INNER: f64 = PAGE - 2.0 * MARGIN;

const TITLE_LINE: f64 = 30.0;
const SUMMARY_LINE: f64 = 20.0;
const BANNER: f64 = 26.0;
const AROUND_BANNER: f64 = 5.0;

// Every ink has a contrast of 4.5 : 1 at least to white and to the tints below. Blue and vermilion can be
// told apart by the colour-blind.
const INK: &str = "#1a1a1a";
const QUIET: &str = "#595959";
const BLUE: &str = "#00517f";
const ALARM: &str = "#9c3300";
/// For stripes on blue.
const PALE: &str = "#a9c8da";

const TITLE: Face = Face { class: "title", size: 20.0, mono: false, bold: true, fill: INK };
const PLAIN: Face = Face { class: "plain", size: 12.0, mono: false, bold: false, fill: INK };
const STRONG: Face = Face { class: "strong", size: 12.5, mono: false, bold: true, fill: INK };
const WARNING: Face = Face { class: "warning", size: 12.5, mono: false, bold: true, fill: ALARM };
const SMALL: Face = Face { class: "small", size: 10.5, mono: false, bold: false, fill: INK };
const SMALL_STRONG: Face = Face { class: "smallstrong", size: 10.5, mono: false, bold: true, fill: INK };
const HEAD: Face = Face { class: "head", size: 9.5, mono: false, bold: false, fill: QUIET };
const FIGURE: Face = Face { class: "figure", size: 10.0, mono: true, bold: true, fill: INK };
const COUNT: Face = Face { class: "count", size: 11.5, mono: true, bold: true, fill: INK };
const FAINT: Face = Face { class: "faint", size: 10.0, mono: true, bold: false, fill: QUIET };
const ON_DARK: Face = Face { class: "ondark", size: 9.5, mono: false, bold: true, fill: "#fff" };
const ON_LIGHT: Face = Face { class: "onlight", size: 9.5, mono: false, bold: true, fill: BLUE };
const ON_DAMAGE: Face = Face { class: "ondamage", size: 9.5, mono: false, bold: true, fill: ALARM };

const FACES: [&Face; 13] = [
    &TITLE,
    &PLAIN,
    &STRONG,
    &WARNING,
    &SMALL,
    &SMALL_STRONG,
    &HEAD,
    &FIGURE,
    &COUNT,
    &FAINT,
    &ON_DARK,
    &ON_LIGHT,
    &ON_DAMAGE,
];

/// Shapes, by class, with inks by name. On paper a picture fills one page.
const SHAPES: &str = "
.stow{max-width:100%;height:auto}
.stow .paper{fill:#fff}
.stow .hair{stroke:#d9d9d9;stroke-width:.6}
.stow .edge{stroke:#767676;stroke-width:1}
.stow .tint{fill:#eaf2f7}
.stow .value{fill:#fff8e6;stroke:#4d4d4d;stroke-width:.9}
.stow .held{fill:BLUE;stroke:BLUE;stroke-width:1}
.stow .meant{fill:#fff;stroke:BLUE;stroke-width:1.2;stroke-dasharray:3 2}
.stow .damage{fill:#fff;stroke:ALARM;stroke-width:1.6}
.stow .hatched{fill:url(#stow-hatch)}
.stow .striped{fill:url(#stow-stripe);stroke:BLUE;stroke-width:1}
.stow .light{fill:#d5e3ec;stroke:BLUE;stroke-width:1}
.stow .outline{fill:none;stroke:ALARM;stroke-width:.8}
.stow .done{fill:BLUE;stroke:BLUE;stroke-width:.8}
.stow .ahead{fill:#fff;stroke:#767676;stroke-width:.8}
.stow .panel-none{fill:#fafafa;stroke:#bfbfbf;stroke-width:.8}
.stow .panel-waiting{fill:#fff;stroke:#4d4d4d;stroke-width:1.2;stroke-dasharray:5 3}
.stow .panel-begun{fill:#fff;stroke:INK;stroke-width:1.6}
@page{size:A4 landscape;margin:8mm}
@media print{.stow{width:281mm;height:193mm}}
";

fn style() -> String {
    let inks = [("INK", INK), ("BLUE", BLUE), ("ALARM", ALARM)];
    let shapes = inks.iter().fold(SHAPES.to_string(), |shapes, (name, ink)| shapes.replace(name, ink));
    FACES.iter().fold(shapes, |style, face| style + &face.rule() + "\n")
}

/// A page that is filled from the top down.
struct Page {
    title: String,
    content: Vec<Element>,
    bottom: f64,
}

impl Page {
    /// A page with its heading.
    fn new(title: &str, summary: &str) -> Page {
        let mut page = Page { title: title.to_string(), content: Vec::new(), bottom: MARGIN / 2.0 };
        let heading = page.strip(TITLE_LINE).text(Side::Left, &TITLE, title);
        let summary = page.strip(SUMMARY_LINE).text(Side::Left, &PLAIN, summary);
        page.content.extend([heading, summary]);
        page
    }

    /// The next so many pixels, between the margins.
    fn strip(&mut self, height: f64) -> Area {
        let area = Area::new(MARGIN, self.bottom, INNER, height);
        self.bottom += height;
        area
    }

    fn draw(&mut self, element: Element) {
        self.content.push(element);
    }

    /// What must not be overlooked.
    fn banner(&mut self, text: &str) {
        self.strip(AROUND_BANNER);
        let area = self.strip(BANNER);
        self.strip(AROUND_BANNER);
        let ends = [area.span(0.0, BANNER), area.span(INNER - BANNER, BANNER)];
        let hatched = ends.map(|end| end.rect("hatched"));
        let words = area.inset(BANNER + 10.0, 0.0).text(Side::Left, &WARNING, text);
        self.draw(area.rect("damage"));
        self.content.extend(hatched);
        self.draw(words);
    }

    fn finish(self, description: &str) -> String {
        let height = self.bottom + MARGIN / 2.0;
        let page = Area::new(0.0, 0.0, PAGE, height);
        let head = [
            Element::new("title").text(&self.title),
            Element::new("desc").text(description),
            Element::new("style").raw(&style()),
            patterns(),
            page.rect("paper"),
        ];
        let root = Element::new("svg").with("xmlns", "http://www.w3.org/2000/svg").with("class", "stow");
        let root = root.with("role", "img").with("viewBox", format!("0 0 {PAGE} {height}"));
        let root = root.at("width", PAGE).at("height", height);
        format!("{}\n", root.children(head.into_iter().chain(self.content)))
    }
}

fn patterns() -> Element {
    let tile = |id, size: f64, paper: &str, ink: &str, width: f64| {
        let line = Element::new("rect").at("width", width).at("height", size).with("fill", ink);
        let ground = Element::new("rect").at("width", size).at("height", size).with("fill", paper);
        let tile = Element::new("pattern").with("id", id).at("width", size).at("height", size);
        let tile = tile.with("patternUnits", "userSpaceOnUse").with("patternTransform", "rotate(45)");
        tile.child(ground).child(line)
    };
    let (hatch, stripe) =
        (tile("stow-hatch", 6.0, "#fff", ALARM, 2.2), tile("stow-stripe", 7.0, BLUE, PALE, 1.5));
    Element::new("defs").children([hatch, stripe])
}

/// How a mark for desks looks.
#[derive(Clone, Copy)]
enum Mark {
    Held,
    Meant,
    Damaged,
}

/// The hatched part of a damaged mark.
const DAMAGE_STRIP: f64 = 5.0;

fn mark(area: Area, mark: Mark, text: &str, tip: &str) -> Element {
    let (class, face) = match mark {
        Mark::Held => ("held", &ON_DARK),
        Mark::Meant => ("meant", &ON_LIGHT),
        Mark::Damaged => ("damage", &ON_DAMAGE),
    };
    let (strip, hatched) = match mark {
        Mark::Damaged => (DAMAGE_STRIP, Some(area.span(0.0, DAMAGE_STRIP).rect("hatched"))),
        _ => (0.0, None),
    };
    let words = area.span(strip + 1.0, area.width - strip - 2.0).text(Side::Middle, face, text);
    let frame = area.rect(class).with("rx", 2);
    Element::new("g").tip(tip).children([frame].into_iter().chain(hatched).chain([words]))
}

/// The width of a cell that has a word: room for seven digits, or for 18.4e18.
const WORD: f64 = 47.75;

/// A word in its cell: a faint dot for 0, else bold and in a frame, with the whole number as the tip.
fn word_cell(area: Area, name: &str, value: u64) -> Element {
    let tip = format!("{name}: {value}");
    if value == 0 {
        return area.told(Side::Middle, &FAINT, "·", &tip);
    }
    let inside = area.inset(0.7, 1.0);
    let text = inside.text(Side::Middle, &FIGURE, &FIGURE.number(value, inside.width));
    Element::new("g").tip(&tip).children([inside.rect("value"), text])
}
