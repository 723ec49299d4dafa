//! The waits of a day as bars: by bay, and by desk.

use super::svg::{group, Area, Element, Side};
use super::{Page, COUNT, HEAD, INNER, PLAIN, STRONG};
use crate::language::names::Names;
use crate::say;
use zilpanud::{DayEnd, DaySums};

const GUTTER: f64 = 36.0;
const HALF: f64 = (INNER - GUTTER) / 2.0;

const GAP: f64 = 16.0;
const HEADING: f64 = 26.0;
/// How wide a heading is; what is said beside it is right of that.
const HEADING_WIDTH: f64 = 240.0;

const ROW: f64 = 18.0;
/// So many bays stand in one column across the page; more stand in two.
const ONE_COLUMN: usize = 12;

const LABEL: f64 = 150.0;
const LABEL_GAP: f64 = 8.0;
/// Room for the largest number with its commas.
const NUMBER: f64 = 190.0;
const NUMBER_GAP: f64 = 6.0;
/// Above and below a bar.
const AIR: f64 = 2.5;
/// A bar of a number other than 0 can be seen.
const LEAST: f64 = 1.5;

/// So many desks stand in a column, each with two bars.
const DESK_ROWS: usize = 4;
const DESK: f64 = 2.0 * ROW + 8.0;

/// How wide a sample of a bar is, and all that is said of it.
const SAMPLE: f64 = 40.0;
const SAMPLE_ITEM: f64 = 190.0;

const WAITED: &str = "striped";
const MOVED: &str = "light";

/// The waits of a day as a whole SVG document.
pub fn waits(sums: &DaySums, names: &Names, title: &str) -> String {
    let mut page = Page::new(title, &summary(sums));
    if sums.end != DayEnd::Read {
        page.banner(&sums.end.to_string());
    }
    page.strip(GAP / 2.0);
    bays(&mut page, sums, names);
    page.strip(GAP);
    desks(&mut page, sums);
    page.strip(GAP / 2.0);
    page.finish(&description(sums, names))
}

/// The bays that were waited for, with how often.
fn waited_for(sums: &DaySums) -> impl Iterator<Item = (usize, u64)> + '_ {
    sums.locks.iter().copied().enumerate().filter(|(_, waits)| *waits != 0)
}

/// The desks that had a turn: the turns that waited, and those that did not.
fn with_turns(sums: &DaySums) -> impl Iterator<Item = (usize, u64, u64)> + '_ {
    let turns = sums.waited.iter().zip(&sums.moved).enumerate();
    turns.map(|(desk, (waited, moved))| (desk, *waited, *moved)).filter(|turns| (turns.1, turns.2) != (0, 0))
}

/// `4 lines read · 13 turns waited, 38 did not`
fn summary(sums: &DaySums) -> String {
    let total = |turns: &[u64]| turns.iter().map(|turns| u128::from(*turns)).sum();
    let (waited, moved) = (total(&sums.waited), total(&sums.moved));
    let lines = if sums.lines == 1 { "line" } else { "lines" };
    let turns = if waited == 1 { "turn" } else { "turns" };
    let read = grouped(sums.lines.into());
    format!("{read} {lines} read · {} {turns} waited, {} did not", grouped(waited), grouped(moved))
}

/// `18,446,744,073,709,551,615`
fn grouped(number: u128) -> String {
    let digits = number.to_string();
    let mut text = String::new();
    for (at, digit) in digits.chars().enumerate() {
        if at != 0 && (digits.len() - at).is_multiple_of(3) {
            text.push(',');
        }
        text.push(digit);
    }
    text
}

fn heading(page: &mut Page, text: &str) -> Area {
    let area = page.strip(HEADING);
    page.draw(area.span(0.0, HEADING_WIDTH).text(Side::Left, &STRONG, text));
    page.draw(area.rule("edge"));
    page.strip(GAP / 2.0);
    area.span(HEADING_WIDTH, INNER - HEADING_WIDTH)
}

fn bays(page: &mut Page, sums: &DaySums, names: &Names) {
    let beside = heading(page, "Turns that waited, by bay");
    page.draw(beside.text(Side::Right, &HEAD, "bays that nobody waited for are left out"));
    let rows: Vec<(usize, u64)> = waited_for(sums).collect();
    let most = rows.iter().map(|(_, waits)| *waits).max().unwrap_or(0);
    if rows.is_empty() {
        let none = page.strip(ROW).text(Side::Left, &PLAIN, "no turn waited for a bay");
        return page.draw(none);
    }
    let (columns, width) = if rows.len() <= ONE_COLUMN { (1, INNER) } else { (2, HALF) };
    let height = rows.len().div_ceil(columns);
    let area = page.strip(height as f64 * ROW);
    for (column, rows) in rows.chunks(height).enumerate() {
        let column = area.span(column as f64 * (HALF + GUTTER), width);
        for (at, (bay, waits)) in rows.iter().enumerate() {
            let row = column.line(at as f64 * ROW, ROW);
            page.draw(row.span(0.0, LABEL).text(Side::Right, &PLAIN, &say::bay(names, *bay)));
            page.draw(bar(row, *waits, most, WAITED));
        }
    }
}

fn desks(page: &mut Page, sums: &DaySums) {
    let beside = heading(page, "Turns, by desk");
    page.draw(beside.text(Side::Right, &HEAD, "desks without a turn are left out"));
    for (at, (class, text)) in
        [(WAITED, "turns that waited"), (MOVED, "turns that did not")].into_iter().enumerate()
    {
        let item = beside.span(at as f64 * SAMPLE_ITEM, SAMPLE_ITEM);
        page.draw(item.span(0.0, SAMPLE).inset(0.0, 7.0).rect(class));
        page.draw(item.span(SAMPLE + LABEL_GAP, SAMPLE_ITEM - SAMPLE - LABEL_GAP).text(
            Side::Left,
            &PLAIN,
            text,
        ));
    }
    let rows: Vec<(usize, u64, u64)> = with_turns(sums).collect();
    let most = rows.iter().map(|(_, waited, moved)| *waited.max(moved)).max().unwrap_or(0);
    if rows.is_empty() {
        let none = page.strip(ROW).text(Side::Left, &PLAIN, "no desk had a turn");
        return page.draw(none);
    }
    let (height, width) = (rows.len().min(DESK_ROWS), if rows.len() <= DESK_ROWS { INNER } else { HALF });
    let area = page.strip(height as f64 * DESK);
    for (column, rows) in rows.chunks(DESK_ROWS).enumerate() {
        let column = area.span(column as f64 * (HALF + GUTTER), width);
        for (at, (desk, waited, moved)) in rows.iter().enumerate() {
            let rows = column.line(at as f64 * DESK, 2.0 * ROW);
            page.draw(rows.span(0.0, LABEL).text(Side::Right, &PLAIN, &format!("desk {desk}")));
            page.draw(bar(rows.line(0.0, ROW), *waited, most, WAITED));
            page.draw(bar(rows.line(ROW, ROW), *moved, most, MOVED));
        }
    }
}

/// A bar behind its label's room, and its number behind it. The longest has all the room.
fn bar(row: Area, value: u64, most: u64, class: &str) -> Element {
    let room = row.span(LABEL + LABEL_GAP, row.width - LABEL - LABEL_GAP - NUMBER);
    let length = match value {
        0 => 0.0,
        _ => (value as f64 / most.max(1) as f64 * room.width).clamp(LEAST, room.width),
    };
    let number = row.span(room.x - row.x + length + NUMBER_GAP, NUMBER - NUMBER_GAP);
    let number = number.text(Side::Left, &COUNT, &grouped(value.into()));
    let bar = (value != 0).then(|| room.span(0.0, length).inset(0.0, AIR).rect(class));
    let foot = Element::new("line").with("class", "edge").at("x1", room.x).at("x2", room.x);
    let foot = foot.at("y1", row.y).at("y2", row.y + row.height);
    group(bar.into_iter().chain([foot, number]))
}

/// For those who do not see it.
fn description(sums: &DaySums, names: &Names) -> String {
    let bays = waited_for(sums).map(|(bay, waits)| format!(" {}: {waits}.", say::bay(names, bay)));
    let desks = with_turns(sums)
        .map(|(desk, waited, moved)| format!(" Desk {desk}: {waited} turns waited, {moved} did not."));
    format!("{}; {}.{}", summary(sums), sums.end, bays.chain(desks).collect::<String>())
}

#[cfg(test)]
mod tests {
    use super::super::svg::tests::assert_well_formed;
    use super::*;
    use crate::language::names::Thing;

    const NONE: DaySums =
        DaySums { locks: [0; 64], waited: [0; 8], moved: [0; 8], lines: 0, end: DayEnd::Read };

    fn drawn(sums: &DaySums) -> String {
        let mut names = Names::default();
        names.give("<north>", Thing::Bay(3)).unwrap();
        let picture = waits(sums, &names, "a day");
        assert_well_formed(&picture);
        picture
    }

    #[test]
    fn a_day_without_turns() {
        let picture = drawn(&NONE);
        assert!(picture.contains(">no turn waited for a bay<") && picture.contains(">no desk had a turn<"));
    }

    #[test]
    fn every_number_is_written() {
        let mut sums = DaySums { lines: 4, end: DayEnd::Malformed { line: 4 }, ..NONE };
        (sums.locks[3], sums.waited[1], sums.moved[1], sums.moved[7]) = (13, 13, 65_535, 1);
        let picture = drawn(&sums);
        for text in
            [">bay 3 (&lt;north&gt;)<", ">13<", ">65,535<", ">desk 7<", ">line 4 is malformed (14), and"]
        {
            assert!(picture.contains(text), "{text}");
        }
        assert!(!picture.contains(">bay 4<") && !picture.contains(">desk 0<"));
    }

    #[test]
    fn the_largest_numbers() {
        let (locks, turns) = ([u64::MAX; 64], [u64::MAX; 8]);
        let end = DayEnd::NoBoard;
        let picture = drawn(&DaySums { locks, waited: turns, moved: turns, lines: u64::MAX, end });
        assert_eq!(picture.matches(">18,446,744,073,709,551,615<").count(), 64 + 8 + 8);
        assert!(picture.contains("147,573,952,589,676,412,920 turns waited"));
    }

    #[test]
    fn digits_stand_in_threes() {
        assert_eq!(
            [0, 999, 1_000, 123_456, 1_234_567].map(grouped),
            ["0", "999", "1,000", "123,456", "1,234,567"]
        );
    }
}
