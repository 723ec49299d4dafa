//! The board as a picture: 64 bays by 8 words in two halves, a panel for each desk, and what the marks mean.

use super::desks::{panel, runs, standing, step_bar, PANEL};
use super::svg::{group, Area, Element, Side};
use super::{mark, word_cell, Mark, Page, FAINT, FIGURE, HEAD, INNER, ON_LIGHT, SMALL, SMALL_STRONG, WORD};
use crate::language::names::{Names, Thing};
use crate::look::{Bay, Desk, Holder, Look, OpenTicket};
use crate::refusal::of_image;
use crate::say;
use zilpanud::Cause;

/// Two halves side by side, of so many bays each.
const HALF_BAYS: usize = 32;
const GUTTER: f64 = 16.0;
const HALF: f64 = (INNER - GUTTER) / 2.0;

const ROW: f64 = 16.0;
const HEAD_LINE: f64 = 18.0;
const GAP: f64 = 10.0;

// The columns of a half: where each begins, and how wide it is.
const NUMBER: (f64, f64) = (0.0, 16.0);
const NAME: (f64, f64) = (21.0, 76.0);
const HELD: (f64, f64) = (99.0, 50.0);
const MEANT: (f64, f64) = (152.0, 62.0);
const FIRST: (f64, f64) = (214.0, 26.0);
const WORDS: f64 = HALF - 8.0 * WORD;

/// Panels and what the marks mean stand in columns.
const COLUMNS: usize = 4;
const COLUMN_GAP: f64 = 12.0;
const COLUMN: f64 = (INNER - COLUMN_GAP * (COLUMNS - 1) as f64) / COLUMNS as f64;
const LEGEND_LINE: f64 = 20.0;
const SAMPLE: f64 = 52.0;

/// The board as a whole SVG document.
pub fn board(look: &Look, names: &Names, title: &str) -> String {
    let mut page = Page::new(title, &summary(look));
    if let Some(cause) = look.unsound {
        page.banner(&refused(names, cause));
    }
    page.strip(GAP / 2.0);
    let (heads, bays) = (page.strip(HEAD_LINE), page.strip(ROW * HALF_BAYS as f64));
    let damaged = look.unsound.filter(|cause| matches!(cause, Cause::Lock { .. })).and_then(Cause::detail);
    for (half, rows) in look.bays.chunks(HALF_BAYS).enumerate() {
        let left = half as f64 * (HALF + GUTTER);
        page.draw(column_heads(heads.span(left, HALF)));
        for (at, bay) in rows.iter().enumerate() {
            let number = half * HALF_BAYS + at;
            let area = bays.span(left, HALF).line(ROW * at as f64, ROW);
            page.draw(bay_row(area, bay, names, number, damaged == Some(number as u64)));
        }
    }
    named_words(&mut page, look, names);
    desks(&mut page, look, names);
    legend(&mut page);
    page.finish(&description(look, names))
}

/// `2 desks, 1 with a ticket begun; 3 bays held; 5 words other than 0`
fn summary(look: &Look) -> String {
    let begun = |ticket: &OpenTicket| ticket.begun.is_some();
    let begun = |desk: &&Desk| desk.ticket.as_ref().is_some_and(begun) && !desk.is_ending();
    let begun = look.desks.iter().filter(begun).count();
    let held = look.bays.iter().filter(|bay| matches!(bay.holder, Holder::Desk(_))).count();
    let words = look.bays.iter().flat_map(|bay| bay.words).filter(|word| *word != 0).count();
    let (desks, held) = (say::counted(look.desks.len() as u64, "desk"), say::counted(held as u64, "bay"));
    let words = say::counted(words as u64, "word");
    format!("{desks}, {begun} with a ticket begun · {held} held · {words} of 512 other than 0")
}

/// Why a recovery would be refused.
fn refused(names: &Names, cause: Cause) -> String {
    format!("a recovery is refused with {}: {}", cause.number(), of_image(cause, names).what)
}

fn column_heads(area: Area) -> Element {
    let head = |(from, width), side, text| area.span(from, width).text(side, &HEAD, text);
    let fixed = [
        head((NUMBER.0, NAME.0 + NAME.1), Side::Left, "bay"),
        head(HELD, Side::Middle, "held by"),
        head(MEANT, Side::Middle, "meant by"),
        head(FIRST, Side::Right, "word"),
    ];
    let offsets = (0..8).map(|at| head((WORDS + WORD * at as f64, WORD), Side::Middle, OFFSETS[at]));
    group(fixed.into_iter().chain(offsets).chain([area.rule("edge")]))
}

/// A word's number is that of its row's first word, and this.
const OFFSETS: [&str; 8] = ["+0", "+1", "+2", "+3", "+4", "+5", "+6", "+7"];

fn bay_row(row: Area, bay: &Bay, names: &Names, number: usize, damaged: bool) -> Element {
    let column = |(from, width)| row.span(from, width);
    let (figure, face) = if bay.is_bare() { (&FAINT, &SMALL) } else { (&FIGURE, &SMALL_STRONG) };
    let label = say::bay(names, number);
    let name = names.shown(Thing::Bay(number as u16)).unwrap_or("");
    let mut parts = Vec::new();
    if bay.holder != Holder::Free || !bay.intended_by.is_empty() {
        parts.push(row.inset(0.0, 0.3).rect("tint"));
    }
    if damaged {
        parts.push(column(NUMBER).inset(0.0, 1.0).rect("damage"));
    }
    parts.push(column(NUMBER).inset(1.0, 0.0).told(Side::Right, figure, &number.to_string(), &label));
    if !name.is_empty() {
        parts.push(column(NAME).told(Side::Left, face, name, &label));
    }
    parts.extend(holder_mark(column(HELD).inset(0.0, 1.5), bay, &label));
    parts.extend(meant_mark(column(MEANT).inset(0.0, 1.5), bay, &label));
    parts.push(column(FIRST).text(Side::Right, &FAINT, &(8 * number).to_string()));
    for (at, value) in bay.words.into_iter().enumerate() {
        let cell = row.span(WORDS + WORD * at as f64, WORD);
        parts.push(word_cell(cell, &say::word(names, (8 * number + at) as u16), value));
    }
    parts.push(row.rule("hair"));
    group(parts)
}

/// The board words that have names, each with its value: on paper nobody can point at a cell.
fn named_words(page: &mut Page, look: &Look, names: &Names) {
    let value = |word: u16| Some(look.bays.get(word as usize / 8)?.words[word as usize % 8]);
    let rows = names.words().filter_map(|(word, name)| Some((word, name, value(word)?)));
    let rows: Vec<(u16, &str, u64)> = rows.collect();
    if !rows.is_empty() {
        page.strip(GAP);
    }
    for row in rows.chunks(COLUMNS) {
        let strip = page.strip(ROW);
        for (column, (word, name, value)) in row.iter().enumerate() {
            let slot = strip.span(column as f64 * (COLUMN + COLUMN_GAP), COLUMN);
            let (number, cell) = (slot.span(0.0, WORD), slot.span(WORD + 6.0, WORD));
            let label = slot.span(2.0 * WORD + 14.0, COLUMN - 2.0 * WORD - 14.0);
            page.draw(number.text(Side::Right, &FAINT, &format!("word {word}")));
            page.draw(word_cell(cell, &say::word(names, *word), *value));
            page.draw(label.text(Side::Left, &SMALL, name));
        }
    }
}

fn holder_mark(area: Area, bay: &Bay, label: &str) -> Option<Element> {
    Some(match bay.holder {
        Holder::Free => return None,
        Holder::Desk(desk) if bay.intended_by.contains(&desk) => {
            mark(area, Mark::Held, &format!("desk {desk}"), &format!("{label} is held by desk {desk}"))
        }
        Holder::Desk(desk) => {
            let tip = format!("{label}: its lock word names desk {desk}, which does not mean to have it");
            mark(area, Mark::Damaged, &format!("desk {desk}"), &tip)
        }
        Holder::Nobody(word) => {
            let tip = format!("{label}: its lock word is {word}, which names no desk");
            mark(area, Mark::Damaged, "nobody", &tip)
        }
    })
}

/// The desks that mean to have it and have it not.
fn meant_mark(area: Area, bay: &Bay, label: &str) -> Option<Element> {
    let others = |desk: &usize| bay.holder != Holder::Desk(*desk);
    let others: Vec<usize> = bay.intended_by.iter().copied().filter(others).collect();
    let text = match others[..] {
        [] => return None,
        [desk] => format!("desk {desk}"),
        _ => runs(&others).join(","),
    };
    let spelled = format!("desks {text}");
    let text = if others.len() > 1 && ON_LIGHT.width(&spelled) < area.width { spelled } else { text };
    Some(mark(area, Mark::Meant, &text, &format!("{label} is meant by {}", say::desks(&others))))
}

fn desks(page: &mut Page, look: &Look, names: &Names) {
    page.strip(GAP + 2.0);
    let unsound = look.unsound.filter(|cause| matches!(cause, Cause::Record { .. })).and_then(Cause::detail);
    for (line, desks) in look.desks.chunks(COLUMNS).enumerate() {
        let strip = page.strip(PANEL);
        for (column, desk) in desks.iter().enumerate() {
            let number = line * COLUMNS + column;
            let area = strip.span(column as f64 * (COLUMN + COLUMN_GAP), COLUMN);
            page.draw(panel(area, desk, names, number, unsound == Some(number as u64)));
        }
        page.strip(GAP);
    }
}

/// What the marks mean.
fn legend(page: &mut Page) {
    let lines = [page.strip(LEGEND_LINE), page.strip(LEGEND_LINE)];
    let slot = |line: usize, column: usize| lines[line].span(column as f64 * (COLUMN + COLUMN_GAP), COLUMN);
    let item = |line, column, sample: &dyn Fn(Area) -> Element, text: &str| {
        let words = slot(line, column).span(SAMPLE + 8.0, COLUMN - SAMPLE - 8.0);
        group([
            sample(slot(line, column).span(0.0, SAMPLE).inset(0.0, 3.0)),
            words.text(Side::Left, &SMALL, text),
        ])
    };
    let cell = |value| move |area: Area| word_cell(area.span(0.0, WORD), "a word", value);
    let items = [
        item(0, 0, &|area| mark(area, Mark::Held, "desk 0", "held"), "the desk that holds the bay"),
        item(
            0,
            1,
            &|area| mark(area, Mark::Meant, "desk 1", "meant"),
            "means to have the bay, and has it not",
        ),
        item(0, 2, &|area| mark(area, Mark::Damaged, "desk 2", "damaged"), "the lock word is not sound"),
        item(
            0,
            3,
            &|area| step_bar(area.inset(0.0, 4.0), 5, Some(2)),
            "steps recorded, from step 0 on; to come",
        ),
        item(1, 0, &cell(7), "a word other than 0"),
        item(1, 1, &cell(0), "a word that is 0"),
        item(1, 2, &cell(u64::MAX), "shortened: 18.4 × 10^18; point at it"),
        item(1, 3, &|area| area.text(Side::Left, &FAINT, "24 +3"), "row of word 24, column +3: word 27"),
    ];
    page.draw(group(items));
}

/// For those who do not see it.
fn description(look: &Look, names: &Names) -> String {
    let mut text = format!("{}.", summary(look));
    if let Some(cause) = look.unsound {
        text += &format!(" {}.", refused(names, cause));
    }
    for (number, desk) in look.desks.iter().enumerate() {
        text += &format!(" Desk {number}: {}.", standing(desk));
    }
    for (number, bay) in look.bays.iter().enumerate().filter(|(_, bay)| bay.holder != Holder::Free) {
        let label = say::bay(names, number);
        text += &match bay.holder {
            Holder::Desk(desk) => format!(" {label} is held by desk {desk}."),
            Holder::Nobody(word) => format!(" {label} has the lock word {word}, which names no desk."),
            Holder::Free => String::new(),
        };
    }
    text
}

#[cfg(test)]
mod tests {
    use super::super::svg::tests::assert_well_formed;
    use super::*;
    use crate::look::Begun;
    use zilpanud::code::{acquire, finish, own, release, set, sub};
    use zilpanud::{cell_index, image_len, owner_index, Entry, Needs};

    const SECTION: [u64; 5] = [acquire(3), set(24, 5), sub(24, 24, own(0)), release(3), finish()];

    /// Desk 0 holds bay 3 at step 2, and desk 1 means to have it.
    fn in_the_midst() -> Vec<u64> {
        let mut image = vec![0; image_len(2)];
        let mut cursors = zilpanud::format(&mut image, 2).unwrap();
        for (desk, turns) in [(0, 13), (1, 3)] {
            zilpanud::submit(&mut image, &mut cursors, desk, 7, &[2; 8], &SECTION).unwrap();
            for _ in 0..turns {
                zilpanud::turn(&mut image, &mut cursors, desk).unwrap();
            }
        }
        image
    }

    fn drawn(image: &[u64], names: &Names) -> String {
        let picture = board(&Look::of(image).unwrap(), names, "a & b <c>");
        assert_well_formed(&picture);
        picture
    }

    #[test]
    fn a_move_is_told() {
        let mut names = Names::default();
        names.give("<&\"'>", Thing::Bay(3)).unwrap();
        names.give("shed", Thing::Word(24)).unwrap();
        let picture = drawn(&in_the_midst(), &names);
        for text in [
            "<title>a &amp; b &lt;c&gt;</title>",
            ">&lt;&amp;&quot;&#39;&gt;</text>",
            "bay 3 (&lt;&amp;&quot;&#39;&gt;) is held by desk 0",
            ") is meant by desk 1<",
            ">step 2 of 5: shed := shed - own 0</text>",
            "handed in, not begun",
            "<title>word 24 (shed): 5</title>",
            ">word 24</text>",
            ">shed</text>",
        ] {
            assert!(picture.contains(text), "{text}");
        }
        assert!(!picture.contains("refused"));
    }

    #[test]
    fn every_word_other_than_0_is_there() {
        let mut image = in_the_midst();
        let value = |word: usize| u64::MAX / (word as u64 + 3);
        (0..512).for_each(|word| image[cell_index(word)] = value(word));
        let picture = drawn(&image, &Names::default());
        for word in 0..512 {
            assert!(picture.contains(&format!("<title>word {word}: {}</title>", value(word))));
        }
        assert_eq!(picture.matches(">·<").count(), 1); // what the marks mean
    }

    #[test]
    fn a_refused_recovery_is_told() {
        let mut image = in_the_midst();
        image[owner_index(9)] = 77;
        let picture = drawn(&image, &Names::default());
        assert!(picture.contains(">a recovery is refused with 13: two desks are owed bay 9, or"));
        assert!(picture.contains("bay 9: its lock word is 77, which names no desk"));
        image[image_len(1) + 1] = 99; // desk 1's place
        let picture = drawn(&image, &Names::default());
        assert!(picture.contains(">a recovery is refused with 12: desk 1&#39;s record is not sound<"));
        assert!(picture.contains(">step 98, and the ticket has 5<"));
    }

    /// Between the last two stores of an end, a desk has a ticket that is done.
    #[test]
    fn a_ticket_that_ends_is_not_handed_in() {
        let mut image = vec![0; image_len(1)];
        let mut cursors = zilpanud::format(&mut image, 1).unwrap();
        zilpanud::submit(&mut image, &mut cursors, 0, 7, &[0; 8], &SECTION).unwrap();
        while !Look::of(&image).unwrap().desks[0].is_ending() {
            zilpanud::turn(&mut image, &mut cursors, 0).unwrap();
        }
        let picture = drawn(&image, &Names::default());
        assert!(picture.contains(">finished, at its last turns<") && !picture.contains("handed in"));
    }

    #[test]
    fn anything_is_drawn() {
        let mut names = Names::default();
        (0..64).for_each(|bay| {
            names.give(&format!("\u{0}\u{301}船 {bay} <").repeat(9), Thing::Bay(bay)).unwrap()
        });
        let begun = |step, left| Some(Begun { step, noted: Entry { address: u64::MAX, value: 0 }, left });
        let most = Needs { fewest: 0, most: u64::MAX };
        let odd = [(0, None), (1, begun(0, None)), (0, begun(u64::MAX, None)), (64, begun(63, Some(most)))];
        let desk = |(steps, begun)| Desk {
            ticket: Some(OpenTicket { number: u64::MAX, steps: vec![u64::MAX; steps], begun }),
            finished: u64::MAX,
            intent: u64::MAX,
            owned: u64::MAX / 3,
            own: [u64::MAX; 8],
        };
        let holders = [Holder::Nobody(u64::MAX), Holder::Desk(7), Holder::Desk(usize::MAX), Holder::Free];
        let bay = |at: usize| {
            let (holder, intended_by) = (holders[at % 4], (0..at % 9).collect());
            Bay { holder, intended_by, words: [u64::MAX; 8] }
        };
        let causes =
            [None, Some(Cause::Record { worker: 99 }), Some(Cause::Lock { lock: 5 }), Some(Cause::Image)];
        for unsound in causes {
            let desks = [odd, odd].concat().into_iter().map(desk).collect();
            let look = Look { desks, bays: (0..64).map(bay).collect(), unsound };
            assert_well_formed(&board(&look, &names, &"\u{202e}\u{ffff}".repeat(99)));
        }
    }
}
