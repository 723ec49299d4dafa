//! A desk's panel: its ticket, how far that has come, its bays and its own words.

use super::svg::{group, Area, Element, Side};
use super::{word_cell, DAMAGE_STRIP, FIGURE, HEAD, ON_DAMAGE, SMALL, SMALL_STRONG, STRONG, WORD};
use crate::language::names::Names;
use crate::look::{Begun, Desk, OpenTicket};
use crate::say;
use zilpanud::code::own;

/// The height of a panel.
pub const PANEL: f64 = 144.0;

const PAD: f64 = 12.0;

// The lines of a panel: where each begins, and how high it is.
const TOP: (f64, f64) = (4.0, 20.0);
const LABELS: (f64, f64) = (25.0, 12.0);
const VALUES: (f64, f64) = (36.0, 15.0);
const STEP: (f64, f64) = (53.0, 15.0);
const BAR: (f64, f64) = (69.0, 5.0);
const MEANS: (f64, f64) = (78.0, 14.0);
const OWNS: (f64, f64) = (91.0, 14.0);
const OWN: (f64, f64) = (106.0, 15.0);
const OWN_GAP: f64 = 1.0;

/// How wide the desk's number is at the top, left of how it stands.
const DESK: f64 = 60.0;

/// What stands left of bays.
const LABEL: f64 = 80.0;

/// Between two steps of a bar.
const STEP_GAP: f64 = 2.0;
/// Steps that are narrower than this run together.
const STEP_LEAST: f64 = 8.0;

/// Own words stand in two lines of four, each behind its number.
const OWN_COLUMNS: usize = 4;
const OWN_LABEL: f64 = 38.0;
const OWN_NUMBER: f64 = 8.0;

/// A desk's panel. It is `damaged` if a recovery is refused for its record.
pub fn panel(area: Area, desk: &Desk, names: &Names, number: usize, damaged: bool) -> Element {
    let begun = desk.ticket.as_ref().map(|ticket| ticket.begun);
    let (class, how) = match begun {
        None => ("panel-none", "no ticket"),
        Some(_) if desk.is_ending() => ("panel-none", "finished, at its last turns"),
        Some(None) => ("panel-waiting", "handed in, not begun"),
        Some(Some(_)) => ("panel-begun", "begun"),
    };
    let class = if damaged { "damage" } else { class };
    let inner = area.inset(PAD, 0.0);
    let line = |(from, height)| inner.line(from, height);
    let mut parts = vec![area.rect(class).with("rx", if damaged { 0 } else { 3 })];
    if damaged {
        parts.push(area.span(0.0, DAMAGE_STRIP).rect("hatched"));
    }
    parts.push(line(TOP).text(Side::Left, &STRONG, &format!("desk {number}")));
    let state = line(TOP).span(DESK, inner.width - DESK);
    parts.push(match begun {
        _ if damaged => state.text(Side::Right, &ON_DAMAGE, &format!("not sound; {how}")),
        None => state.text(Side::Right, &HEAD, how),
        Some(None) => state.text(Side::Right, &SMALL, how),
        Some(Some(_)) => state.text(Side::Right, &SMALL_STRONG, how),
    });
    parts.push(numbers(line(LABELS), line(VALUES), desk));
    if let Some(ticket) = &desk.ticket {
        let ended = desk.is_ending().then(|| (ticket.steps.len() as u64).saturating_sub(1));
        let recorded = ticket.begun.map(|begun| begun.step).or(ended);
        parts.push(line(STEP).text(Side::Left, &SMALL, &progress(ticket, recorded, names)));
        parts.push(step_bar(line(BAR), ticket.steps.len(), recorded));
    }
    for (place, label, mask) in [(MEANS, "means to have", desk.intent), (OWNS, "owns", desk.owned)] {
        parts.push(line(place).span(0.0, LABEL).text(Side::Left, &HEAD, label));
        parts.push(bays(beside(line(place)), names, mask));
    }
    parts.push(own_words(line(OWN), desk, names));
    group(parts)
}

/// Bays with their names; where those do not fit, by their numbers alone.
fn bays(area: Area, names: &Names, mask: u64) -> Element {
    let whole = say::bays(names, mask);
    let face = if mask == 0 { &HEAD } else { &SMALL };
    if face.width(&whole) <= area.width {
        return area.text(Side::Left, face, &whole);
    }
    let numbers: Vec<usize> = say::members(mask).collect();
    let kind = if numbers.len() == 1 { "bay" } else { "bays" };
    area.told(Side::Left, face, &format!("{kind} {}", runs(&numbers).join(", ")), &whole)
}

/// What is right of a label.
fn beside(line: Area) -> Area {
    line.span(LABEL, line.width - LABEL)
}

/// The numbers that a desk has: of its ticket, of the last one finished, of the turns that are left.
fn numbers(labels: Area, values: Area, desk: &Desk) -> Element {
    let width = values.width / 3.0;
    let shown = |number: u64| (FIGURE.number(number, width - 2.0), number.to_string());
    let none = || ("–".to_string(), "none".to_string());
    let left = match desk.ticket.as_ref().and_then(|ticket| ticket.begun) {
        None => none(),
        Some(Begun { left: Some(needs), .. }) if needs.fewest == needs.most => shown(needs.most),
        Some(Begun { left: Some(needs), .. }) => {
            let whole = format!("{} to {}", needs.fewest, needs.most);
            (whole.clone(), whole)
        }
        Some(_) => ("not known".to_string(), "the record is not sound".to_string()),
    };
    let ticket = desk.ticket.as_ref().map_or_else(none, |ticket| shown(ticket.number));
    let columns = [("ticket", ticket), ("last finished", shown(desk.finished)), ("turns left", left)];
    group(columns.into_iter().enumerate().flat_map(|(at, (label, (text, whole)))| {
        let place = |line: Area| line.span(width * at as f64, width - 2.0);
        let value = place(values).told(Side::Left, &FIGURE, &text, &format!("{label}: {whole}"));
        [place(labels).text(Side::Left, &HEAD, label), value]
    }))
}

/// `step 3 of 8: word 24 := 5`
fn progress(ticket: &OpenTicket, recorded: Option<u64>, names: &Names) -> String {
    let count = ticket.steps.len();
    let recorded = recorded.map(|step| (step, step_at(ticket, step)));
    match (recorded, ticket.steps.first()) {
        (Some((step, Some(instruction))), _) => {
            format!("step {step} of {count}: {}", say::step(names, instruction))
        }
        (Some((step, None)), Some(_)) => format!("step {step}, and the ticket has {count}"),
        (Some((step, None)), None) => format!("step {step}; none can be read"),
        (None, Some(first)) => {
            format!("{}, first {}", say::counted(count as u64, "step"), say::step(names, *first))
        }
        (None, None) => "no step of the ticket can be read".to_string(),
    }
}

fn step_at(ticket: &OpenTicket, step: u64) -> Option<u64> {
    usize::try_from(step).ok().and_then(|step| ticket.steps.get(step).copied())
}

/// How a desk stands, in a line.
pub fn standing(desk: &Desk) -> String {
    match &desk.ticket {
        None => "no ticket".to_string(),
        Some(OpenTicket { number, .. }) if desk.is_ending() => format!("ticket {number} is finished"),
        Some(OpenTicket { number, begun: None, .. }) => format!("ticket {number} is handed in and not begun"),
        Some(OpenTicket { number, begun: Some(begun), steps }) => {
            format!("ticket {number} is begun, at step {} of {}", begun.step, steps.len())
        }
    }
}

/// A part for each step; those up to the one recorded last are filled. It is hatched where the ticket
/// has not that step.
pub fn step_bar(area: Area, count: usize, recorded: Option<u64>) -> Element {
    let recorded = recorded.map(|step| usize::try_from(step).unwrap_or(usize::MAX));
    if count == 0 || recorded.is_some_and(|step| step >= count) {
        return group([area.rect("hatched"), area.rect("outline")]);
    }
    let part = area.width / count as f64;
    let done = recorded.map_or(0, |step| step + 1);
    let parts =
        |from: usize, to: usize, width: f64| area.span(part * from as f64, part * (to - from) as f64 - width);
    if part < STEP_LEAST {
        return group([parts(0, count, 0.0).rect("ahead"), parts(0, done, 0.0).rect("done")]);
    }
    let class = |step| if step < done { "done" } else { "ahead" };
    group((0..count).map(|step| parts(step, step + 1, STEP_GAP).rect(class(step))))
}

/// Rising numbers, three and more that follow each other as one: `0-2`, `4`, `5`
pub fn runs(numbers: &[usize]) -> Vec<String> {
    let runs = numbers.chunk_by(|before, after| before + 1 == *after).flat_map(|run| match run {
        [first, _, .., last] => vec![format!("{first}-{last}")],
        short => short.iter().map(usize::to_string).collect(),
    });
    runs.collect()
}

fn own_words(line: Area, desk: &Desk, names: &Names) -> Element {
    let below = line.line(line.height + OWN_GAP, line.height);
    let label = |line: Area, text| line.span(0.0, OWN_LABEL).text(Side::Left, &HEAD, text);
    if desk.own == [0; 8] {
        return group([
            line.text(Side::Left, &HEAD, "own words"),
            beside(line).text(Side::Left, &HEAD, "all 0"),
        ]);
    }
    let width = (line.width - OWN_LABEL) / OWN_COLUMNS as f64;
    let cells = desk.own.iter().enumerate().flat_map(|(at, value)| {
        let row = if at < OWN_COLUMNS { line } else { below };
        let slot = row.span(OWN_LABEL + (at % OWN_COLUMNS) as f64 * width, width);
        let number = slot.span(0.0, OWN_NUMBER).text(Side::Left, &HEAD, &at.to_string());
        let cell = slot.span(OWN_NUMBER, WORD);
        [number, word_cell(cell, &say::word(names, own(at as u16)), *value)]
    });
    group([label(line, "own"), label(below, "words")].into_iter().chain(cells))
}

#[cfg(test)]
mod tests {
    use super::*;

    #[test]
    fn numbers_that_follow_are_one_run() {
        let of = |numbers: &[usize]| runs(numbers).join(",");
        assert_eq!([of(&[]), of(&[3]), of(&[3, 4]), of(&[0, 1, 2, 4, 5, 7])], ["", "3", "3,4", "0-2,4,5,7"]);
    }

    #[test]
    fn steps_that_are_done_are_filled() {
        let area = Area::new(0.0, 0.0, 300.0, 5.0);
        let count =
            |steps, recorded, class: &str| step_bar(area, steps, recorded).to_string().matches(class).count();
        assert_eq!((count(8, Some(2), "done"), count(8, Some(2), "ahead")), (3, 5));
        assert_eq!((count(8, None, "done"), count(8, None, "ahead")), (0, 8));
        for (steps, recorded) in [(0, None), (0, Some(0)), (8, Some(8)), (8, Some(u64::MAX))] {
            assert_eq!(count(steps, recorded, "hatched"), 1);
        }
    }
}
