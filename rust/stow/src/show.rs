//! `stow show`: what an image file shows, in words.

use crate::explain::noted;
use crate::language::names::Names;
use crate::look::{Bay, Begun, Desk, Holder, Look, OpenTicket};
use crate::refusal::of_image;
use crate::say::{arguments, bay, bays, counted, desks, step, word};
use zilpanud::Needs;

/// `14 turns`, `33 to 41 turns`
pub fn turns(needs: Needs) -> String {
    match needs.fewest == needs.most {
        true => counted(needs.fewest, "turn"),
        false => format!("{} to {} turns", needs.fewest, needs.most),
    }
}

/// Rows in columns that are as wide as they must be.
fn columns(rows: &[[String; 3]]) -> String {
    let width = |column: usize| rows.iter().map(|row| row[column].chars().count()).max().unwrap_or(0);
    let (first, second) = (width(0), width(1));
    let line = |[a, b, c]: &[String; 3]| format!("  {a:first$}  {b:second$}  {c}");
    rows.iter().map(|row| line(row).trim_end().to_string() + "\n").collect()
}

fn holder(bay: &Bay) -> String {
    match bay.holder {
        Holder::Free => "free".to_string(),
        Holder::Desk(desk) => format!("desk {desk} has it"),
        Holder::Nobody(word) => format!("its lock word is {word}, which is no desk's"),
    }
}

/// Those who mean to have a bay and have it not.
fn others(bay: &Bay) -> String {
    let has = |desk: &usize| bay.holder == Holder::Desk(*desk);
    let waiting: Vec<usize> = bay.intended_by.iter().copied().filter(|desk| !has(desk)).collect();
    let holder_means = bay.intended_by.iter().any(has);
    let unmeant = match bay.holder {
        Holder::Desk(_) if !holder_means => "it does not mean to; ",
        _ => "",
    };
    match waiting.len() {
        0 => unmeant.trim_end_matches("; ").to_string(),
        1 => format!("{unmeant}{} means to", desks(&waiting)),
        _ => format!("{unmeant}{} mean to", desks(&waiting)),
    }
}

fn words(look: &Look, names: &Names) -> Vec<String> {
    let numbered = look.bays.iter().flat_map(|bay| bay.words).zip(0..);
    let others = numbered.filter(|(value, _)| *value != 0);
    others.map(|(value, number)| format!("  {} is {value}\n", word(names, number))).collect()
}

fn desk_line(names: &Names, number: usize, desk: &Desk) -> String {
    let finished = match desk.finished {
        0 => "no ticket finished yet".to_string(),
        number => format!("ticket {number} is finished"),
    };
    match &desk.ticket {
        None => format!("  desk {number}: idle; {finished}\n"),
        Some(_) if desk.is_ending() => {
            format!("  desk {number}: {finished}, and the last turns of its end are to be made\n")
        }
        Some(ticket) => {
            format!("  desk {number}: {}; {finished}\n", ticket_line(ticket))
                + &ticket_lines(names, desk, ticket)
        }
    }
}

fn ticket_line(ticket: &OpenTicket) -> String {
    let OpenTicket { number, steps, begun } = ticket;
    match begun {
        None => format!("ticket {number} of {} steps is handed in and not begun", steps.len()),
        Some(Begun { step, .. }) => {
            format!("ticket {number} is begun, step {step} of {} is recorded", steps.len())
        }
    }
}

fn ticket_lines(names: &Names, desk: &Desk, ticket: &OpenTicket) -> String {
    let mut lines = vec![];
    if let Some(Begun { step: at, noted: entry, left }) = &ticket.begun {
        let instruction = usize::try_from(*at).ok().and_then(|at| ticket.steps.get(at));
        let words = instruction.map_or("a step that the ticket has not".to_string(), |one| step(names, *one));
        lines.push(format!("step {at}: {words}; it noted '{}'", noted(names, entry.address, entry.value)));
        lines.push(match left {
            Some(needs) => format!("after a recovery {} are left", turns(*needs)),
            None => "its record is not sound".to_string(),
        });
    }
    lines.push(format!("means to have {}; owns {}", bays(names, desk.intent), bays(names, desk.owned)));
    let own = arguments(&desk.own);
    if !own.is_empty() {
        lines.push(format!("own words{own}"));
    }
    lines.iter().map(|line| format!("    {line}\n")).collect()
}

/// All that a board shows.
pub fn text(look: &Look, names: &Names) -> String {
    let mut text = format!("board of {}\n", counted(look.desks.len() as u64, "desk"));
    if let Some(cause) = look.unsound {
        let told = of_image(cause, names);
        text += &format!("a recovery is refused with {}: {}; {}\n", cause.number(), told.what, told.remedy);
    }
    for (number, desk) in look.desks.iter().enumerate() {
        text += &desk_line(names, number, desk);
    }
    let held = look
        .bays
        .iter()
        .enumerate()
        .filter(|(_, bay)| bay.holder != Holder::Free || !bay.intended_by.is_empty());
    let rows: Vec<[String; 3]> =
        held.map(|(number, one)| [bay(names, number), holder(one), others(one)]).collect();
    text += if rows.is_empty() { "all bays are free\n" } else { "bays that are held or meant\n" };
    text += &columns(&rows);
    let words = words(look, names);
    text += if words.is_empty() { "all board words are 0\n" } else { "board words other than 0\n" };
    text += &words.concat();
    text
}
