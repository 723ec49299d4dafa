//! Frame lines in words: the other way round. What is written here and read again is the same frame.

use super::names::Names;
use super::KEYWORDS;
use crate::frame::{Frame, Ticket};
use crate::say::{arguments, counted, step_to};
use zilpanud::code::{fields_of, Kind};

/// Whether lines begin with a day's first line, and not with any frame: two digits do.
pub fn is_day(first: &[u8]) -> bool {
    first.len() == 2
}

/// A frame in words, each line ended.
pub fn frame_words(frame: &Frame, names: &Names) -> String {
    match frame {
        Frame::Board { desks } => format!("board of {}\n", counted(*desks as u64, "desk")),
        Frame::HandIn(ticket) => ticket_words(ticket, names),
        Frame::Turns { desk, turns } => format!("desk {desk} turns {turns}\n"),
        Frame::Cut => "cut\n".to_string(),
        Frame::Rounds { rounds } => format!("rounds {rounds}\n"),
    }
}

/// A label that is no keyword and no name: `s5`, or with more letters.
fn label(names: &Names, step: u16) -> String {
    let mut label = format!("s{step}");
    while names.get(&label).is_some() || KEYWORDS.contains(&label.as_str()) {
        label.insert(0, 's');
    }
    label
}

/// The step that an instruction skips to.
fn skips_to(instruction: u64) -> Option<u16> {
    let (kind, [_, target, rest]) = fields_of(instruction);
    (kind == Kind::Jump as u16 && rest == 0).then_some(target)
}

fn ticket_words(ticket: &Ticket, names: &Names) -> String {
    let Ticket { desk, number, args, steps } = ticket;
    let with = match arguments(args) {
        args if args.is_empty() => String::new(),
        args => format!(" with{args}"),
    };
    let mut text = format!("desk {desk} number {number}{with}\n");
    let targets: Vec<u16> = steps.iter().filter_map(|step| skips_to(*step)).collect();
    for (at, step) in (0u16..).zip(steps) {
        let label_of = |target: u16| match (target as usize) < steps.len() {
            true => label(names, target),
            false => format!("step {target}"),
        };
        let before = match targets.contains(&at) {
            true => format!("{}: ", label(names, at)),
            false => "  ".to_string(),
        };
        text.push_str(&format!("{before}{}\n", step_to(names, *step, label_of)));
    }
    text
}
