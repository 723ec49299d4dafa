//! Bays, words and steps as people read them. A name stands behind its number: `bay 3 (north)`.

use crate::language::names::{Names, Thing};
use std::fmt::Write;
use zilpanud::code::{fields_of, own, Kind};
use zilpanud::CELLS;

/// A desk's own words.
const OWN_WORDS: u16 = 8;

fn with_name(text: String, names: &Names, thing: Thing) -> String {
    match names.shown(thing) {
        Some(name) => format!("{text} ({name})"),
        None => text,
    }
}

/// `bay 3`, `bay 3 (north)`
pub fn bay(names: &Names, bay: usize) -> String {
    match u16::try_from(bay) {
        Ok(number) => with_name(format!("bay {bay}"), names, Thing::Bay(number)),
        Err(_) => format!("bay {bay}"),
    }
}

/// The numbers of a mask, lowest first.
pub fn members(mask: u64) -> impl Iterator<Item = usize> {
    (0..64).filter(move |bit| mask >> bit & 1 == 1)
}

/// `3`, `3 and 5`, `3, 5 and 9`
pub fn listed(items: impl IntoIterator<Item = String>) -> String {
    let items: Vec<String> = items.into_iter().collect();
    match items.split_last() {
        None => String::new(),
        Some((last, [])) => last.clone(),
        Some((last, before)) => format!("{} and {last}", before.join(", ")),
    }
}

/// The bays of a mask: `no bay`, `bay 3`, `bays 3 and 5 (north)`.
pub fn bays(names: &Names, mask: u64) -> String {
    let numbers = members(mask).map(|number| with_name(number.to_string(), names, Thing::Bay(number as u16)));
    match mask.count_ones() {
        0 => "no bay".to_string(),
        1 => format!("bay {}", listed(numbers)),
        _ => format!("bays {}", listed(numbers)),
    }
}

/// The verb behind the bays of a mask.
pub fn is_are(mask: u64) -> &'static str {
    match mask.count_ones() {
        0 | 1 => "is",
        _ => "are",
    }
}

/// `desk 0`, `desks 0 and 2`, `no desk`
pub fn desks(desks: &[usize]) -> String {
    let numbers = listed(desks.iter().map(usize::to_string));
    match desks.len() {
        0 => "no desk".to_string(),
        1 => format!("desk {numbers}"),
        _ => format!("desks {numbers}"),
    }
}

/// `1 turn`, `5 turns`
pub fn counted(number: u64, what: &str) -> String {
    match number {
        1 => format!("1 {what}"),
        _ => format!("{number} {what}s"),
    }
}

/// The number of a word that is a desk's own, 0 to 7.
pub fn own_number(word: u16) -> Option<u16> {
    (own(0)..own(OWN_WORDS)).contains(&word).then(|| word - own(0))
}

/// `word 24`, `own 0`
pub fn plain_word(word: u16) -> String {
    match own_number(word) {
        Some(number) => format!("own {number}"),
        None => format!("word {word}"),
    }
}

/// `word 24`, `own 0`, `word 24 (shed)`
pub fn word(names: &Names, word: u16) -> String {
    with_name(plain_word(word), names, Thing::Word(word))
}

/// The words of a bay that are on the board.
pub fn words_of_bay(bay: u16) -> String {
    match (bay as usize) < CELLS / 8 {
        true => format!("{} to {}", 8 * bay, 8 * bay + 7),
        false => "none".to_string(),
    }
}

/// As a ticket in words has it: by its name, or by its number.
pub fn operand(names: &Names, word: u16) -> String {
    names.shown(Thing::Word(word)).map_or_else(|| plain_word(word), str::to_string)
}

fn taken(names: &Names, bay: u16) -> String {
    names.shown(Thing::Bay(bay)).map_or_else(|| bay.to_string(), str::to_string)
}

/// A step in the language of tickets, with a skip's target by `label`. Every word has one form; one that no step in
/// words has is `code` and its digits.
pub fn step_to(names: &Names, instruction: u64, label: impl FnOnce(u16) -> String) -> String {
    let (kind, [a, b, c]) = fields_of(instruction);
    let word = |number| operand(names, number);
    let two = |sign| format!("{} := {} {sign} {}", word(a), word(b), word(c));
    match (Kind::of(kind), b, c) {
        (Some(Kind::Acquire), 0, 0) => format!("take {}", taken(names, a)),
        (Some(Kind::Release), 0, 0) => format!("drop {}", taken(names, a)),
        (Some(Kind::Set), ..) => format!("{} := {}", word(a), (b as u32) << 16 | c as u32),
        (Some(Kind::Add), ..) => two('+'),
        (Some(Kind::Subtract), ..) => two('-'),
        (Some(Kind::Less), ..) => two('<'),
        (Some(Kind::Jump), target, 0) => format!("if {} is 0 go to {}", word(a), label(target)),
        (Some(Kind::Finish), 0, 0) if a == 0 => "end".to_string(),
        _ => format!("code {instruction:016x}"),
    }
}

/// A step by itself: a skip names its step's number.
pub fn step(names: &Names, instruction: u64) -> String {
    step_to(names, instruction, |target| format!("step {target}"))
}

/// A list of numbers as a ticket has its arguments: without the zeros at the end.
pub fn arguments(args: &[u64]) -> String {
    let used = args.iter().rposition(|arg| *arg != 0).map_or(0, |last| last + 1);
    args[..used].iter().fold(String::new(), |mut text, arg| {
        let _ = write!(text, " {arg}");
        text
    })
}
