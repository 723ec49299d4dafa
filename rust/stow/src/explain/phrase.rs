//! What one store, or one turn, did, in a few words.

use crate::language::names::Names;
use crate::player::{At, Player};
use crate::say::{bay, bays, word};
use zilpanud::code::{fields_of, own};
use zilpanud::{Passing, Place, RecordWord, Turn};

/// A word of the board or of a desk, by its number in tickets.
fn word_number(place: Place) -> Option<u16> {
    match place {
        Place::Cell(cell) => Some(cell as u16),
        Place::Record { word: RecordWord::Own(at), .. } => Some(own(at as u16)),
        _ => None,
    }
}

/// What a desk's log entry is about to store: `word 24 := 5`, or `the bays it owns := bays 3 and 5`.
pub fn noted(names: &Names, address: u64, value: u64) -> String {
    let place = usize::try_from(address).ok().and_then(Place::of);
    match place.map(|place| (place, word_number(place))) {
        Some((_, Some(number))) => format!("{} := {value}", word(names, number)),
        Some((Place::Record { word: RecordWord::Owned, .. }, None)) => format!("owns {}", bays(names, value)),
        _ => format!("word {address} of the image := {value}"),
    }
}

/// What is gained or lost from one mask to another.
fn changed(names: &Names, verb: &str, old: u64, new: u64) -> String {
    match (new & !old, old & !new) {
        (0, 0) => format!("{verb} {}, as before", bays(names, new)),
        (gained, 0) => format!("{verb} {}", bays(names, gained)),
        (_, lost) => format!("{verb} {} no more", bays(names, lost)),
    }
}

/// Whether a store is bookkeeping: a desk's notes to itself, of which only a step cut short is told.
pub fn is_aside(index: usize, old: u64) -> bool {
    match Place::of(index) {
        Some(Place::Record { word, .. }) => match word {
            RecordWord::Pc => old != 0,
            RecordWord::Count | RecordWord::Address(_) | RecordWord::Value(_) => true,
            RecordWord::Intent | RecordWord::Owned => true,
            RecordWord::Number | RecordWord::Finished | RecordWord::Own(_) | RecordWord::Step(_) => false,
        },
        _ => false,
    }
}

/// `word 24 is 13, was 20`
fn changes(names: &Names, number: u16, old: u64, new: u64) -> String {
    match old == new {
        true => format!("{} is {new}, as before", word(names, number)),
        false => format!("{} is {new}, was {old}", word(names, number)),
    }
}

/// What a desk did by a store at a place of the image.
pub fn stored(names: &Names, player: &Player, index: usize, old: u64) -> String {
    let new = player.image.get(index).copied().unwrap_or(0);
    let Some(place) = Place::of(index) else {
        return format!("stores {new} at {index}");
    };
    match place {
        Place::Header(_) => format!("stores {new} at {index}"),
        Place::Cell(cell) => changes(names, cell as u16, old, new),
        Place::Owner(lock) if new == 0 => format!("frees {}", bay(names, lock)),
        Place::Owner(lock) => format!("has {}", bay(names, lock)),
        Place::Record { worker, word } => recorded(names, player, worker, word, old, new),
    }
}

fn recorded(names: &Names, player: &Player, desk: usize, kind: RecordWord, old: u64, new: u64) -> String {
    match kind {
        RecordWord::Count => "is idle".to_string(),
        RecordWord::Pc if new == 0 => "clears its place".to_string(),
        RecordWord::Pc if old == 0 => "the ticket is begun".to_string(),
        RecordWord::Pc => "records the step".to_string(),
        RecordWord::Address(_) => {
            let place = usize::try_from(new).ok().and_then(Place::of);
            let what =
                place.and_then(word_number).map_or("its bays".to_string(), |number| word(names, number));
            format!("notes {what}")
        }
        RecordWord::Value(entry) => {
            let address = player.record(desk).map_or(0, |record| record.entries[entry].address);
            format!("notes '{}'", noted(names, address, new))
        }
        RecordWord::Intent => changed(names, "means to have", old, new),
        RecordWord::Owned => changed(names, "owns", old, new),
        RecordWord::Number | RecordWord::Step(_) => format!("stores {new}"),
        RecordWord::Finished => format!("ticket {new} is finished"),
        RecordWord::Own(at) => changes(names, own(at as u16), old, new),
    }
}

/// Who has a bay, by its lock word.
fn holder(player: &Player, lock: usize) -> String {
    match player.image.get(Place::Owner(lock).index()).copied().unwrap_or(0) {
        0 => "nobody".to_string(),
        word => format!("desk {}", word - 1),
    }
}

/// A turn that stored nothing.
pub fn unstored(names: &Names, player: &Player, at: At, answer: Turn) -> String {
    let instruction =
        player.record(at.desk).and_then(|record| record.steps.get(at.step).copied()).unwrap_or(0);
    let (_, [a, target, _]) = fields_of(instruction);
    match answer {
        Turn::Waiting(lock) => format!("waits for {}, which {} has", bay(names, lock), holder(player, lock)),
        Turn::Passed(Passing::AlreadyFree) => format!("finds {} already free", bay(names, a as usize)),
        Turn::Passed(Passing::Others) => {
            format!(
                "finds {} another's: {} has it by now",
                bay(names, a as usize),
                holder(player, a as usize)
            )
        }
        Turn::Passed(Passing::Jump) => {
            let now = player.at(at.desk).map_or(at.step, |now| now.step);
            let (word, next) = (word(names, a), at.step + 1);
            match (now == target as usize, now == next) {
                (true, true) => format!("goes on at step {now}, whatever {word} is"),
                (true, false) => format!("{word} is 0: goes on at step {now}"),
                (false, _) => format!("{word} is not 0: goes on at step {now}"),
            }
        }
        Turn::Idle | Turn::Stored(_) => String::new(),
    }
}
