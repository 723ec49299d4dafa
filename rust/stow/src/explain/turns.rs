//! A day told turn by turn: each store as the program `board` prints it, with its words behind it.

use super::phrase::{stored, unstored};
use super::{Manner, Teller};
use crate::player::{At, Event, Player, Store};
use crate::say::counted;
use std::io::{self, Write};
use zilpanud::{Cause, Passing, Place, RecordWord, Turn};

/// The index that `board` prints for a report, and for a refusal.
const REPORT: usize = 0xfffe;
const REFUSED: usize = 0xffff;

pub struct Turns;

/// What `board` prints, or as many blanks.
fn printed(line: Option<(usize, u64)>) -> String {
    match line {
        Some((index, value)) => format!("{index:04x} {value:016x}"),
        None => " ".repeat(21),
    }
}

impl<W: Write> Manner<W> for Turns {
    fn turned(
        &mut self,
        told: &mut Teller<'_, W>,
        at: At,
        answer: Turn,
        times: u64,
        player: &Player,
    ) -> io::Result<()> {
        let (line, words) = match answer {
            Turn::Stored(index) => {
                let value = player.image.get(index).copied().unwrap_or(0);
                (Some((index, value)), stored(told.names, player, index, told.old(index)))
            }
            Turn::Passed(Passing::AlreadyFree) => {
                (Some((REPORT, 0)), unstored(told.names, player, at, answer))
            }
            Turn::Passed(Passing::Others) => (Some((REPORT, 1)), unstored(told.names, player, at, answer)),
            _ => (None, unstored(told.names, player, at, answer)),
        };
        let times = if times == 1 { String::new() } else { format!(" ({})", counted(times, "turn")) };
        told.raw(&format!("{}  desk {}, step {}: {words}{times}", printed(line), at.desk, at.step))
    }

    fn other(&mut self, told: &mut Teller<'_, W>, event: &Event<'_>, player: &Player) -> io::Result<()> {
        if let Event::Recovered { stores, refused: None } = event {
            for store in stores {
                told.raw(&format!(
                    "{}  {}",
                    printed(Some((store.index, store.value))),
                    recovery(told, store)
                ))?;
            }
        }
        if let Some(cause) = refused(event) {
            told.raw(&format!("{}  refused", printed(Some((REFUSED, cause.number())))))?;
        }
        told.tell(event, player)
    }
}

fn refused(event: &Event<'_>) -> Option<Cause> {
    match event {
        Event::HandedIn { refused, .. } | Event::Recovered { refused, .. } => *refused,
        Event::TurnRefused { cause, .. } => Some(*cause),
        Event::Turned { .. } | Event::Cut => None,
    }
}

/// What a store of a recovery does.
fn recovery<W: Write>(told: &Teller<'_, W>, store: &Store) -> String {
    let bays = |mask| crate::say::bays(told.names, mask);
    let doing = match Place::of(store.index) {
        Some(Place::Owner(bay)) if store.value == 0 => format!("{} is freed", bays(1 << bay)),
        Some(Place::Owner(bay)) => format!("desk {} has {}", store.value - 1, bays(1 << bay)),
        Some(Place::Record { worker, word: RecordWord::Intent }) => {
            format!("desk {worker} means to have what it is owed: {}", bays(store.value))
        }
        Some(Place::Record { worker, .. }) => format!("desk {worker} has no ticket"),
        _ => String::new(),
    };
    format!("recovery: {doing}")
}
