//! A day told step by step: for each line, what each desk did in it, a row for each step that it worked on, by its first
//! turn in the line. Of a step that was made from its first turn to its last the bookkeeping is left out.

use super::phrase::{is_aside, stored, unstored};
use super::{Manner, Teller};
use crate::player::{At, Event, Player};
use crate::say::{counted, step};
use std::io::{self, Write};
use zilpanud::{Place, RecordWord, Turn};

/// What a desk did at one step, in one line of the day.
struct Row {
    at: At,
    instruction: u64,
    did: Vec<Did>,
    /// Told from its first turn on, here or in a row above.
    is_from_start: bool,
    /// Made to its last turn.
    is_done: bool,
}

struct Did {
    words: String,
    times: u64,
    is_aside: bool,
    is_wait: bool,
    /// The address of a note, which the value's words say again.
    is_address: bool,
}

#[derive(Default)]
pub struct Steps {
    rows: Vec<Row>,
}

impl Steps {
    /// The row that a desk's turn belongs to. Where a wait ends a new one begins, behind what ended it.
    fn row(&mut self, at: At, is_wait: bool, player: &Player) -> &mut Row {
        let same = |row: &Row| (row.at.number, row.at.step) == (at.number, at.step);
        let last = self.rows.iter().rposition(|row| row.at.desk == at.desk);
        let last = last.filter(|last| same(&self.rows[*last]));
        let ends_wait = |row: &Row| !is_wait && row.did.last().is_some_and(|did| did.is_wait);
        let place = last.filter(|last| !ends_wait(&self.rows[*last])).unwrap_or_else(|| {
            let record = player.record(at.desk);
            let instruction = record.and_then(|record| record.steps.get(at.step).copied()).unwrap_or(0);
            let is_from_start = at.turn == 0 || last.is_some_and(|last| self.rows[last].is_from_start);
            self.rows.push(Row { at, instruction, did: vec![], is_from_start, is_done: false });
            self.rows.len() - 1
        });
        &mut self.rows[place]
    }
}

impl Row {
    fn add(&mut self, new: Did) {
        match self.did.last_mut() {
            Some(last) if last.words == new.words => last.times = last.times.saturating_add(new.times),
            Some(last) if last.is_address => *last = new,
            _ => self.did.push(new),
        }
    }
}

impl<W: Write> Manner<W> for Steps {
    fn turned(
        &mut self,
        told: &mut Teller<'_, W>,
        at: At,
        answer: Turn,
        times: u64,
        player: &Player,
    ) -> io::Result<()> {
        let did = match answer {
            Turn::Stored(index) => {
                let (place, old) = (Place::of(index), told.old(index));
                let is_address = matches!(place, Some(Place::Record { word: RecordWord::Address(_), .. }));
                let words = stored(told.names, player, index, old);
                Did { words, times, is_aside: is_aside(index, old), is_wait: false, is_address }
            }
            _ => {
                let words = unstored(told.names, player, at, answer);
                let is_wait = matches!(answer, Turn::Waiting(_));
                Did { words, times, is_aside: false, is_wait, is_address: false }
            }
        };
        let row = self.row(at, did.is_wait, player);
        row.add(did);
        row.is_done = player.at(at.desk).map(|now| (now.number, now.step)) != Some((at.number, at.step));
        Ok(())
    }

    fn ended(&mut self, told: &mut Teller<'_, W>) -> io::Result<()> {
        for Row { at, instruction, did, is_from_start, is_done } in self.rows.drain(..) {
            let words = step(told.names, instruction);
            let whole = is_done && is_from_start;
            let did: Vec<String> = did.iter().filter(|did| !whole || !did.is_aside).map(said).collect();
            told.say(&format!(
                "desk {}, ticket {}, step {} ({words}): {}",
                at.desk,
                at.number,
                at.step,
                did.join(", ")
            ))?;
        }
        Ok(())
    }

    fn other(&mut self, told: &mut Teller<'_, W>, event: &Event<'_>, player: &Player) -> io::Result<()> {
        Manner::<W>::ended(self, told)?;
        told.tell(event, player)
    }
}

fn said(did: &Did) -> String {
    match did.times {
        1 => did.words.clone(),
        times => format!("{} ({})", did.words, counted(times, "turn")),
    }
}
