//! What an image shows, gathered from its words: for the text and for the picture. Nothing is changed.

use std::array;
use zilpanud::{cell_index, owner_index, turns_left, Cause, Entry, Needs, Record, Refusal, LOCKS, WORKERS};

/// A board at one moment.
#[derive(Clone, PartialEq, Eq, Debug)]
pub struct Look {
    pub desks: Vec<Desk>,
    /// All 64.
    pub bays: Vec<Bay>,
    /// Why a recovery would be refused; none if it would be accepted.
    pub unsound: Option<Cause>,
}

/// Whose a bay is, by its lock word.
#[derive(Clone, Copy, PartialEq, Eq, Debug)]
pub enum Holder {
    Free,
    Desk(usize),
    /// A lock word that names no desk of the board: the image is damaged.
    Nobody(u64),
}

#[derive(Clone, PartialEq, Eq, Debug)]
pub struct Bay {
    pub holder: Holder,
    /// The desks whose intention has the bay: those that have it, and those that are about to.
    pub intended_by: Vec<usize>,
    pub words: [u64; 8],
}

#[derive(Clone, PartialEq, Eq, Debug)]
pub struct Desk {
    pub ticket: Option<OpenTicket>,
    pub finished: u64,
    pub intent: u64,
    pub owned: u64,
    pub own: [u64; 8],
}

/// A ticket that a desk has.
#[derive(Clone, PartialEq, Eq, Debug)]
pub struct OpenTicket {
    pub number: u64,
    pub steps: Vec<u64>,
    /// None: handed in, and not begun.
    pub begun: Option<Begun>,
}

/// How far a ticket has come.
#[derive(Clone, Copy, PartialEq, Eq, Debug)]
pub struct Begun {
    /// The step recorded last; a damaged image may name one that the ticket has not.
    pub step: u64,
    /// The store that it noted.
    pub noted: Entry,
    /// The turns that a recovery would leave to be made; none where the record is not sound.
    pub left: Option<Needs>,
}

impl Look {
    /// What an image shows; or why it is none (cause 10).
    pub fn of(image: &[u64]) -> Result<Look, Cause> {
        let records: Vec<Record> = (0..WORKERS).map_while(|desk| Record::of(image, desk).ok()).collect();
        let unsound = zilpanud::recover(&mut image.to_vec()).err().map(|Refusal(cause)| cause);
        if records.is_empty() {
            return Err(unsound.unwrap_or(Cause::Image));
        }
        let desks = records.iter().enumerate().map(|(desk, record)| Desk::of(image, desk, record)).collect();
        let bays = (0..LOCKS).map(|bay| Bay::of(image, bay, &records)).collect();
        Ok(Look { desks, bays, unsound })
    }
}

impl Bay {
    fn of(image: &[u64], bay: usize, records: &[Record]) -> Bay {
        let holder = match image[owner_index(bay)] {
            0 => Holder::Free,
            word if word <= records.len() as u64 => Holder::Desk(word as usize - 1),
            word => Holder::Nobody(word),
        };
        let intends = |&desk: &usize| records[desk].intent >> bay & 1 == 1;
        let intended_by = (0..records.len()).filter(intends).collect();
        Bay { holder, intended_by, words: array::from_fn(|at| image[cell_index(8 * bay + at)]) }
    }

    /// Whether there is nothing to tell of it.
    pub fn is_bare(&self) -> bool {
        self.holder == Holder::Free && self.intended_by.is_empty() && self.words == [0; 8]
    }
}

impl Desk {
    /// Whether its ticket is finished, and only the last turns of its end are to be made.
    pub fn is_ending(&self) -> bool {
        self.ticket.as_ref().is_some_and(|ticket| ticket.number == self.finished)
    }

    fn of(image: &[u64], desk: usize, record: &Record) -> Desk {
        let left = turns_left(image, desk).ok();
        let begun = record.recorded().map(|step| Begun { step, noted: record.active(), left });
        let ticket = (record.count != 0 || begun.is_some()).then(|| OpenTicket {
            number: record.number,
            steps: record.section().unwrap_or(&[]).to_vec(),
            begun,
        });
        let Record { finished, intent, owned, own, .. } = *record;
        Desk { ticket, finished, intent, owned, own }
    }
}
