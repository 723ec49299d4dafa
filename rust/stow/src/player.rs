//! A day played through the library, call by call, on an image in memory; what happens is told as it happens.

use crate::frame::{Frame, Ticket};
use zilpanud::cut::{self, ENOUGH};
use zilpanud::{image_len, Cause, Cursors, Place, Record, RecordWord, Refusal, Turn, WORKERS};

/// The turn of a desk that is idle.
const IDLE: u8 = Cursors::IDLE.turn[0];

/// A board in memory, with its working record.
#[derive(Clone, PartialEq, Eq, Debug)]
pub struct Player {
    pub image: Vec<u64>,
    pub cursors: Cursors,
    pub desks: usize,
}

/// Where a desk with a ticket stands: at a turn of a step.
#[derive(Clone, Copy, PartialEq, Eq, Debug)]
pub struct At {
    pub desk: usize,
    pub number: u64,
    pub step: usize,
    /// From 0.
    pub turn: u8,
}

/// A store of a recovery.
#[derive(Clone, Copy, PartialEq, Eq, Debug)]
pub struct Store {
    pub index: usize,
    pub value: u64,
}

/// What happened.
#[derive(Clone, PartialEq, Eq, Debug)]
pub enum Event<'a> {
    /// A ticket was handed in: taken, or refused.
    HandedIn { ticket: &'a Ticket, refused: Option<Cause> },
    /// A desk with a ticket made a turn, from where it stood; one that waits, so many times over.
    Turned { at: At, answer: Turn, times: u64 },
    /// A turn was refused, which ends its line.
    TurnRefused { desk: usize, cause: Cause },
    /// The power goes: the player is still as it was.
    Cut,
    /// The recovery behind it.
    Recovered { stores: Vec<Store>, refused: Option<Cause> },
}

/// Whoever is told; an error ends the playing.
pub trait Watch {
    type Error;
    fn see(&mut self, event: Event<'_>, player: &Player) -> Result<(), Self::Error>;
}

impl Player {
    /// A fresh board; 10 if no board has so many desks.
    pub fn fresh(desks: usize) -> Result<Player, Cause> {
        let mut image = vec![0; image_len(desks.min(WORKERS))];
        let cursors = zilpanud::format(&mut image, desks).map_err(|Refusal(cause)| cause)?;
        Ok(Player { image, cursors, desks })
    }

    /// A board that is there, recovered.
    pub fn recovered(mut image: Vec<u64>, desks: usize) -> Result<Player, Cause> {
        let cursors = zilpanud::recover(&mut image).map_err(|Refusal(cause)| cause)?;
        Ok(Player { image, cursors, desks })
    }

    /// Where a desk stands; none if it is idle, or there is no such desk.
    pub fn at(&self, desk: usize) -> Option<At> {
        at(self.record(desk)?, &self.cursors, desk)
    }

    pub fn record(&self, desk: usize) -> Option<Record> {
        Record::of(&self.image, desk).ok()
    }

    /// Plays one line behind the first.
    pub fn play<W: Watch>(&mut self, frame: &Frame, watch: &mut W) -> Result<(), W::Error> {
        match frame {
            Frame::Board { .. } => Ok(()), // made by `fresh`
            Frame::HandIn(ticket) => self.hand_in(ticket, watch),
            Frame::Turns { desk, turns } => self.turns(*desk as usize, *turns as u64, watch),
            Frame::Cut => self.cut(watch),
            Frame::Rounds { rounds } => self.rounds(*rounds, watch),
        }
    }

    pub fn submit(&mut self, ticket: &Ticket) -> Result<(), Refusal> {
        let Ticket { desk, number, args, steps } = ticket;
        zilpanud::submit(&mut self.image, &mut self.cursors, *desk as usize, *number, args, steps)
    }

    fn hand_in<W: Watch>(&mut self, ticket: &Ticket, watch: &mut W) -> Result<(), W::Error> {
        let refused = self.submit(ticket).err().map(|Refusal(cause)| cause);
        watch.see(Event::HandedIn { ticket, refused }, self)
    }

    /// One turn. One that waits is told as `times` turns.
    fn turn<W: Watch>(&mut self, desk: usize, times: u64, watch: &mut W) -> Result<Went, W::Error> {
        let at = self.at(desk);
        match (zilpanud::turn(&mut self.image, &mut self.cursors, desk), at) {
            (Err(Refusal(cause)), _) => {
                watch.see(Event::TurnRefused { desk, cause }, self)?;
                Ok(Went::Refused)
            }
            (Ok(answer @ Turn::Waiting(_)), Some(at)) => {
                watch.see(Event::Turned { at, answer, times }, self)?;
                Ok(Went::Same)
            }
            (Ok(Turn::Idle), _) | (Ok(_), None) => Ok(Went::Same),
            (Ok(answer), Some(at)) => {
                watch.see(Event::Turned { at, answer, times: 1 }, self)?;
                Ok(Went::On)
            }
        }
    }

    fn turns<W: Watch>(&mut self, desk: usize, turns: u64, watch: &mut W) -> Result<(), W::Error> {
        for made in 0..turns {
            if self.turn(desk, turns - made, watch)? != Went::On {
                break; // one that waits has been told with all that are left
            }
        }
        Ok(())
    }

    /// Rounds as in a run.
    fn rounds<W: Watch>(&mut self, rounds: u16, watch: &mut W) -> Result<(), W::Error> {
        for _ in 0..rounds {
            let open: Vec<usize> = (0..self.desks).filter(|desk| self.at(*desk).is_some()).collect();
            if open.is_empty() {
                break;
            }
            for desk in open {
                if self.turn(desk, 1, watch)? == Went::Refused {
                    return Ok(());
                }
            }
        }
        Ok(())
    }

    fn cut<W: Watch>(&mut self, watch: &mut W) -> Result<(), W::Error> {
        watch.see(Event::Cut, self)?;
        let (before, mut left) = (self.image.clone(), ENOUGH);
        let done = cut::recover(&mut self.image, &mut self.cursors, &mut left);
        let refused = done.err().map(|Refusal(cause)| cause);
        let stores = if refused.is_none() { stores(&before, &self.image, self.desks) } else { vec![] };
        debug_assert_eq!(stores.len() as u64, ENOUGH - left);
        watch.see(Event::Recovered { stores, refused }, self)
    }
}

/// How a turn went.
#[derive(Clone, Copy, PartialEq, Eq, Debug)]
enum Went {
    On,
    Same,
    Refused,
}

/// Where a desk with this record stands.
pub fn at(record: Record, cursors: &Cursors, desk: usize) -> Option<At> {
    let (step, turn) = (*cursors.step.get(desk)?, *cursors.turn.get(desk)?);
    (turn != IDLE).then_some(At { desk, number: record.number, step: step as usize, turn })
}

/// The stores of a recovery in document 01's order, read off the image before and after it: lock words of all bays that
/// a desk meant to have, intentions, counts of tickets withdrawn, and the lock words of what is owed, which is what the
/// intentions now have.
fn stores(before: &[u64], after: &[u64], desks: usize) -> Vec<Store> {
    let word = |image: &[u64], worker: usize, word: RecordWord| image[Place::Record { worker, word }.index()];
    let all = |image: &[u64]| (0..desks).fold(0, |all, desk| all | word(image, desk, RecordWord::Intent));
    let (meant, mut stores) = (all(before), vec![]);
    for bay in crate::say::members(meant) {
        stores.push(Store { index: Place::Owner(bay).index(), value: 0 });
    }
    for worker in 0..desks {
        let index = Place::Record { worker, word: RecordWord::Intent }.index();
        stores.push(Store { index, value: after[index] });
    }
    for worker in 0..desks {
        let index = Place::Record { worker, word: RecordWord::Count }.index();
        if before[index] != 0 && word(before, worker, RecordWord::Pc) == 0 {
            stores.push(Store { index, value: 0 });
        }
    }
    for worker in 0..desks {
        for bay in crate::say::members(word(after, worker, RecordWord::Intent)) {
            stores.push(Store { index: Place::Owner(bay).index(), value: worker as u64 + 1 });
        }
    }
    stores
}
