//! `stow explain`: a day of frames played through the library, each line in words.

mod brief;
mod phrase;
mod recovery;
mod steps;
mod turns;

pub use phrase::noted;

use crate::frame::{self, Frame, Malformed};
use crate::language::frame_words;
use crate::language::names::Names;
use crate::look::Look;
use crate::player::{At, Event, Player, Watch};
use crate::refusal::{of_ticket, of_turn};
use crate::show;
use std::io::{self, Write};
use zilpanud::Turn;

/// How much is told.
#[derive(Clone, Copy, PartialEq, Eq, Debug)]
pub enum How {
    Steps,
    Turns,
    Brief,
}

/// Why no more lines were read.
#[derive(Clone, Copy, PartialEq, Eq, Debug)]
pub enum End {
    Read,
    Malformed { line: u64, why: Malformed },
    NoBoard { desks: u8 },
}

/// A way to tell what happens in a line.
trait Manner<W: Write> {
    fn turned(
        &mut self,
        told: &mut Teller<'_, W>,
        at: At,
        answer: Turn,
        times: u64,
        player: &Player,
    ) -> io::Result<()>;
    fn other(&mut self, told: &mut Teller<'_, W>, event: &Event<'_>, player: &Player) -> io::Result<()>;
    /// The line is over.
    fn ended(&mut self, _: &mut Teller<'_, W>) -> io::Result<()> {
        Ok(())
    }
}

/// What is known while a day is told, and where it is told to.
pub struct Teller<'a, W> {
    out: W,
    names: &'a Names,
    /// The board before the last turn.
    before: Player,
    /// Nothing has happened in this line.
    is_silent: bool,
}

impl<W: Write> Teller<'_, W> {
    fn say(&mut self, words: &str) -> io::Result<()> {
        writeln!(self.out, "    {words}")
    }

    fn raw(&mut self, line: &str) -> io::Result<()> {
        writeln!(self.out, "{line}")
    }

    fn old(&self, index: usize) -> u64 {
        self.before.image.get(index).copied().unwrap_or(0)
    }

    /// Whatever is not a turn of a desk.
    fn tell(&mut self, event: &Event<'_>, player: &Player) -> io::Result<()> {
        match event {
            Event::Turned { .. } => Ok(()),
            Event::HandedIn { ticket, refused: None } => {
                let needs = zilpanud::turns_from(&ticket.steps, 0);
                let turns = needs.map_or(String::new(), |needs| format!(", {}", show::turns(needs)));
                let steps = ticket.steps.len();
                self.say(&format!("desk {} has ticket {}: {steps} steps{turns}", ticket.desk, ticket.number))
            }
            Event::HandedIn { ticket, refused: Some(cause) } => {
                self.say(&of_ticket(*cause, ticket, player, self.names))
            }
            Event::TurnRefused { desk, cause } => self.say(&of_turn(*cause, *desk, player)),
            Event::Cut => recovery::cut(self.names, player).iter().try_for_each(|line| self.say(line)),
            Event::Recovered { stores, refused: None } => {
                let said = recovery::recovered(self.names, &self.before, player, stores);
                said.iter().try_for_each(|line| self.say(line))
            }
            Event::Recovered { refused: Some(cause), .. } => {
                self.say(&format!("the recovery is refused: {cause}"))
            }
        }
    }
}

/// A manner at work.
struct Telling<'a, 'n, W, M> {
    told: &'a mut Teller<'n, W>,
    manner: &'a mut M,
}

impl<W: Write, M: Manner<W>> Watch for Telling<'_, '_, W, M> {
    type Error = io::Error;

    fn see(&mut self, event: Event<'_>, player: &Player) -> io::Result<()> {
        self.told.is_silent = false;
        match event {
            Event::Turned { at, answer, times } => {
                self.manner.turned(self.told, at, answer, times, player)?;
                if let Turn::Stored(index) = answer {
                    self.told.before.image[index] = player.image[index];
                }
                Ok(())
            }
            _ => {
                self.manner.other(self.told, &event, player)?;
                if event != Event::Cut {
                    self.told.before.clone_from(player);
                }
                Ok(())
            }
        }
    }
}

/// The first line: a fresh board, or why there is none.
fn open(line: &[u8]) -> Result<Player, End> {
    match frame::first_line(line) {
        Ok(Frame::Board { desks }) => Player::fresh(desks as usize).map_err(|_| End::NoBoard { desks }),
        Ok(_) => Err(End::Read), // a first line is a board
        Err(why) => Err(End::Malformed { line: 1, why }),
    }
}

/// Tells a whole day.
pub fn explain(day: &[u8], names: &Names, how: How, out: impl Write) -> io::Result<End> {
    match how {
        How::Steps => told(day, names, out, &mut steps::Steps::default()),
        How::Turns => told(day, names, out, &mut turns::Turns),
        How::Brief => brief::told(day, names, out),
    }
}

fn told<W: Write, M: Manner<W>>(day: &[u8], names: &Names, mut out: W, manner: &mut M) -> io::Result<End> {
    let mut lines = frame::lines(day);
    let Some(first) = lines.next() else {
        return Ok(End::Read);
    };
    let mut player = match open(first) {
        Ok(player) => player,
        Err(end) => return Ok(end),
    };
    writeln!(out, "line 1: a fresh board of {}", crate::say::counted(player.desks as u64, "desk"))?;
    let mut told = Teller { out, names, before: player.clone(), is_silent: false };
    for (number, line) in (2..).zip(lines) {
        let frame = match frame::frame(line) {
            Ok(frame) => frame,
            Err(why) => return Ok(End::Malformed { line: number, why }),
        };
        told.raw(&format!("line {number}: {}", heading(&frame, names)))?;
        told.is_silent = true;
        player.play(&frame, &mut Telling { told: &mut told, manner })?;
        manner.ended(&mut told)?;
        if told.is_silent {
            told.say(idle(&frame))?;
        }
    }
    at_the_end(&mut told, &player)?;
    Ok(End::Read)
}

/// Why nothing happens in a line.
fn idle(frame: &Frame) -> &'static str {
    match frame {
        Frame::Turns { turns: 0, .. } | Frame::Rounds { rounds: 0 } => "nothing is to be done",
        Frame::Turns { .. } => "the desk is idle, and nothing is done",
        _ => "all desks are idle, and nothing is done",
    }
}

/// A frame in one line; a ticket with its steps side by side.
fn heading(frame: &Frame, names: &Names) -> String {
    let words = frame_words(frame, names);
    let lines: Vec<&str> = words.lines().map(str::trim).collect();
    lines.join("; ").replacen("; ", ": ", 1)
}

fn at_the_end<W: Write>(told: &mut Teller<'_, W>, player: &Player) -> io::Result<()> {
    let Ok(look) = Look::of(&player.image) else {
        return Ok(());
    };
    told.raw("\nat the end of the day")?;
    let text = show::text(&look, told.names);
    told.out.write_all(text.as_bytes())
}
