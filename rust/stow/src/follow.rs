//! A board that follows a day, so that a cut anywhere and the same day again leave what one uninterrupted day leaves.
//!
//! The day is played twice at once: in memory, from the board as the day found it, and on the board. In memory it is
//! always the uninterrupted day. Each turn that it makes there is made on the board too if the desk stands at that very
//! turn of that very ticket, by the ticket's number; where the board is ahead, since the day was cut and is played again,
//! it is left out. A recovery sets a desk back to its last recorded step at most, so no turn is missed, none that counts
//! is made twice, and they come in the order of the uninterrupted day. At the end the words of both boards are compared.
//!
//! That is argued and tested, not proved: the tests cut a day after each of its stores and, when it is played again, at one
//! more place for each. Where a day ends with tickets under way, what a recovery does before its time may be done.

use crate::frame::{Frame, Ticket};
use crate::language::names::Names;
use crate::player::{at, At, Event, Player, Watch};
use crate::refusal::{of_ticket, of_turn};
use crate::trouble::Trouble;
use std::collections::BTreeMap;
use zilpanud::{cell_index, Board, Cause, Cursors, Record, Refusal, Turn, CELLS};

/// The board that a day is played on: what is asked of it, and the three calls that are made.
pub trait Kept {
    /// A copy.
    fn image(&self) -> Vec<u64>;
    fn record(&self, desk: usize) -> Option<Record>;
    fn cursors(&self) -> &Cursors;
    fn submit(&mut self, ticket: &Ticket) -> Result<(), Refusal>;
    fn turn(&mut self, desk: usize) -> Result<(), Refusal>;
    fn recover(&mut self) -> Result<(), Refusal>;
}

impl Kept for Board {
    fn image(&self) -> Vec<u64> {
        Board::image(self)
    }

    fn record(&self, desk: usize) -> Option<Record> {
        Board::record(self, desk).ok()
    }

    fn cursors(&self) -> &Cursors {
        Board::cursors(self)
    }

    fn submit(&mut self, ticket: &Ticket) -> Result<(), Refusal> {
        let Ticket { desk, number, args, steps } = ticket;
        Board::submit(self, *desk as usize, *number, args, steps)
    }

    fn turn(&mut self, desk: usize) -> Result<(), Refusal> {
        Board::turn(self, desk).map(|_| ())
    }

    fn recover(&mut self) -> Result<(), Refusal> {
        Board::recover(self)
    }
}

/// A board in memory: for trying whether a day that was cut can be gone on with, before any of its turns is made.
impl Kept for Player {
    fn image(&self) -> Vec<u64> {
        self.image.clone()
    }

    fn record(&self, desk: usize) -> Option<Record> {
        Player::record(self, desk)
    }

    fn cursors(&self) -> &Cursors {
        &self.cursors
    }

    fn submit(&mut self, ticket: &Ticket) -> Result<(), Refusal> {
        Player::submit(self, ticket)
    }

    fn turn(&mut self, desk: usize) -> Result<(), Refusal> {
        zilpanud::turn(&mut self.image, &mut self.cursors, desk).map(|_| ())
    }

    fn recover(&mut self) -> Result<(), Refusal> {
        self.cursors = zilpanud::recover(&mut self.image)?;
        Ok(())
    }
}

/// What a day came to.
#[derive(Clone, PartialEq, Eq, Debug, Default)]
pub struct Report {
    pub taken: u64,
    /// Of those taken.
    pub finished: u64,
    /// Hand-ins of tickets that were finished before.
    pub finished_before: u64,
    /// Tickets that a cut of the day withdrew, a line each.
    pub withdrawn: Vec<String>,
    /// Refused tickets and turns, a line each.
    pub refused: Vec<String>,
    /// What the desks still have at the day's end.
    pub open: Vec<String>,
}

/// What is heard of a day while it is followed.
#[derive(Clone, Copy, PartialEq, Eq, Debug)]
pub enum Heard {
    /// A line of this number comes next.
    Line(usize),
    /// A turn was made on the board.
    Turn,
}

/// A board at its day.
struct Following<'a, K> {
    board: &'a mut K,
    names: &'a Names,
    hear: &'a mut dyn FnMut(Heard),
    line: usize,
    /// The tickets that the day has taken and not ended, by desk.
    open: BTreeMap<usize, u64>,
    report: Report,
}

fn refused(what: &str, cause: Cause) -> Trouble {
    let number = cause.number();
    Trouble::wrong(format!("the board refused {what} with {number}: {cause}; the day is not over"))
}

impl<K: Kept> Following<'_, K> {
    fn at(&self, desk: usize) -> Option<At> {
        at(self.board.record(desk)?, self.board.cursors(), desk)
    }

    /// A ticket that the day takes is handed in, unless the board has it or is past it.
    fn hand_in(&mut self, ticket: &Ticket) -> Result<(), Trouble> {
        let (desk, number) = (ticket.desk as usize, ticket.number);
        self.report.taken += 1;
        self.open.insert(desk, number);
        let finished = self.board.record(desk).map_or(0, |record| record.finished);
        if number <= finished || self.at(desk).is_some() {
            return Ok(());
        }
        let taken = self.board.submit(ticket);
        taken.map_err(|Refusal(cause)| refused(&format!("ticket {number} of desk {desk}"), cause))
    }

    /// A ticket that the day refuses is told, unless it is done.
    fn leave_out(&mut self, ticket: &Ticket, cause: Cause, player: &Player) {
        let (desk, number) = (ticket.desk as usize, ticket.number);
        if cause == Cause::Number && number != 0 {
            self.report.finished_before += 1;
            return;
        }
        let words = of_ticket(cause, ticket, player, self.names);
        self.tell(format!("desk {desk}, ticket {number}: {words}"));
    }

    fn tell(&mut self, what: String) {
        self.report.refused.push(format!("line {}: {what}", self.line));
    }

    /// A desk of the day that is idle has ended its ticket, or a cut has withdrawn it.
    fn ended(&mut self, desk: usize, player: &Player) {
        let Some(number) = self.open.get(&desk).copied().filter(|_| player.at(desk).is_none()) else {
            return;
        };
        self.open.remove(&desk);
        match player.record(desk).is_some_and(|record| number <= record.finished) {
            true => self.report.finished += 1,
            false => self.report.withdrawn.push(format!(
                "line {}: the cut withdrew ticket {number} of desk {desk}, which was not begun; hand it in again",
                self.line
            )),
        }
    }

    /// A turn that went on in the day is made, if it is this one that the board is at.
    fn turn(&mut self, made: At) -> Result<(), Trouble> {
        if self.at(made.desk) != Some(made) {
            return Ok(());
        }
        self.board.turn(made.desk).map_err(|Refusal(cause)| refused("a turn", cause))?;
        (self.hear)(Heard::Turn);
        Ok(())
    }
}

impl<K: Kept> Watch for Following<'_, K> {
    type Error = Trouble;

    fn see(&mut self, event: Event<'_>, player: &Player) -> Result<(), Trouble> {
        match event {
            Event::HandedIn { ticket, refused: None } => self.hand_in(ticket)?,
            Event::HandedIn { ticket, refused: Some(cause) } => self.leave_out(ticket, cause, player),
            Event::Turned { answer: Turn::Waiting(_) | Turn::Idle, .. } | Event::Cut => {}
            Event::Turned { at, .. } => {
                self.turn(at)?;
                self.ended(at.desk, player);
            }
            Event::TurnRefused { desk, cause } => self.tell(of_turn(cause, desk, player)),
            Event::Recovered { .. } => {
                self.board.recover().map_err(|Refusal(cause)| refused("a recovery", cause))?;
                (0..player.desks).for_each(|desk| self.ended(desk, player));
            }
        }
        Ok(())
    }
}

/// Whether a desk stands where the day leaves it; or its ticket is finished, and a recovery has made its last store.
fn stands(board: &impl Kept, player: &Player, desk: usize) -> bool {
    let finished = |record: Option<Record>| record.map_or(0, |record| record.finished);
    let (is, must) = (finished(board.record(desk)), finished(player.record(desk)));
    let at = board.record(desk).and_then(|record| at(record, board.cursors(), desk));
    let is_ended = at.is_none() && player.at(desk).is_some_and(|at| at.number == must);
    is == must && (at == player.at(desk) || is_ended)
}

/// Where a board is not what the day leaves.
fn differs(board: &impl Kept, player: &Player) -> Option<String> {
    let (image, cells) = (board.image(), cell_index(0)..cell_index(CELLS));
    let mut words = image[cells.clone()].iter().zip(&player.image[cells]).enumerate();
    if let Some((word, (is, must))) = words.find(|(_, (is, must))| is != must) {
        return Some(format!("word {word} is {is}, and the day leaves {must}"));
    }
    let desk = (0..player.desks).find(|desk| !stands(board, player, *desk))?;
    Some(format!("desk {desk} does not stand where the day leaves it"))
}

/// Plays the lines of a day behind the first on a board, from the start that the day had. Where the board is then not the
/// day's, that is wrong.
pub fn follow<K: Kept>(
    start: Player,
    frames: &[Frame],
    names: &Names,
    board: &mut K,
    hear: &mut dyn FnMut(Heard),
) -> Result<Report, Trouble> {
    let (mut player, open, report) = (start, BTreeMap::new(), Report::default());
    let mut following = Following { board, names, hear, line: 1, open, report };
    for (number, frame) in (2..).zip(frames) {
        following.line = number;
        (following.hear)(Heard::Line(number));
        player.play(frame, &mut following)?;
    }
    let mut report = following.report;
    if let Some(what) = differs(board, &player) {
        return Err(Trouble::wrong(format!(
            "{what}: something else changed the board while the day was under way"
        )));
    }
    let open = (0..player.desks).filter_map(|desk| player.at(desk));
    report.open =
        open.map(|at| format!("desk {} is at step {} of ticket {}", at.desk, at.step, at.number)).collect();
    Ok(report)
}
