//! A day that is cut anywhere and played again ends as one uninterrupted day. Here power is cut after each store, in
//! hand-ins and recoveries too; tests/program.rs kills the program itself.
//!
//! With all desks idle at the end it is the same image, word for word. Where tickets are under way at the end, what a
//! recovery does before its time may be done: a bay is given free whose drop is recorded and has not come to it, and the
//! last store of a ticket's end is made.

mod common;

use common::Draw;
use stow::follow::{follow, Kept};
use stow::frame::{Frame, Ticket};
use stow::language::names::Names;
use stow::player::Player;
use stow::trouble::Trouble;
use zilpanud::cut::{self, ENOUGH};
use zilpanud::{code, Cursors, Place, Record, RecordWord, Refusal};

/// A board in memory whose power goes when no store is left: from then on no call changes it.
#[derive(Clone)]
struct Cuttable {
    image: Vec<u64>,
    cursors: Cursors,
    left: u64,
}

impl Kept for Cuttable {
    fn image(&self) -> Vec<u64> {
        self.image.clone()
    }

    fn record(&self, desk: usize) -> Option<Record> {
        Record::of(&self.image, desk).ok()
    }

    fn cursors(&self) -> &Cursors {
        &self.cursors
    }

    fn submit(&mut self, ticket: &Ticket) -> Result<(), Refusal> {
        let Ticket { desk, number, args, steps } = ticket;
        cut::submit(&mut self.image, &mut self.cursors, *desk as usize, *number, args, steps, &mut self.left)
    }

    fn turn(&mut self, desk: usize) -> Result<(), Refusal> {
        cut::turn(&mut self.image, &mut self.cursors, desk, &mut self.left).map(|_| ())
    }

    fn recover(&mut self) -> Result<(), Refusal> {
        cut::recover(&mut self.image, &mut self.cursors, &mut self.left)
    }
}

impl Cuttable {
    /// What a program finds when it starts: recovered, with so many stores before the power goes (the recovery's too).
    fn started(image: &[u64], left: u64) -> Cuttable {
        let mut board = Cuttable { image: image.to_vec(), cursors: Cursors::IDLE, left };
        board.recover().unwrap();
        board
    }

    /// Plays a day, or as much of it as there are stores. Whoever is cut does not see how it ended.
    fn play(&mut self, start: &Player, frames: &[Frame]) -> Result<(), Trouble> {
        follow(start.clone(), frames, &Names::default(), self, &mut |_| {}).map(|_| ())
    }
}

/// Whether a word may be another where tickets are under way.
fn may_differ(index: usize) -> bool {
    use RecordWord::{Count, Intent};
    matches!(Place::of(index), Some(Place::Owner(_) | Place::Record { word: Intent | Count, .. }))
}

/// Cuts a day after each of its stores, plays it again, cut once more after `again` stores, and at last to its end.
fn cut_everywhere(start: &Player, frames: &[Frame], again: impl Fn(u64) -> u64) -> u64 {
    let mut whole = Cuttable::started(&start.image, ENOUGH);
    whole.play(start, frames).unwrap();
    let stores = ENOUGH - whole.left;
    for left in 0..=stores {
        let mut board = Cuttable::started(&start.image, left);
        let _ = board.play(start, frames);
        let mut board = Cuttable::started(&board.image, again(left));
        let _ = board.play(start, frames);
        let mut board = Cuttable::started(&board.image, ENOUGH);
        board.play(start, frames).unwrap_or_else(|trouble| panic!("cut after {left}: {:?}", trouble.lines()));
        let idle = whole.cursors.turn == Cursors::IDLE.turn;
        let differs = |index: &usize| board.image[*index] != whole.image[*index];
        let other = (0..whole.image.len()).filter(differs).find(|index| idle || !may_differ(*index));
        let other = other.map(|index| (Place::of(index), board.image[index], whole.image[index]));
        assert_eq!(other, None, "cut after {left} of {stores}");
    }
    stores
}

/// The start of a day: a board on which another day has been.
fn used(draw: &mut Draw, desks: u8) -> Player {
    let mut board = Cuttable::started(&Player::fresh(desks as usize).unwrap().image, ENOUGH);
    let fresh = Player::fresh(desks as usize).unwrap();
    board.play(&fresh, &common::day(draw, desks, 20)).unwrap();
    Player::recovered(board.image, desks as usize).unwrap()
}

#[test]
fn random_days_cut_after_every_store() {
    let (mut draw, mut stores) = (Draw(22), 0);
    for round in 0..24 {
        let desks = 1 + draw.below(8) as u8;
        let start =
            if round % 2 == 0 { Player::fresh(desks as usize).unwrap() } else { used(&mut draw, desks) };
        let mut frames = common::day(&mut draw, desks, 30);
        if round % 3 > 0 {
            frames.push(Frame::Rounds { rounds: u16::MAX });
        }
        let further = draw.below(60);
        stores += cut_everywhere(&start, &frames, |left| (left * 7 + further) % 90);
    }
    assert!(stores > 5_000, "{stores}");
}

/// Document 01's ticket, left under way after each of its turns, also between the last two of its end.
#[test]
fn a_day_that_leaves_its_ticket_under_way() {
    let steps = vec![code::acquire(3), code::set(24, 5), code::release(3), code::finish()];
    let ticket = Frame::HandIn(Ticket { desk: 0, number: 1, args: [0; 8], steps });
    let start = Player::fresh(1).unwrap();
    for turns in 0..=19 {
        let day = [ticket.clone(), Frame::Turns { desk: 0, turns }];
        // the recovery of a board at rest, the hand-in's ten words and four steps, and a store a turn
        assert_eq!(cut_everywhere(&start, &day, |left| left / 2), 1 + 14 + turns as u64);
    }
}
