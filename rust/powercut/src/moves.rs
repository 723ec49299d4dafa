//! What the workers do: section number k of worker w is one move, and follows from seed, w and k alone.
//!
//! A sum stops at 2^64 − 1 and a difference at 0, and where one does, it shows in which order sections came. The finished
//! numbers alone do not tell that order, so:
//!
//! - cells that several workers change meet no end: a move stows what it takes away, before it does, and a board sees
//!   some thousands of moves, each of less than 2^42, before there is another;
//! - ends are met in a cell that one worker alone changes, its tide: for that one the order is its own.

use crate::rng::Rng;
use zilpanud::code::{acquire, add, finish, jump_if_zero, less, lock_of, own, release, set, sub};

/// The cells that moves go between: those of all locks but the last two.
pub const MOVED: usize = 496;

/// The last two locks guard a tide and a count for each worker.
const TIDES: u16 = 62;
const COUNTS: u16 = 63;

/// The cell in which a worker's moves are counted.
pub fn count_cell(worker: usize) -> usize {
    8 * COUNTS as usize + worker
}

/// An amount that is stowed in one cell, goes from there to another, once or twice, and is counted. A sum is not what it
/// was if any part of this is done again or left out, and in which order moves are made does not matter. Beside it the
/// worker's tide rises or falls.
pub struct Move {
    from: u16,
    to: u16,
    amount: u64,
    twice: bool,
    /// The cell that rises or falls by `far`, and whether it rises. About one time in three it stops at an end.
    tide: u16,
    rises: bool,
    far: u64,
    count: u16,
    /// Whether the lower lock is released first.
    lower_first: bool,
}

/// Two locks of those that moves go between: mostly of the first few, so that workers wait for each other.
fn locks(r: &mut Rng) -> (u16, u16) {
    let among = if r.below(4) > 0 { 4 } else { TIDES as u64 };
    let first = r.below(among);
    let second = (first + 1 + r.below(among - 1)) % among;
    (first as u16, second as u16)
}

impl Move {
    pub fn of(seed: u64, worker: usize, number: u64) -> Move {
        let mut r = Rng::of(&[seed, worker as u64, number]);
        let (first, second) = locks(&mut r);
        Move {
            from: 8 * first + r.below(8) as u16,
            to: 8 * second + r.below(8) as u16,
            amount: 1 + r.below(1 << 40),
            twice: r.below(2) == 1,
            tide: 8 * TIDES + worker as u16,
            rises: r.below(2) == 1,
            far: r.next() >> r.below(3),
            count: count_cell(worker) as u16,
            lower_first: r.below(2) == 1,
        }
    }

    /// How much is stowed: enough for both times, and one more that stays.
    pub fn stowed(&self) -> u64 {
        2 * self.amount + 1
    }

    /// Own word 0 is the amount, 5 what is stowed and 6 how far the tide goes; the amount is moved twice if own word 3
    /// is below own word 4.
    pub fn args(&self) -> [u64; 8] {
        [self.amount, 0, 0, 5, if self.twice { 6 } else { 5 }, self.stowed(), self.far, 0]
    }

    /// Two locks in rising order, the move, then the third lock and the tide, the fourth and the count. It has every
    /// kind of instruction.
    pub fn section(&self) -> [u64; 19] {
        let Move { from, to, tide, count, .. } = *self;
        let (amount, one, again, stowed, far) = (own(0), own(1), own(2), own(5), own(6));
        let (a, b) = (lock_of(from), lock_of(to));
        let (lower, upper) = (a.min(b), a.max(b));
        let (first, second) = if self.lower_first { (lower, upper) } else { (upper, lower) };
        [
            acquire(lower),
            acquire(upper),
            less(again, own(3), own(4)),
            add(from, from, stowed),
            sub(from, from, amount),
            add(to, to, amount),
            jump_if_zero(again, 9),
            sub(from, from, amount),
            add(to, to, amount),
            set(one, 1), // step 9
            acquire(TIDES),
            if self.rises { add(tide, tide, far) } else { sub(tide, tide, far) },
            acquire(COUNTS),
            add(count, count, one),
            release(TIDES),
            release(COUNTS),
            release(first),
            release(second),
            finish(),
        ]
    }

    /// What it does to the cells; whether its tide stopped at an end.
    pub fn make(&self, cells: &mut [u64]) -> bool {
        let moved = if self.twice { 2 * self.amount } else { self.amount };
        let (from, to, count) = (self.from as usize, self.to as usize, self.count as usize);
        cells[from] += self.stowed() - moved;
        cells[to] += moved;
        cells[count] += 1;
        let tide = &mut cells[self.tide as usize];
        let (goes_to, end) = match self.rises {
            true => (tide.checked_add(self.far), u64::MAX),
            false => (tide.checked_sub(self.far), 0),
        };
        *tide = goes_to.unwrap_or(end);
        goes_to.is_none()
    }
}
