//! The working places, which are not in the image.

use crate::layout::MAX_DESKS;

/// The working places of all eight desks, and beside them the bays held. A desk is idle if its turn is `IDLE`.
#[derive(Clone, Copy, PartialEq, Eq, Debug)]
pub struct Working {
    pub step: [u8; MAX_DESKS],
    pub turn: [u8; MAX_DESKS],
    /// Bit b for bay b: set by a take's lock store, cleared by a drop's, also where no store is left.
    pub held: u64,
}

pub const IDLE: u8 = 0xff;

impl Working {
    pub const ALL_IDLE: Working = Working { step: [0; MAX_DESKS], turn: [IDLE; MAX_DESKS], held: 0 };

    #[inline]
    pub fn idle(&self, d: usize) -> bool {
        self.turn[d] == IDLE
    }
    /// How many bays are held.
    #[inline]
    pub fn bays_held(&self) -> u32 {
        self.held.count_ones()
    }
    #[inline]
    pub(crate) fn at(&mut self, d: usize, step: usize, turn: u8) {
        self.step[d] = step as u8;
        self.turn[d] = turn;
    }
    #[inline]
    pub(crate) fn rest(&mut self, d: usize) {
        self.at(d, 0, IDLE);
    }
}
