//! What the tests of totals have in common: words at the ends of their range, and one section of worker 0 on the cells
//! of lock 3.

use super::*;

/// 2^64 − 1, the three words below it, and 2^63 with those on either side.
pub const TOP: u64 = 0xffff_ffff_ffff_ffff;
pub const TOP_1: u64 = 0xffff_ffff_ffff_fffe;
pub const TOP_2: u64 = 0xffff_ffff_ffff_fffd;
pub const TOP_3: u64 = 0xffff_ffff_ffff_fffc;
pub const HALF: u64 = 0x8000_0000_0000_0000;
pub const BELOW_HALF: u64 = 0x7fff_ffff_ffff_ffff;
pub const ABOVE_HALF: u64 = 0x8000_0000_0000_0001;

/// The cells 24 to 31 and the own words of worker 0.
#[derive(Clone, Copy, PartialEq, Eq, Debug)]
pub struct Words {
    pub cells: [u64; 8],
    pub own: [u64; 8],
}

impl Words {
    pub fn of(world: &World) -> Words {
        let eight = |from: usize| std::array::from_fn(|i| world.image[from + i]);
        Words { cells: eight(CELL_24), own: eight(OWN) }
    }

    /// With another value at a word number: 24 to 31, or 512 to 519.
    pub fn with(mut self, word: u16, value: u64) -> Words {
        match word {
            0..512 => self.cells[word as usize - 24] = value,
            _ => self.own[word as usize - 512] = value,
        }
        self
    }

    /// An image at rest with these cells, and a section submitted with these own words as its arguments: acquire lock 3,
    /// the steps, release it, finish.
    pub fn submitted(self, steps: &[u64]) -> World {
        let mut world = World::formatted(1);
        world.image[CELL_24..CELL_24 + 8].copy_from_slice(&self.cells);
        world.submit_with(0, 1, &self.own, &under_lock_3(steps)).unwrap();
        world
    }
}

pub fn under_lock_3(steps: &[u64]) -> Vec<u64> {
    [&[acquire(3)], steps, &[release(3), finish()]].concat()
}
