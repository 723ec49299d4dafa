//! One step: its word, its row of the table, and the sets of bays.

/// Kind by kind: highest a, highest b, highest c, turns. Kinds 7 and 8 also have a position; no ticket has more than
/// 64 steps, so 7's b is at most 63 whatever the position says.
pub const TABLE: [[u16; 4]; 8] = [
    [63, 0, 0, 6],
    [63, 0, 0, 6],
    [519, 0xffff, 0xffff, 4],
    [519, 519, 519, 4],
    [519, 519, 519, 4],
    [519, 519, 519, 4],
    [519, 63, 0, 1],
    [0, 0, 0, 3],
];

#[derive(Clone, Copy)]
pub struct Step {
    pub kind: u16,
    pub a: u16,
    pub b: u16,
    pub c: u16,
}

impl Step {
    #[inline(always)]
    pub fn of(w: u64) -> Step {
        Step { kind: (w >> 48) as u16, a: (w >> 32) as u16, b: (w >> 16) as u16, c: w as u16 }
    }
    pub const fn word(kind: u16, a: u16, b: u16, c: u16) -> u64 {
        (kind as u64) << 48 | (a as u64) << 32 | (b as u64) << 16 | c as u64
    }
    /// Passes cause 5 as step s of n; gives its turns.
    #[inline(always)]
    pub(crate) fn turns(self, s: usize, n: usize) -> Option<u8> {
        let row = TABLE.get((self.kind as usize).wrapping_sub(1))?;
        let fields = self.a <= row[0] && self.b <= row[1] && self.c <= row[2];
        let b = self.b as usize;
        let place = (self.kind == 8) == (s + 1 == n) && (self.kind != 7 || (b > s && b < n));
        (fields && place).then_some(row[3] as u8)
    }
    /// Held set after the step.
    #[inline(always)]
    pub(crate) fn after(self, held: u64) -> u64 {
        match self.kind {
            1 => held | bit(self.a),
            2 => held & !bit(self.a),
            _ => held,
        }
    }
    /// New value of kinds 3 to 6. A sum stops at 2^64 - 1 and a difference at 0 (5/14).
    #[inline(always)]
    pub fn value(self, load: impl Fn(u16) -> u64) -> u64 {
        match self.kind {
            3 => (self.b as u64) << 16 | self.c as u64,
            4 => load(self.b).saturating_add(load(self.c)),
            5 => load(self.b).saturating_sub(load(self.c)),
            _ => (load(self.b) < load(self.c)) as u64,
        }
    }
}

#[inline(always)]
pub(crate) fn bit(bay: u16) -> u64 {
    1 << (bay & 63)
}

/// Board word not under a held bay.
#[inline(always)]
pub(crate) fn loose(held: u64, w: u16) -> bool {
    w < 512 && held >> (w >> 3) & 1 == 0
}

/// The bays of a mask, rising.
pub(crate) fn bays(mut mask: u64) -> impl Iterator<Item = usize> {
    std::iter::from_fn(move || {
        (mask != 0).then(|| {
            let b = mask.trailing_zeros() as usize;
            mask &= mask - 1;
            b
        })
    })
}
