//! Where the words of an image stand, and an image opened.

use crate::answers::{no, Refusal};
use crate::stores::Meter;

/// Words before the desk records.
pub const HEAD: usize = 584;
/// Words in one desk record.
pub const REC: usize = 82;
pub const BOARD: usize = 8;
pub const LOCKS: usize = 520;
pub const MAX_DESKS: usize = 8;

// Offsets in a desk record.
pub const COUNT: usize = 0;
pub const PLACE: usize = 1;
pub const ENTRY: usize = 2; // 2,3 entry 0; 4,5 entry 1
pub const INTENT: usize = 6;
pub const OWNER: usize = 7;
pub const NUMBER: usize = 8;
pub const LAST: usize = 9;
pub const OWN: usize = 10;
pub const STEPS: usize = 18;

pub const TOP: u64 = 1 << 63;
pub const WORDS: u16 = 520; // word numbers 0..=519

type Head = [u64; HEAD];
pub(crate) type Record = [u64; REC];

/// An image that passed cause 10.
pub(crate) struct Image<'a> {
    pub(crate) head: &'a mut Head,
    pub(crate) recs: &'a mut [Record],
}

impl<'a> Image<'a> {
    #[inline]
    pub(crate) fn open(words: &'a mut [u64]) -> Result<Self, Refusal> {
        let bad = no(10, 0);
        let (head, rest) = words.split_first_chunk_mut::<HEAD>().ok_or(bad)?;
        let (recs, tail) = rest.as_chunks_mut::<REC>();
        let d = recs.len();
        // one sum of what is off, so that there is one branch
        let off = head[2..8].iter().fold(head[0] ^ 1 | head[1] ^ d as u64, |m, w| m | w);
        let right = off == 0 && tail.is_empty() && (1..=MAX_DESKS).contains(&d);
        if right {
            Ok(Image { head, recs })
        } else {
            Err(bad)
        }
    }

    #[inline(always)]
    pub(crate) fn set_head<M: Meter>(&mut self, m: &mut M, index: usize, value: u64) -> usize {
        if m.admit(index, value) {
            self.head[index] = value;
        }
        index
    }

    #[inline(always)]
    pub(crate) fn set_rec<M: Meter>(&mut self, m: &mut M, d: usize, off: usize, value: u64) -> usize {
        let index = HEAD + REC * d + off;
        if m.admit(index, value) {
            self.recs[d][off] = value;
        }
        index
    }

    /// Value of word number w (below 520) as desk d sees it.
    #[inline(always)]
    pub(crate) fn word(&self, d: usize, w: u16) -> u64 {
        let w = w as usize;
        if w < 512 {
            self.head[BOARD + w]
        } else {
            self.recs[d][OWN + (w - 512)]
        }
    }
}
