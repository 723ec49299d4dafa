//! Recovery: which records and bays it accepts, and its stores.

use crate::answers::{no, Refusal};
use crate::check::checked;
use crate::layout::*;
use crate::step::{bays, Step};
use crate::stores::{Left, Meter};
use crate::working::Working;

/// A sound record's owed set and where its desk goes on.
pub(crate) struct Owed {
    set: u64,
    pub(crate) begun: Option<(usize, u8)>,
}

/// Cause 12's test of one record.
pub(crate) fn sound(rec: &Record, d: usize) -> Option<Owed> {
    let (n, place) = (rec[COUNT], rec[PLACE]);
    if n == 0 {
        return (place == 0 && rec[OWNER] == 0).then_some(Owed { set: 0, begun: None });
    }
    if n > 64 || rec[NUMBER] == 0 || rec[NUMBER] < rec[LAST] {
        return None;
    }
    let steps = &rec[STEPS..STEPS + n as usize];
    let before = checked(steps).ok()?;
    if place == 0 {
        return (rec[OWNER] == 0).then_some(Owed { set: 0, begun: None });
    }
    let s = (place & !TOP).wrapping_sub(1);
    if s >= n {
        return None;
    }
    let s = s as usize;
    let step = Step::of(steps[s]);
    let active = (place >> 63) as usize;
    let (addr, value) = (rec[ENTRY + 2 * active], rec[ENTRY + 2 * active + 1]);
    let held = before[s];
    let after = step.after(held);
    let base = HEAD + REC * d;
    let (target, turn) = match step.kind {
        1 => (base + OWNER, 5),
        2 => (base + OWNER, 3),
        3..=6 => {
            let w = step.a as usize;
            (if w < 512 { BOARD + w } else { base + OWN + (w - 512) }, 3)
        }
        _ => return None,
    };
    let owner = rec[OWNER];
    let set = if step.kind == 1 { after } else { owner };
    let right = addr == target as u64
        && (owner == held || owner == after)
        && (step.kind > 2 || value == after)
        && set & !rec[INTENT] == 0;
    right.then_some(Owed { set, begun: Some((s, turn)) })
}

/// Recovery, its stores going through a meter.
pub fn recover_with<M: Meter>(words: &mut [u64], m: &mut M) -> (Result<(), Refusal>, Working) {
    let refused = |r| (Err(r), Working::ALL_IDLE);
    let mut img = match Image::open(words) {
        Ok(img) => img,
        Err(r) => return refused(r),
    };
    let desks = img.recs.len();
    let mut places = Working::ALL_IDLE;
    let mut owed = [0u64; MAX_DESKS];
    let (mut once, mut twice, mut meant) = (0u64, 0u64, 0u64);
    for (d, rec) in img.recs.iter().enumerate() {
        let Some(o) = sound(rec, d) else { return refused(no(12, d)) };
        owed[d] = o.set;
        twice |= once & o.set;
        once |= o.set;
        meant |= rec[INTENT];
        if let Some((s, t)) = o.begun {
            places.at(d, s, t);
        }
    }
    for bay in 0..64 {
        let lock = img.head[LOCKS + bay];
        let stray = lock != 0 && (lock > desks as u64 || img.recs[lock as usize - 1][INTENT] >> bay & 1 == 0);
        if stray || twice >> bay & 1 == 1 {
            return refused(no(13, bay));
        }
    }
    places.held = once;
    for bay in bays(meant) {
        img.set_head(m, LOCKS + bay, 0);
    }
    for d in 0..desks {
        img.set_rec(m, d, INTENT, owed[d]);
    }
    for d in 0..desks {
        if img.recs[d][PLACE] == 0 && img.recs[d][COUNT] != 0 {
            img.set_rec(m, d, COUNT, 0);
        }
    }
    for (d, &set) in owed.iter().enumerate().take(desks) {
        for bay in bays(set) {
            img.set_head(m, LOCKS + bay, d as u64 + 1);
        }
    }
    (Ok(()), places)
}

/// Recovery.
pub fn recover(words: &mut [u64], left: u64) -> (Result<(), Refusal>, Working) {
    recover_with(words, &mut Left(left))
}
