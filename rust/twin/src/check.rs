//! The check of a ticket: causes 4 to 9.

use crate::answers::{no, Refusal};
use crate::step::{loose, Step};

/// The held set before each step, in one pass (3/14), and 0 from the count up, also where the last step leaves bays held; or
/// cause 4, or 5 with its lowest step. Causes 6 to 9 aren't tested: a take adds its bay and a drop removes it all the same,
/// and a skip changes nothing, so a set goes by the step's place alone.
#[inline]
pub fn held_sets(steps: &[u64]) -> Result<[u64; 64], Refusal> {
    let n = steps.len();
    if !(3..=64).contains(&n) {
        return Err(no(4, 0));
    }
    let mut before = [0u64; 64];
    let mut held = 0;
    for (i, (&w, slot)) in steps.iter().zip(before.iter_mut()).enumerate() {
        let s = Step::of(w);
        if s.turns(i, n).is_none() {
            return Err(no(5, i));
        }
        *slot = held;
        held = s.after(held);
    }
    Ok(before)
}

/// Causes 4 to 9; gives the held set before each step.
pub(crate) fn checked(steps: &[u64]) -> Result<[u64; 64], Refusal> {
    let before = held_sets(steps)?;
    for (i, (&w, &held)) in steps.iter().zip(before.iter()).enumerate() {
        let s = Step::of(w);
        let six = if i == 0 { s.kind != 1 } else { (held == 0) != (s.kind == 8) };
        if six {
            return Err(no(6, i));
        }
        let (seven, eight, nine) = match s.kind {
            // the highest held bay is 63 - leading zeros, -1 with none held
            1 => (s.a as u32 + held.leading_zeros() <= 63, false, false),
            2 => (held >> s.a & 1 == 0, false, false),
            3 => (false, loose(held, s.a), false),
            4..=6 => (false, loose(held, s.a) || loose(held, s.b) || loose(held, s.c), false),
            7 => (false, loose(held, s.a), before[s.b as usize & 63] != held),
            _ => (false, false, false),
        };
        if seven {
            return Err(no(7, i));
        }
        if eight {
            return Err(no(8, i));
        }
        if nine {
            return Err(no(9, i));
        }
    }
    Ok(before)
}

/// The check alone (6/14): first of causes 4 to 9 that the steps fail, of any words and any number of them. No image.
pub fn check(steps: &[u64]) -> Result<(), Refusal> {
    checked(steps).map(|_| ())
}
