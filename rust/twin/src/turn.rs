//! One turn.

use crate::answers::*;
use crate::layout::*;
use crate::step::{bit, Step};
use crate::stores::{Left, Meter};
use crate::working::Working;

/// One turn of desk d (below D) that isn't idle.
#[inline(always)]
pub(crate) fn one_turn<M: Meter>(
    img: &mut Image,
    places: &mut Working,
    d: usize,
    m: &mut M,
) -> Result<Answer, Refusal> {
    let refused = Err(no(11, d));
    let rec = &img.recs[d];
    let (s, t) = (places.step[d] as usize, places.turn[d]);
    let n = rec[COUNT];
    if !(3..=64).contains(&n) || s as u64 >= n {
        return refused;
    }
    let n = n as usize;
    let step = Step::of(rec[STEPS + (s & 63)]);
    match step.turns(s, n) {
        Some(turns) if t < turns => (),
        _ => return refused,
    }
    let place = rec[PLACE];
    let active = (place >> 63) as usize;

    // The logged store's four turns; `target` is an image index.
    macro_rules! logged {
        ($t:expr, $target:expr, $value:expr, $write:expr) => {
            match $t {
                0 => img.set_rec(m, d, ENTRY + 2 * (1 - active), $target as u64),
                1 => {
                    let v = $value;
                    img.set_rec(m, d, ENTRY + 2 * (1 - active) + 1, v)
                }
                2 => img.set_rec(m, d, PLACE, (s as u64 + 1) | (!place & TOP)),
                _ => {
                    let v = rec[ENTRY + 2 * active + 1];
                    $write(img, m, v)
                }
            }
        };
    }
    let base = HEAD + REC * d;
    let owner = rec[OWNER];
    let own_store = |img: &mut Image, m: &mut M, v| img.set_rec(m, d, OWNER, v);

    let (index, last) = match step.kind {
        1 => {
            let bay = step.a as usize & 63;
            match t {
                0 => {
                    let v = rec[INTENT] | bit(step.a);
                    (img.set_rec(m, d, INTENT, v), false)
                }
                1 => {
                    if img.head[LOCKS + bay] != 0 {
                        return Ok(Answer::Waiting(bay as u8));
                    }
                    places.held |= bit(step.a);
                    (img.set_head(m, LOCKS + bay, d as u64 + 1), false)
                }
                _ => (logged!(t - 2, base + OWNER, owner | bit(step.a), own_store), t == 5),
            }
        }
        2 => {
            let bay = step.a as usize & 63;
            match t {
                4 => {
                    if let Some(how) = report(img.head[LOCKS + bay], d).passing() {
                        places.turn[d] = 5;
                        return Ok(Answer::Passed(how));
                    }
                    places.held &= !bit(step.a);
                    (img.set_head(m, LOCKS + bay, 0), false)
                }
                5 => {
                    let v = rec[INTENT] & !bit(step.a);
                    (img.set_rec(m, d, INTENT, v), true)
                }
                _ => (logged!(t, base + OWNER, owner & !bit(step.a), own_store), false),
            }
        }
        3..=6 => {
            let w = step.a as usize;
            let target = if w < 512 { BOARD + w } else { base + OWN + (w - 512) };
            let write = |img: &mut Image, m: &mut M, v| {
                if w < 512 {
                    img.set_head(m, BOARD + w, v)
                } else {
                    img.set_rec(m, d, OWN + (w - 512), v)
                }
            };
            (logged!(t, target, step.value(|w| img.word(d, w)), write), t == 3)
        }
        7 => {
            let to = if img.word(d, step.a) == 0 { step.b as usize } else { s + 1 };
            places.at(d, to, 0);
            return Ok(Answer::Passed(Passing::Jump));
        }
        _ => match t {
            0 => {
                let v = rec[NUMBER];
                (img.set_rec(m, d, LAST, v), false)
            }
            1 => (img.set_rec(m, d, PLACE, 0), false),
            _ => {
                let i = img.set_rec(m, d, COUNT, 0);
                places.rest(d);
                return Ok(Answer::Stored(i));
            }
        },
    };
    if last {
        places.at(d, s + 1, 0);
    } else {
        places.turn[d] = t + 1;
    }
    Ok(Answer::Stored(index))
}

/// One turn of a desk.
pub fn turn(
    words: &mut [u64],
    mut places: Working,
    desk: u64,
    left: u64,
) -> (Result<Answer, Refusal>, Working) {
    let answer = (|| {
        let mut img = Image::open(words)?;
        if desk >= img.recs.len() as u64 {
            return Err(no(1, 0));
        }
        let d = desk as usize;
        if places.idle(d) {
            return Ok(Answer::Idle);
        }
        one_turn(&mut img, &mut places, d, &mut Left(left))
    })();
    (answer, places)
}
