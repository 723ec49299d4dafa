//! Formatting, the hand-in, and the question after a ticket.

use crate::answers::{no, Refusal, Standing};
use crate::check::check;
use crate::layout::*;
use crate::stores::{Left, Meter};
use crate::working::Working;

/// Formats the image for d desks; all places idle and no bay held are returned either way.
pub fn format(words: &mut [u64], d: u64, left: u64) -> (Result<(), Refusal>, Working) {
    let right = (1..=MAX_DESKS as u64).contains(&d) && words.len() == HEAD + REC * d as usize;
    if !right {
        return (Err(no(10, 0)), Working::ALL_IDLE);
    }
    let mut m = Left(left);
    let mut put = |i: usize, v: u64| {
        if m.admit(i, v) {
            words[i] = v;
        }
    };
    put(0, 0);
    put(1, d);
    for i in 2..HEAD + REC * d as usize {
        put(i, 0);
    }
    put(0, 1);
    (Ok(()), Working::ALL_IDLE)
}

/// Hands a ticket in at a desk: causes 10, 1, 2 and 3, then the check, then the stores (6/14).
pub fn hand_in(
    words: &mut [u64],
    mut places: Working,
    desk: u64,
    number: u64,
    args: &[u64; 8],
    steps: &[u64],
    left: u64,
) -> (Result<(), Refusal>, Working) {
    let done = hand_in_at(words, &mut places, desk, number, args, steps, left);
    (done, places)
}

fn hand_in_at(
    words: &mut [u64],
    places: &mut Working,
    desk: u64,
    number: u64,
    args: &[u64; 8],
    steps: &[u64],
    left: u64,
) -> Result<(), Refusal> {
    let mut img = Image::open(words)?;
    if desk >= img.recs.len() as u64 {
        return Err(no(1, 0));
    }
    let d = desk as usize;
    let rec = &img.recs[d];
    if !places.idle(d) || rec[COUNT] != 0 || rec[PLACE] != 0 {
        return Err(no(2, 0));
    }
    if number <= rec[LAST] {
        return Err(no(3, 0));
    }
    check(steps)?;
    let m = &mut Left(left);
    img.set_rec(m, d, NUMBER, number);
    for (i, &a) in args.iter().enumerate() {
        img.set_rec(m, d, OWN + i, a);
    }
    for (i, &s) in steps.iter().enumerate() {
        img.set_rec(m, d, STEPS + i, s);
    }
    img.set_rec(m, d, COUNT, steps.len() as u64);
    places.at(d, 0, 0);
    Ok(())
}

/// Asks a desk after a ticket by its number, a question that document 01 has not: finished if the number is at most the last
/// finished one, begun if place is not 0 and the record has this number; causes 10 and 1. Nothing is stored; `&mut` is what
/// opening an image takes.
pub fn standing(words: &mut [u64], desk: u64, number: u64) -> Result<Standing, Refusal> {
    let img = Image::open(words)?;
    if desk >= img.recs.len() as u64 {
        return Err(no(1, 0));
    }
    let rec = &img.recs[desk as usize];
    let begun = rec[PLACE] != 0 && rec[NUMBER] == number;
    Ok(match number <= rec[LAST] {
        true => Standing::Finished,
        false if begun => Standing::Begun,
        false => Standing::NotBegun,
    })
}
