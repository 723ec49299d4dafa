//! Rounds of turns, counted.

use crate::answers::*;
use crate::layout::Image;
use crate::stores::Left;
use crate::turn::one_turn;
use crate::working::Working;

/// Rounds over the desks until all are idle.
pub fn run(
    words: &mut [u64],
    mut places: Working,
    rounds: u16,
    left: u64,
    tally: &mut Tally,
) -> (Result<End, Refusal>, Working) {
    *tally = Tally::default();
    let mut img = match Image::open(words) {
        Ok(img) => img,
        Err(r) => return (Err(r), places),
    };
    let desks = img.recs.len();
    let mut m = Left(left);
    let mut sums = Tally::default();
    let mut round = 0;
    // The open desks, one bit each.
    let mut open = (0..desks).filter(|&d| !places.idle(d)).fold(0u32, |m, d| m | 1 << d);
    let end = 'run: loop {
        if open == 0 {
            break Ok(End::Idle);
        }
        if round == rounds {
            break Ok(End::Spent);
        }
        round += 1;
        let mut todo = open;
        while todo != 0 {
            let d = todo.trailing_zeros() as usize;
            todo &= todo - 1;
            match one_turn(&mut img, &mut places, d, &mut m) {
                Err(r) => break 'run Err(r),
                Ok(a) => {
                    sums.turns += 1;
                    sums.waits += matches!(a, Answer::Waiting(_)) as u64;
                    sums.stores += matches!(a, Answer::Stored(_)) as u64;
                    sums.already_free += (a == Answer::Passed(Passing::AlreadyFree)) as u64;
                    sums.others += (a == Answer::Passed(Passing::Others)) as u64;
                }
            }
            if places.idle(d) {
                open &= !(1 << d);
            }
        }
    };
    *tally = sums;
    (end, places)
}
