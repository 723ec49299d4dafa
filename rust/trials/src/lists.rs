//! Lists of calls drawn from a seed, each with all its cuts.

use crate::call::{Call, Given};
use crate::digest::{workers, Digest};
use crate::engine::Engine;
use std::fmt::Write;
use zilpanud::Cursors;

/// The sections that lists draw.
pub type Dealt = [Vec<u64>; 16];

/// The next of a fixed row of numbers (xorshift).
fn next(mut seed: u64) -> u64 {
    seed ^= seed << 13;
    seed ^= seed >> 7;
    seed ^ (seed << 17)
}

/// The call that a seed draws: of sixteen seven submit, four make a turn, four run up to 8 rounds, one recovers. The
/// worker is sometimes one that the image has not. A number is up to 7 above the worker's last finished one, which it
/// must be above.
fn drawn(seed: u64, workers: u64, image: &[u64]) -> Call {
    let worker = (seed >> 20) % (4 * workers + 1) / 4;
    match (seed >> 16) % 16 {
        0..=6 => {
            let finished = image.get(584 + 82 * worker as usize + 9).copied().unwrap_or(0);
            Call::Submit { worker, number: finished.wrapping_add((seed >> 40) % 8) }
        }
        7..=10 => Call::Turn(worker),
        11..=14 => Call::Run(((seed >> 32) % 9) as u16),
        _ => Call::Recover,
    }
}

/// The row of the section that a seed draws, of forty: the first fourteen that are dealt, and then the first eight
/// again and again.
fn row(seed: u64) -> usize {
    let n = (seed >> 28) % 40;
    if n < 14 {
        n as usize
    } else {
        (n % 8) as usize
    }
}

/// A list of so many calls, from where the image and the cursors stand: the cuts of each before it is made, and a line
/// after some hundred plays. Argument 0 decides a jump, argument 1 is an amount.
pub fn play<E: Engine>(
    mut digest: Digest<E>,
    image: &mut [u64],
    cursors: &mut Cursors,
    dealt: &Dealt,
    mut seed: u64,
    calls: u64,
) {
    let workers = workers(image);
    let mut told = 0;
    for _ in 0..calls {
        seed = next(seed);
        let call = drawn(seed, workers, image);
        let args = [(seed >> 50) % 2, seed >> 8, seed, 3, 4, 5, 6, 7];
        let given = Given { args: &args, section: &dealt[row(seed)] };
        if digest.aloud {
            writeln!(digest.out, "{}", call.text()).unwrap();
        }
        digest.cuts(call, image, *cursors, given);
        let made = call.make(digest.engine, image, *cursors, given, u64::MAX);
        digest.call(&made, image);
        *cursors = made.cursors;
        if digest.plays - told >= 400 {
            tell(&mut digest, workers);
            told = digest.plays;
        }
    }
    tell(&mut digest, workers);
}

fn tell<E: Engine>(digest: &mut Digest<E>, workers: u64) {
    write!(digest.out, "{workers} workers, ").unwrap();
    digest.tell();
}
