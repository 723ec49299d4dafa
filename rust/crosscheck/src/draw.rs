//! The calls of a list.

use crate::call::{Call, Lent};
use crate::rng::Rng;
use crate::sections;
use twin::{HEAD, LAST, NUMBER, REC};

/// A worker of the image, or sometimes one that it has not.
fn worker(r: &mut Rng, workers: u64) -> usize {
    if r.chance(92) {
        return r.below(workers) as usize;
    }
    r.pick(&[workers as usize, 7, 8, 9, 255, 256, 1 << 32, usize::MAX])
}

/// A word of a worker's record; 0 where the image has no such worker.
fn recorded(image: &[u64], worker: usize, offset: usize) -> u64 {
    let index = REC.checked_mul(worker).and_then(|n| n.checked_add(HEAD + offset));
    index.and_then(|i| image.get(i)).copied().unwrap_or(0)
}

/// A number to ask a worker after: about the one of its section or the last finished, or at an end of the range.
fn asked_number(r: &mut Rng, image: &[u64], worker: usize) -> u64 {
    let near = recorded(image, worker, r.pick(&[NUMBER, LAST]));
    match r.below(10) {
        0 => r.pick(&[0, u64::MAX]),
        1..=4 => near,
        _ => near.wrapping_add(r.below(5)).wrapping_sub(2),
    }
}

fn number(r: &mut Rng, image: &[u64], worker: usize) -> u64 {
    let finished = recorded(image, worker, LAST);
    match r.below(10) {
        0 => finished.wrapping_sub(r.below(2)),
        1 => r.word(),
        _ => finished.wrapping_add(1 + r.below(3)),
    }
}

/// A worker that is not idle, where there is one.
fn open_worker(r: &mut Rng, workers: u64, lent: &Lent) -> usize {
    let open: Vec<usize> = (0..workers as usize).filter(|&d| lent.turn[d] != 255).collect();
    match !open.is_empty() && r.chance(85) {
        true => r.pick(&open),
        false => worker(r, workers),
    }
}

fn submit(r: &mut Rng, image: &[u64], workers: u64, lent: &Lent, totals: bool) -> Call {
    let idle: Vec<usize> = (0..workers as usize).filter(|&d| lent.turn[d] == 255).collect();
    let worker = match !idle.is_empty() && r.chance(70) {
        true => r.pick(&idle),
        false => worker(r, workers),
    };
    let locks = r.pick(&[2, 3, 5, 8, 64]);
    Call::Submit {
        worker,
        number: number(r, image, worker),
        args: std::array::from_fn(|_| if totals { r.total() } else { r.word() }),
        section: sections::section(r, locks, totals),
    }
}

fn rounds(r: &mut Rng, workers: u64) -> u16 {
    match r.below(40) {
        0 => 0,
        1..=31 => r.below(10) as u16,
        32..=35 => r.below(60) as u16,
        36..=38 => 384 * workers as u16,
        _ if r.chance(5) => u16::MAX,
        _ => r.below(1000) as u16,
    }
}

/// The next call, where the image is formatted for so many workers. `totals`: its section has many, near the ends.
pub fn call(r: &mut Rng, image: &[u64], workers: u64, lent: &Lent, totals: bool) -> Call {
    let someone = worker(r, workers);
    match r.below(100) {
        0..=24 => submit(r, image, workers, lent, totals),
        25..=62 => Call::Turn { worker: open_worker(r, workers, lent) },
        63..=77 => Call::Run { rounds: rounds(r, workers) },
        78..=85 => Call::Recover,
        86..=89 => {
            let locks = r.pick(&[2, 5, 64]);
            Call::Check { section: sections::section(r, locks, totals) }
        }
        90..=92 => Call::IsIdle { worker: someone },
        93..=95 => Call::Finished { worker: someone },
        96..=98 => Call::Standing { worker: someone, number: asked_number(r, image, someone) },
        _ => {
            let other = r.pick(&[0, 1, 2, 8, 9, u64::MAX]);
            Call::Format { workers: if r.chance(50) { workers } else { other } }
        }
    }
}

/// Any mask of locks held: one lock more or less than there were, none, all, or anything.
pub fn odd_mask(r: &mut Rng, lent: &mut Lent) {
    let was = lent.held;
    let masks = [was ^ 1 << r.below(6), was ^ 1 << r.below(64), r.word(), r.next(), 0, u64::MAX];
    lent.held = r.pick(&masks);
}

/// Cursors of any bytes: for one worker or for all, near a section's steps and turns or anything.
pub fn odd_cursors(r: &mut Rng, lent: &mut Lent) {
    let all = r.chance(30);
    let one = r.below(8) as usize;
    for d in 0..8 {
        if all || d == one {
            lent.step[d] = if r.chance(70) { r.below(20) } else { r.below(256) } as u8;
            lent.turn[d] = match r.below(10) {
                0..=6 => r.below(8) as u8,
                7 => 255,
                _ => r.below(256) as u8,
            };
        }
    }
}
