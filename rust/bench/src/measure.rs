//! Timing: batches of both sides by turns, and medians, so that a busy machine disturbs both alike.

use std::time::Instant;

/// A side's batch of so many times; gives the units done.
pub type Batch<'a> = &'a mut dyn FnMut(u64) -> u64;

pub struct Measured {
    /// Nanoseconds a unit.
    pub first: f64,
    pub second: f64,
    /// The median over the rounds of the second's time over the first's.
    pub ratio: f64,
}

fn seconds(batch: Batch, times: u64) -> f64 {
    let start = Instant::now();
    batch(times);
    start.elapsed().as_secs_f64()
}

fn median(values: &mut [f64]) -> f64 {
    values.sort_by(f64::total_cmp);
    values[values.len() / 2]
}

/// How often a batch does its work so that it takes some `target` seconds: short enough that most batches are not
/// interrupted, long enough for the clock.
fn times_for(batch: Batch, target: f64) -> u64 {
    let mut times = 1;
    loop {
        let taken = seconds(batch, times);
        if taken > target / 4.0 {
            return ((times as f64 * target / taken) as u64).max(1);
        }
        times *= 2;
    }
}

/// `rounds` rounds of a batch of each, the order changing from round to round. Both do the work equally often.
pub fn compared(first: Batch, second: Batch, rounds: usize) -> Measured {
    const TARGET: f64 = 0.0004;
    let (a, b) = (times_for(first, TARGET), times_for(second, TARGET));
    let times = (a.max(1) * b.max(1)).isqrt().max(1);
    let units = first(times) as f64;
    second(times);
    let (mut firsts, mut seconds_) = (vec![], vec![]);
    for round in 0..rounds {
        if round % 2 == 0 {
            firsts.push(seconds(first, times));
            seconds_.push(seconds(second, times));
        } else {
            seconds_.push(seconds(second, times));
            firsts.push(seconds(first, times));
        }
    }
    let mut ratios: Vec<f64> = firsts.iter().zip(&seconds_).map(|(f, s)| s / f).collect();
    Measured {
        first: median(&mut firsts) * 1e9 / units,
        second: median(&mut seconds_) * 1e9 / units,
        ratio: median(&mut ratios),
    }
}
