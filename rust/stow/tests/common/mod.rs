//! What the tests share: numbers drawn from a seed, random days, the given days.

#![allow(dead_code)]

use std::fs;
use std::path::PathBuf;
use stow::frame::{Frame, Ticket};
use zilpanud::code;

/// Numbers drawn one after the other (splitmix64): the same for the same seed.
pub struct Draw(pub u64);

impl Draw {
    pub fn next(&mut self) -> u64 {
        self.0 = self.0.wrapping_add(0x9e37_79b9_7f4a_7c15);
        let mut word = self.0;
        word = (word ^ word >> 30).wrapping_mul(0xbf58_476d_1ce4_e5b9);
        word = (word ^ word >> 27).wrapping_mul(0x94d0_49bb_1331_11eb);
        word ^ word >> 31
    }

    /// Below a number.
    pub fn below(&mut self, end: u64) -> u64 {
        self.next() % end
    }

    pub fn one_in(&mut self, chances: u64) -> bool {
        self.below(chances) == 0
    }

    pub fn of<T: Clone>(&mut self, items: &[T]) -> T {
        items[self.below(items.len() as u64) as usize].clone()
    }
}

/// A ticket that passes the check: it takes bays of a few, works on their words and on own words, skips, and drops. Its
/// sums, sets and comparisons do not commute with those of other tickets.
pub fn section(draw: &mut Draw) -> Vec<u64> {
    let (low, high) = (draw.below(2) as u16, 2 + draw.below(2) as u16);
    let bays = if draw.one_in(2) { vec![low] } else { vec![low, high] };
    let mut steps: Vec<u64> = bays.iter().map(|bay| code::acquire(*bay)).collect();
    let word = |draw: &mut Draw| match draw.one_in(4) {
        true => code::own(draw.below(8) as u16),
        false => 8 * draw.of(&bays) + draw.below(2) as u16,
    };
    for _ in 0..1 + draw.below(5) {
        let (a, b, c) = (word(draw), word(draw), word(draw));
        let next = steps.len() as u16;
        match draw.below(6) {
            0 => steps.push(code::set(a, draw.below(100) as u32)),
            1 | 2 => steps.push(code::add(a, b, c)),
            3 => steps.push(code::sub(a, b, c)),
            4 => steps.push(code::less(a, b, c)),
            _ => {
                steps.push(code::jump_if_zero(b, next + 2));
                steps.push(code::add(a, a, c));
            }
        }
    }
    let order: Vec<u16> = if draw.one_in(2) { bays.clone() } else { bays.iter().rev().copied().collect() };
    steps.extend(order.iter().map(|bay| code::release(*bay)));
    steps.push(code::finish());
    steps
}

/// The lines of a random day behind the first: tickets with numbers that mostly rise, turns, rounds and cuts.
pub fn day(draw: &mut Draw, desks: u8, lines: u64) -> Vec<Frame> {
    let mut numbers = vec![0; desks as usize];
    let frames = (0..lines).map(|_| match draw.below(10) {
        0..=3 => {
            let desk = draw.below(desks as u64) as u8;
            let number = &mut numbers[desk as usize];
            *number += !draw.one_in(4) as u64;
            let args = std::array::from_fn(|_| draw.below(9));
            Frame::HandIn(Ticket { desk, number: *number, args, steps: section(draw) })
        }
        4..=6 => Frame::Turns { desk: draw.below(desks as u64) as u8, turns: draw.below(30) as u16 },
        7 | 8 => Frame::Rounds { rounds: draw.below(30) as u16 },
        _ => Frame::Cut,
    });
    frames.collect()
}

/// A day's lines as bytes.
pub fn bytes(desks: u8, frames: &[Frame]) -> Vec<u8> {
    let mut text = format!("{}\n", Frame::Board { desks });
    for frame in frames {
        text += &format!("{frame}\n");
    }
    text.into_bytes()
}

/// The repository's folder.
pub fn repository() -> PathBuf {
    PathBuf::from(env!("CARGO_MANIFEST_DIR")).join("../..")
}

/// The given days and ours, with what independent programs print for them: name, day, output.
pub fn given_days() -> Vec<(String, Vec<u8>, String)> {
    let folder = repository().join("crates/board_days/data");
    let mut days = vec![];
    for entry in fs::read_dir(&folder).unwrap() {
        let path = entry.unwrap().path();
        let output = path.with_extension("out");
        if path.extension().is_some_and(|ending| ending == "frames") && output.exists() {
            let name = path.file_stem().unwrap().to_string_lossy().into_owned();
            days.push((name, fs::read(&path).unwrap(), fs::read_to_string(&output).unwrap()));
        }
    }
    assert!(days.len() > 400, "{} days in {}", days.len(), folder.display());
    days.sort();
    days
}
