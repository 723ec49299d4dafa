//! A recorded day like a real one: desks that are handed moves between bays that several of them want, turns and rounds
//! of few turns, and a cut of power now and then. It is played while it is drawn, so that tickets go to desks that are
//! idle, and none is refused.

use crate::engine::ARGS;
use crate::sections::*;
use std::fmt::Write;
use zilpanud::Cursors;

const DESKS: usize = 8;

/// Random numbers that repeat (splitmix64).
struct Rng(u64);

impl Rng {
    fn below(&mut self, n: u64) -> u64 {
        self.0 = self.0.wrapping_add(0x9e3779b97f4a7c15);
        let z = (self.0 ^ (self.0 >> 30)).wrapping_mul(0xbf58476d1ce4e5b9);
        let z = (z ^ (z >> 27)).wrapping_mul(0x94d049bb133111eb);
        ((z ^ (z >> 31)) >> 16) % n
    }
}

/// A move between two of eight bays, with a count; one ticket in eight is longer.
fn ticket(r: &mut Rng) -> Vec<u64> {
    let from = r.below(7) as u16;
    let to = from + 1 + r.below(7 - from as u64) as u16;
    match r.below(8) {
        0 => sums(from, 24),
        _ => move_between(from, to),
    }
}

struct Office {
    r: Rng,
    image: Vec<u64>,
    cursors: Cursors,
    numbers: [u64; DESKS],
    day: String,
}

impl Office {
    fn idle(&self) -> Vec<usize> {
        (0..DESKS).filter(|&desk| self.cursors.turn[desk] == 255).collect()
    }

    fn hand_in(&mut self, desk: usize) {
        let section = ticket(&mut self.r);
        // a ticket that a cut withdrew is not handed in again: the next one has the next number
        self.numbers[desk] += 1;
        let number = self.numbers[desk];
        zilpanud::submit(&mut self.image, &mut self.cursors, desk, number, &ARGS, &section).unwrap();
        write!(self.day, "01{desk:02x}{number:016x}").unwrap();
        ARGS.iter().chain(&section).for_each(|word| write!(self.day, "{word:016x}").unwrap());
    }

    fn turns(&mut self) {
        let (desk, turns) = (self.r.below(DESKS as u64) as usize, 1 + self.r.below(8));
        for _ in 0..turns {
            zilpanud::turn(&mut self.image, &mut self.cursors, desk).unwrap();
        }
        write!(self.day, "02{desk:02x}{turns:04x}").unwrap();
    }

    fn rounds(&mut self) {
        let rounds = 1 + self.r.below(6) as u16;
        zilpanud::run(&mut self.image, &mut self.cursors, rounds).unwrap();
        write!(self.day, "04{rounds:04x}").unwrap();
    }

    fn cut(&mut self) {
        self.cursors = zilpanud::recover(&mut self.image).unwrap();
        self.day.push_str("03");
    }

    fn line(&mut self) {
        let idle = self.idle();
        match self.r.below(200) {
            0 => self.cut(),
            1..=119 if !idle.is_empty() => {
                let desk = idle[self.r.below(idle.len() as u64) as usize];
                self.hand_in(desk);
            }
            120..=149 => self.turns(),
            _ => self.rounds(),
        }
        self.day.push('\n');
    }
}

/// A day of so many frames, the first line included.
pub fn drawn(frames: u64) -> Vec<u8> {
    let mut image = vec![0; zilpanud::image_len(DESKS)];
    let cursors = zilpanud::format(&mut image, DESKS).unwrap();
    let day = format!("{DESKS:02x}\n");
    let mut office = Office { r: Rng(7), image, cursors, numbers: [0; DESKS], day };
    (1..frames).for_each(|_| office.line());
    office.day.into_bytes()
}
