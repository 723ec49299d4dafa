//! Frame lines as document 01 has them, and what a day of them must come to.

use std::fmt::Write;
use zilpanud::{DayEnd, DaySums, LOCKS, WORKERS};

pub const CUT: &str = "03\n";

/// A submit with arguments 0.
pub fn submit(worker: usize, number: u64, section: &[u64]) -> String {
    let mut line = format!("01{worker:02x}{number:016x}{}", "0".repeat(8 * 16));
    section.iter().for_each(|word| write!(line, "{word:016x}").unwrap());
    line + "\n"
}

pub fn turns(worker: usize, turns: u16) -> String {
    format!("02{worker:02x}{turns:04x}\n")
}

pub fn rounds(rounds: u16) -> String {
    format!("04{rounds:04x}\n")
}

/// What a day must come to: what is not named is 0, and all its lines are read.
#[derive(Clone, Copy)]
pub struct Expected(DaySums);

/// A day without a turn.
pub const NO_TURNS: Expected = Expected(DaySums {
    locks: [0; LOCKS],
    waited: [0; WORKERS],
    moved: [0; WORKERS],
    lines: 0,
    end: DayEnd::Read,
});

impl Expected {
    /// So many more turns of a worker that did not wait.
    pub fn moved(mut self, worker: usize, turns: u64) -> Expected {
        self.0.moved[worker] += turns;
        self
    }

    /// So many more turns of a worker that waited for a lock.
    pub fn waited(mut self, worker: usize, lock: usize, turns: u64) -> Expected {
        self.0.waited[worker] += turns;
        self.0.locks[lock] += turns;
        self
    }

    /// Of a day of these bytes, all lines of which are read.
    pub fn of(mut self, day: &str) {
        self.0.lines = day.lines().count() as u64;
        assert_eq!(zilpanud::day_sums(day.as_bytes()), self.0, "{day:.4000}");
    }

    /// Of bytes whose reading stops at a line.
    pub fn up_to(mut self, line: u64, end: DayEnd, day: &[u8]) {
        (self.0.lines, self.0.end) = (line, end);
        assert_eq!(zilpanud::day_sums(day), self.0, "{}", day.escape_ascii());
    }
}
