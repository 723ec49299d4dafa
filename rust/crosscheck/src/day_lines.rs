//! The lines of a day, drawn: most are well formed, and where one is not, or the first is no board's, it is known.

use crate::rng::Rng;
use crate::sections;
use std::io::Write;
use zilpanud::WORKERS;

/// The sorts of malformed lines.
pub const SORTS: [&str; 10] = [
    "kind",
    "length of 01",
    "length of 02",
    "length of 03",
    "length of 04",
    "no digit",
    "upper case",
    "carriage return",
    "over 4,096 digits",
    "empty",
];

#[derive(Clone, Debug)]
pub enum Line {
    Submit {
        worker: u8,
        number: u64,
        args: [u64; 8],
        section: Vec<u64>,
    },
    Turns {
        worker: u8,
        turns: u16,
    },
    Cut,
    Rounds {
        rounds: u16,
    },
    /// Malformed, by `SORTS`.
    Wrong {
        sort: usize,
        bytes: Vec<u8>,
    },
}

impl Line {
    fn makes_turns(&self) -> bool {
        matches!(self, Line::Turns { .. } | Line::Rounds { .. })
    }

    /// Its bytes, without the one that ends it.
    fn bytes(&self) -> Vec<u8> {
        match self {
            Line::Submit { worker, number, args, section } => {
                let mut line = format!("01{worker:02x}{number:016x}").into_bytes();
                for word in args.iter().chain(section) {
                    write!(line, "{word:016x}").expect("a vector takes all");
                }
                line
            }
            Line::Turns { worker, turns } => format!("02{worker:02x}{turns:04x}").into_bytes(),
            Line::Cut => b"03".to_vec(),
            Line::Rounds { rounds } => format!("04{rounds:04x}").into_bytes(),
            Line::Wrong { bytes, .. } => bytes.clone(),
        }
    }
}

/// The first line of a day.
#[derive(Clone, Debug)]
pub enum First {
    Workers(u8),
    /// Two digits, but not 01 to 08.
    NoBoard(u8),
    Wrong(Vec<u8>),
}

impl First {
    fn bytes(&self) -> Vec<u8> {
        match self {
            First::Workers(number) | First::NoBoard(number) => format!("{number:02x}").into_bytes(),
            First::Wrong(bytes) => bytes.clone(),
        }
    }

    fn drawn(r: &mut Rng) -> First {
        match r.below(200) {
            0 => First::NoBoard(r.pick(&[0, 9, 10, 0x10, 0x11, 0x80, 0xff])),
            1 => First::NoBoard(9 + r.below(247) as u8),
            2 => First::Wrong(
                r.pick(&[&b""[..], b"0", b"1", b"001", b"0A", b"1g", b" 1", b"01\r", b"02 "]).to_vec(),
            ),
            3 => First::Wrong(vec![b'0'; r.pick(&[3, 8, 4_096, 4_097, 9_000])]),
            n if n < 100 => First::Workers(1 + r.below(3) as u8),
            _ => First::Workers(1 + r.below(8) as u8),
        }
    }
}

/// A day; without a first line it is one of no bytes.
#[derive(Clone, Debug)]
pub struct Day {
    pub first: Option<First>,
    pub lines: Vec<Line>,
    /// Whether a byte 10 ends the last line.
    pub ended: bool,
}

/// What lines are drawn by.
struct Manner {
    workers: u64,
    /// How many locks its sections have, and which is the first, so that each of the 64 is waited for on some day.
    locks: u64,
    first: u16,
    /// The highest number that each worker was given.
    numbers: [u64; WORKERS],
}

impl Manner {
    /// A worker of the day, or sometimes one that it has not.
    fn worker(&self, r: &mut Rng) -> u8 {
        match r.chance(95) {
            true => r.below(self.workers) as u8,
            false => r.pick(&[self.workers as u8, 7, 8, 9, 0x80, 255]),
        }
    }

    fn submit(&mut self, r: &mut Rng, worker: u8) -> Line {
        let last = &mut self.numbers[worker as usize % WORKERS];
        let number = match r.below(20) {
            0 => *last,
            1 => r.word(),
            _ => *last + 1,
        };
        *last = number.min(1 << 60).max(*last);
        let mut section = match r.chance(75) {
            true => sections::passing(r, self.locks, false),
            false => sections::section(r, self.locks, false),
        };
        sections::raise(&mut section, self.first);
        Line::Submit { worker, number, args: std::array::from_fn(|_| r.word()), section }
    }

    fn line(&mut self, r: &mut Rng) -> Line {
        let worker = self.worker(r);
        match r.below(1000) {
            0..=9 => self.wrong(r),
            10..=299 => self.submit(r, worker),
            300..=609 => Line::Turns { worker, turns: turns(r) },
            610..=919 => Line::Rounds { rounds: rounds(r) },
            _ => Line::Cut,
        }
    }

    /// A malformed line, from a well formed one.
    fn wrong(&mut self, r: &mut Rng) -> Line {
        let worker = self.worker(r);
        let sort = r.below(SORTS.len() as u64) as usize;
        let mut bytes = match sort {
            2 => Line::Turns { worker, turns: turns(r) }.bytes(),
            3 => Line::Cut.bytes(),
            4 => Line::Rounds { rounds: rounds(r) }.bytes(),
            1 | 8 => self.submit(r, worker).bytes(),
            _ if r.chance(40) => self.submit(r, worker).bytes(),
            _ => r.pick(&[&b"02000001"[..], b"03", b"040001"]).to_vec(),
        };
        let at = r.below(bytes.len() as u64) as usize;
        let odd = r.pick(&[1, 1, 1, 2, 3, 4, 7, 8, 15]);
        match sort {
            0 => bytes[..2].copy_from_slice(r.pick(&[b"00", b"05", b"10", b"40", b"0a", b"ff"])),
            // never by sixteen, which would be a step less or more
            1..=4 if r.chance(50) => bytes.truncate(bytes.len().saturating_sub(odd).max(1)),
            1..=4 => bytes.resize(bytes.len() + odd, b'0'),
            5 => bytes[at] = r.pick(b"gz /:@`-+\0\x7f\x80\xb1\xff"),
            6 => bytes[at] = r.pick(b"ABCDEF"),
            7 => bytes.push(b'\r'),
            8 => bytes.resize(r.pick(&[4_097, 4_100, 4_116, 10_000]), b'0'),
            _ => bytes.clear(),
        }
        Line::Wrong { sort, bytes }
    }
}

fn turns(r: &mut Rng) -> u16 {
    match r.below(1000) {
        0..=39 => 0,
        40..=799 => 1 + r.below(9) as u16,
        800..=949 => 10 + r.below(60) as u16,
        950..=994 => r.below(2_000) as u16,
        _ => u16::MAX - r.below(2) as u16,
    }
}

fn rounds(r: &mut Rng) -> u16 {
    match r.below(100) {
        0..=4 => 0,
        5..=74 => 1 + r.below(9) as u16,
        75..=89 => 10 + r.below(60) as u16,
        90..=95 => r.below(2_000) as u16,
        _ => u16::MAX - r.below(2) as u16,
    }
}

impl Day {
    pub fn drawn(r: &mut Rng) -> Day {
        let mut day = Day { first: None, lines: vec![], ended: r.chance(70) };
        if r.below(200) == 0 {
            return day;
        }
        let first = First::drawn(r);
        day.first = Some(first.clone());
        let workers = match first {
            First::Workers(number) => number as u64,
            _ => 1,
        };
        let locks = r.pick(&[2, 2, 3, 5, 8, 64]);
        let first = r.below(65 - locks) as u16;
        let mut manner = Manner { workers, locks, first, numbers: [0; WORKERS] };
        // most days start with a ticket for each desk, so that there is something to wait for
        if r.chance(70) {
            day.lines.extend((0..workers as u8).map(|worker| manner.submit(r, worker)));
        }
        match r.chance(10) {
            true => day.lines.push(Line::Rounds { rounds: rounds(r) }),
            false => day.lines.extend((0..r.below(40)).map(|_| manner.line(r))),
        }
        day
    }

    /// The workers of its board; 0 if it has none.
    pub fn workers(&self) -> usize {
        match self.first {
            Some(First::Workers(number)) => number as usize,
            _ => 0,
        }
    }

    /// The lines behind the first that are read and are well formed.
    pub fn read(&self) -> &[Line] {
        let read = self.lines.iter().position(|line| matches!(line, Line::Wrong { .. }));
        match self.workers() {
            0 => &[],
            _ => &self.lines[..read.unwrap_or(self.lines.len())],
        }
    }

    /// Why reading stops, and the lines read, by how they were drawn.
    pub fn stops(&self) -> (u64, u64) {
        match self.first {
            None => (0, 0),
            Some(First::NoBoard(_)) => (10, 1),
            Some(First::Wrong(_)) => (14, 1),
            Some(First::Workers(_)) => match self.read().len() {
                read if read < self.lines.len() => (14, read as u64 + 2),
                read => (0, read as u64 + 1),
            },
        }
    }

    /// Whether all turns of the day are those of one 04 line.
    pub fn is_one_run(&self) -> bool {
        let mut turns = self.read().iter().filter(|line| line.makes_turns());
        matches!((turns.next(), turns.next()), (Some(Line::Rounds { .. }), None))
    }

    pub fn bytes(&self) -> Vec<u8> {
        let Some(first) = &self.first else {
            return vec![];
        };
        let mut bytes = first.bytes();
        for line in &self.lines {
            bytes.push(b'\n');
            bytes.extend(line.bytes());
        }
        // an empty line is one only with the byte that ends it
        if self.ended || bytes.last().is_none_or(|&byte| byte == b'\n') {
            bytes.push(b'\n');
        }
        bytes
    }
}
