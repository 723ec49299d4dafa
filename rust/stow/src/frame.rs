//! Frame lines: the lines of a day, read from digits and written as digits.
//!
//! Which lines are malformed is the library's to say (`zilpanud::day_sums` stops at the first); here they are read once
//! more, so that a person can be told what is wrong with one. The tests hold both against each other.

use std::fmt;

/// The most digits of a line.
pub const LONGEST: usize = 4_096;

/// The digits of a hand-in before its steps: its kind, desk, number and eight arguments.
const HEAD: usize = 2 + 2 + 16 + ARGS * 16;

/// The digits of a step, of an argument and of a number.
const WORD: usize = 16;

const ARGS: usize = 8;

/// A ticket, as a hand-in has it. Its steps are any words.
#[derive(Clone, PartialEq, Eq, Debug)]
pub struct Ticket {
    pub desk: u8,
    pub number: u64,
    pub args: [u64; ARGS],
    pub steps: Vec<u64>,
}

/// What a line says.
#[derive(Clone, PartialEq, Eq, Debug)]
pub enum Frame {
    /// The first line of a day: a fresh board of so many desks.
    Board { desks: u8 },
    /// 01: a ticket is handed in.
    HandIn(Ticket),
    /// 02: turns of one desk.
    Turns { desk: u8, turns: u16 },
    /// 03: the power is cut, and the board recovers.
    Cut,
    /// 04: rounds, as in a run.
    Rounds { rounds: u16 },
}

/// Why a line is malformed (cause 14).
#[derive(Clone, Copy, PartialEq, Eq, Debug)]
pub enum Malformed {
    Empty,
    /// A byte that is no digit; columns count from 1.
    Character {
        column: usize,
        byte: u8,
    },
    TooLong {
        digits: usize,
    },
    /// The first line is not two digits.
    First {
        digits: usize,
    },
    /// A line of no kind.
    Kind {
        digits: [u8; 2],
    },
    /// A line of one digit.
    Short,
    /// A kind's length is another.
    Length {
        kind: &'static str,
        wanted: usize,
        digits: usize,
    },
    /// The steps of a hand-in are not whole.
    Steps {
        digits: usize,
    },
}

/// The lines of a day: ended by byte 10 or, the last, by the end of the bytes.
pub fn lines(day: &[u8]) -> impl Iterator<Item = &[u8]> {
    let ended = day.strip_suffix(b"\n").unwrap_or(day);
    let none = if day.is_empty() { 0 } else { usize::MAX };
    ended.split(|byte| *byte == b'\n').take(none)
}

/// The first line of a day.
pub fn first_line(line: &[u8]) -> Result<Frame, Malformed> {
    match digits(line)? {
        [high, low] => Ok(Frame::Board { desks: 16 * value(*high) + value(*low) }),
        digits => Err(Malformed::First { digits: digits.len() }),
    }
}

/// Any other line of a day.
pub fn frame(line: &[u8]) -> Result<Frame, Malformed> {
    let all = digits(line)?;
    let Some((kind, rest)) = all.split_first_chunk::<2>() else {
        return Err(Malformed::Short);
    };
    match kind {
        b"01" => hand_in(rest, all.len()),
        b"02" => {
            sized("turns (02)", 8, all.len())?;
            Ok(Frame::Turns { desk: number(&rest[..2]) as u8, turns: number(&rest[2..]) as u16 })
        }
        b"03" => sized("a cut (03)", 2, all.len()).map(|()| Frame::Cut),
        b"04" => {
            sized("rounds (04)", 6, all.len())?;
            Ok(Frame::Rounds { rounds: number(rest) as u16 })
        }
        _ => Err(Malformed::Kind { digits: *kind }),
    }
}

fn hand_in(rest: &[u8], digits: usize) -> Result<Frame, Malformed> {
    if digits < HEAD || !(digits - HEAD).is_multiple_of(WORD) {
        return Err(Malformed::Steps { digits });
    }
    let (desk, words) = rest.split_at(2);
    let mut words = words.chunks(WORD).map(number);
    let mut next = || words.next().unwrap_or(0);
    let (number_of, args) = (next(), std::array::from_fn(|_| next()));
    Ok(Frame::HandIn(Ticket { desk: number(desk) as u8, number: number_of, args, steps: words.collect() }))
}

/// What to do where a text in words is read as frame lines.
pub fn hint(line: u64, why: Malformed) -> &'static str {
    match why {
        Malformed::Character { byte: b' '..=b'~' | b'\t', .. } if line == 1 => {
            "; a day in words is made to frame lines by 'stow ticket'"
        }
        _ => "",
    }
}

/// The bytes of a line, if they are digits and not too many.
fn digits(line: &[u8]) -> Result<&[u8], Malformed> {
    let is_digit = |byte: &u8| matches!(byte, b'0'..=b'9' | b'a'..=b'f');
    if line.is_empty() {
        return Err(Malformed::Empty);
    }
    if let Some(at) = line.iter().position(|byte| !is_digit(byte)) {
        return Err(Malformed::Character { column: at + 1, byte: line[at] });
    }
    match line.len() {
        digits if digits > LONGEST => Err(Malformed::TooLong { digits }),
        _ => Ok(line),
    }
}

fn sized(kind: &'static str, wanted: usize, digits: usize) -> Result<(), Malformed> {
    match digits == wanted {
        true => Ok(()),
        false => Err(Malformed::Length { kind, wanted, digits }),
    }
}

fn value(digit: u8) -> u8 {
    match digit {
        b'0'..=b'9' => digit - b'0',
        _ => digit.wrapping_sub(b'a').wrapping_add(10),
    }
}

/// The number of up to sixteen digits.
fn number(digits: &[u8]) -> u64 {
    digits.iter().fold(0, |number, digit| number << 4 | value(*digit) as u64)
}

/// As its line has it, without a byte 10.
impl fmt::Display for Frame {
    fn fmt(&self, f: &mut fmt::Formatter<'_>) -> fmt::Result {
        match self {
            Frame::Board { desks } => write!(f, "{desks:02x}"),
            Frame::HandIn(Ticket { desk, number, args, steps }) => {
                write!(f, "01{desk:02x}{number:016x}")?;
                args.iter().chain(steps).try_for_each(|word| write!(f, "{word:016x}"))
            }
            Frame::Turns { desk, turns } => write!(f, "02{desk:02x}{turns:04x}"),
            Frame::Cut => write!(f, "03"),
            Frame::Rounds { rounds } => write!(f, "04{rounds:04x}"),
        }
    }
}

/// What is wrong, behind 'line 3 '.
impl fmt::Display for Malformed {
    fn fmt(&self, f: &mut fmt::Formatter<'_>) -> fmt::Result {
        match *self {
            Malformed::Empty => write!(f, "is empty"),
            Malformed::Character { column, byte: b'\r' } => {
                write!(f, "has a carriage return at column {column}; lines end with byte 10 alone")
            }
            Malformed::Character { column, byte } if byte.is_ascii_uppercase() => {
                let (found, low) = (byte as char, byte.to_ascii_lowercase() as char);
                write!(
                    f,
                    "has '{found}' at column {column}; digits are 0 to 9 and a to f, in lower case ('{low}')"
                )
            }
            Malformed::Character { column, byte } => {
                let found = byte.escape_ascii();
                write!(f, "has '{found}' at column {column}; digits are 0 to 9 and a to f, and nothing else")
            }
            Malformed::TooLong { digits } => {
                write!(f, "has {digits} digits, and a line has {LONGEST} at most")
            }
            Malformed::First { digits } => {
                write!(f, "has {digits} digits, and the first line of a day is the number of desks, in two")
            }
            Malformed::Kind { digits: [high, low] } => {
                let (high, low) = (high as char, low as char);
                write!(f, "begins with {high}{low}; lines begin with 01 (hand-in), 02 (turns), 03 (cut) or 04 (rounds)")
            }
            Malformed::Short => write!(f, "has one digit"),
            Malformed::Length { kind, wanted, digits } => {
                write!(f, "has {digits} digits, and a line of {kind} has {wanted}")
            }
            Malformed::Steps { digits } => {
                write!(f, "has {digits} digits, and a hand-in (01) has {HEAD} and {WORD} for each step")
            }
        }
    }
}

#[cfg(test)]
mod tests {
    use super::*;

    #[test]
    fn lines_of_a_day() {
        let of = |day: &'static str| lines(day.as_bytes()).collect::<Vec<_>>();
        assert_eq!(of(""), Vec::<&[u8]>::new());
        assert_eq!(of("\n"), [b""]);
        assert_eq!(of("01"), [b"01"]);
        assert_eq!(of("01\n"), [b"01"]);
        assert_eq!(of("01\n\n"), [&b"01"[..], b""]);
        assert_eq!(of("01\n03"), [b"01", b"03"]);
    }

    /// The lengths of the manual's table of frame lines.
    #[test]
    fn lengths() {
        let hand_in = |digits: usize| frame(&[b"01", &vec![b'0'; digits - 2][..]].concat());
        for steps in [0, 1, 64, 246] {
            let Ok(Frame::HandIn(ticket)) = hand_in(148 + 16 * steps) else { panic!("{steps}") };
            assert_eq!(ticket.steps.len(), steps);
        }
        for digits in [2, 147, 149, 163, 165] {
            assert_eq!(hand_in(digits), Err(Malformed::Steps { digits }));
        }
        assert_eq!(hand_in(4_100), Err(Malformed::TooLong { digits: 4_100 }));
        assert_eq!(frame(b"02010010"), Ok(Frame::Turns { desk: 1, turns: 16 }));
        assert_eq!(frame(b"04ffff"), Ok(Frame::Rounds { rounds: 65_535 }));
        assert_eq!(frame(b"0301"), Err(Malformed::Length { kind: "a cut (03)", wanted: 2, digits: 4 }));
        assert_eq!(frame(b"05"), Err(Malformed::Kind { digits: *b"05" }));
        assert_eq!(first_line(b"0a"), Ok(Frame::Board { desks: 10 }));
        assert_eq!(first_line(b"001"), Err(Malformed::First { digits: 3 }));
    }
}
