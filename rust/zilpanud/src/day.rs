//! How long workers waited for locks in a recorded day.

use crate::{raw, LOCKS, WORKERS};
use std::fmt;

/// What the turns of a recorded day came to ([`day_sums`]).
///
/// Every turn of a worker that was not idle is in just one of `waited` and `moved`. A number that would pass 2^64 − 1
/// stays there, each by itself; while none has, the numbers of `locks` add up to those of `waited`.
#[derive(Clone, Copy, PartialEq, Eq, Hash, Debug)]
pub struct DaySums {
    /// Of each lock (document 01's bay), how many turns answered waiting on it.
    pub locks: [u64; LOCKS],
    /// Of each worker (document 01's desk), how many of its turns waited.
    pub waited: [u64; WORKERS],
    /// Of each worker, how many of its turns did not: they stored, or passed.
    pub moved: [u64; WORKERS],
    /// How many lines were read, the one that stopped the reading included.
    pub lines: u64,
    /// Why no more were read.
    pub end: DayEnd,
}

/// Why no more lines of a day were read.
///
/// As text it is one sentence in the words of the papers, without a full stop, for the planner who recorded the day.
#[derive(Clone, Copy, PartialEq, Eq, Hash, Debug)]
#[non_exhaustive]
pub enum DayEnd {
    /// There are no more.
    Read,
    /// 14: a line is malformed, and the sums are those up to there.
    Malformed {
        /// Which line, from 1.
        line: u64,
    },
    /// 10: the first line has two digits, and no image has so many workers. The sums are 0.
    NoBoard,
    /// A number that the call does not have. The library is proved to give none, so another version of it is linked
    /// than the one that this crate was written for ([`Cause::Unknown`](crate::Cause::Unknown)).
    Unknown {
        /// The number that the library gave.
        answer: u64,
    },
}

impl DayEnd {
    /// The end of an answer and its lines.
    fn of(answer: u64, lines: u64) -> DayEnd {
        match answer {
            0 => DayEnd::Read,
            10 => DayEnd::NoBoard,
            14 => DayEnd::Malformed { line: lines },
            _ => DayEnd::Unknown { answer },
        }
    }

    /// Document 01's number: 14, 10, or 0 where all lines were read.
    pub const fn number(self) -> u64 {
        match self {
            DayEnd::Read => 0,
            DayEnd::Malformed { .. } => 14,
            DayEnd::NoBoard => 10,
            DayEnd::Unknown { answer } => answer,
        }
    }
}

impl fmt::Display for DayEnd {
    fn fmt(&self, f: &mut fmt::Formatter<'_>) -> fmt::Result {
        match self {
            DayEnd::Read => write!(f, "all lines were read"),
            DayEnd::Malformed { line } => {
                write!(f, "line {line} is malformed (14), and nothing behind it was read")
            }
            DayEnd::NoBoard => {
                write!(f, "no board has as many desks as line 1 says (10), and nothing behind it was read")
            }
            DayEnd::Unknown { answer } => write!(f, "the library has no answer {answer} in this version"),
        }
    }
}

/// How long workers waited for locks in a recorded day: frame lines, the whole day in memory. Any bytes will do. The day
/// is played from its first line on as the program `board` plays it, on an image of the call's own; nothing is printed,
/// and nothing is allocated. The same bytes have the same sums.
///
/// They are the turns of all 02 and 04 lines, also across a 03. An 02 line of 65,535 turns of a worker that waits is
/// 65,535 waits. Turns of idle workers and refused turns are in none.
///
/// Where reading stops early, the sums are those up to there, and [`end`](DaySums::end) says why. Empty bytes are a day
/// of no lines.
///
/// ```
/// use zilpanud::code::{acquire, finish, release, set};
/// use zilpanud::DayEnd;
///
/// // Document 01's ticket for workers 0 and 1, which both want lock 3, and rounds to their end.
/// let steps: String = [acquire(3), set(24, 5), release(3), finish()].map(|word| format!("{word:016x}")).concat();
/// let (number, args) = ("0".repeat(15) + "1", "0".repeat(8 * 16));
/// let day = format!("02\n0100{number}{args}{steps}\n0101{number}{args}{steps}\n04ffff\n");
/// let sums = zilpanud::day_sums(day.as_bytes());
///
/// // Worker 0 takes the lock in round 2 and frees it in round 15, before worker 1's turn: that waits in rounds 2 to 14.
/// assert_eq!((sums.locks[3], sums.waited[..2].to_vec()), (13, vec![0, 13]));
/// assert_eq!(sums.moved[..2], [6 + 4 + 6 + 3; 2]);
/// assert_eq!((sums.lines, sums.end), (4, DayEnd::Read));
///
/// let cut_short = zilpanud::day_sums(&day.as_bytes()[..day.len() - 2]);
/// assert_eq!(cut_short.waited, [0; 8]);
/// assert_eq!(cut_short.end.to_string(), "line 4 is malformed (14), and nothing behind it was read");
/// ```
pub fn day_sums(bytes: &[u8]) -> DaySums {
    let (mut locks, mut waited, mut moved, mut lines) = ([0; LOCKS], [0; WORKERS], [0; WORKERS], 0);
    let (start, len) = (bytes.as_ptr(), bytes.len());
    // SAFETY: every pointer comes from a live reference of its own, and the length is its slice's.
    let answer =
        unsafe { raw::zilpanud_day_sums(start, len, &mut locks, &mut waited, &mut moved, &mut lines) };
    DaySums { locks, waited, moved, lines, end: DayEnd::of(answer, lines) }
}

#[cfg(test)]
mod tests {
    use super::*;

    #[test]
    fn an_end_has_its_number() {
        for answer in [0, 10, 14] {
            assert_eq!(DayEnd::of(answer, 7).number(), answer);
        }
        assert_eq!(DayEnd::of(14, 7), DayEnd::Malformed { line: 7 });
    }

    /// What the library is proved not to answer.
    #[test]
    fn other_answers_are_unknown() {
        for answer in (1..10).chain(11..14).chain(15..37).chain([1 << 32, u64::MAX]) {
            let end = DayEnd::of(answer, 7);
            assert_eq!((end, end.number()), (DayEnd::Unknown { answer }, answer));
            assert_eq!(end.to_string(), format!("the library has no answer {answer} in this version"));
        }
    }
}
