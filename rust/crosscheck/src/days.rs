//! Recorded days: their sums as the library's call writes them to words that it is lent, as the wrapper gives them, and
//! as the twin does; where reading stops, by the lines as they were drawn; and on some days the turns by the library's
//! own calls, one by one.

use crate::day_calls::{self, Played};
use crate::day_counts::DayCounts;
use crate::day_lines::Day;
use crate::rng::Rng;
use std::array::from_fn;
use zilpanud::{DayEnd, DaySums, LOCKS, WORKERS};

unsafe extern "C" {
    /// As `include/zilpanud.h` declares it. The wrapper lends words of its own that are 0, in which one does not see
    /// whether all of them are written.
    fn zilpanud_day_sums(
        bytes: *const u8,
        length: usize,
        locks: *mut u64,
        waited: *mut u64,
        moved: *mut u64,
        detail: *mut u64,
    ) -> u64;
}

/// What is told of a day.
#[derive(Clone, Copy, PartialEq, Eq, Debug)]
pub struct Told {
    pub cause: u64,
    /// The lines read, the one that stopped the reading included.
    pub lines: u64,
    pub locks: [u64; LOCKS],
    pub waited: [u64; WORKERS],
    pub moved: [u64; WORKERS],
}

fn library(bytes: &[u8]) -> Told {
    // no two words of an array are the same, and none is a sum that a day is likely to have
    let junk = |i: usize| 0x96a5_c3f0_5a69_0f3d_u64.rotate_left(i as u32);
    let (locks, waited, moved) = (from_fn(junk), from_fn(junk), from_fn(junk));
    let mut told = Told { cause: 0, lines: junk(1), locks, waited, moved };
    let Told { lines, locks, waited, moved, .. } = &mut told;
    let (locks, waited, moved) = (locks.as_mut_ptr(), waited.as_mut_ptr(), moved.as_mut_ptr());
    // SAFETY: every pointer comes from a live reference of its own, to as many words as the call asks for.
    told.cause = unsafe { zilpanud_day_sums(bytes.as_ptr(), bytes.len(), locks, waited, moved, lines) };
    told
}

fn wrapper(bytes: &[u8]) -> Told {
    let DaySums { locks, waited, moved, lines, end } = zilpanud::day_sums(bytes);
    let lines = match end {
        DayEnd::Malformed { line } if line != lines => u64::MAX, // it differs from all
        _ => lines,
    };
    Told { cause: end.number(), lines, locks, waited, moved }
}

fn twins(bytes: &[u8]) -> Told {
    let twin::days::DaySums { bays, waited, moved, cause, read } = twin::days::day_sums(bytes);
    Told { cause, lines: read, locks: bays, waited, moved }
}

/// The day as text, for a difference.
fn text(bytes: &[u8]) -> String {
    bytes.split_inclusive(|&byte| byte == b'\n').map(|line| format!("  {}\n", line.escape_ascii())).collect()
}

/// The sums of any bytes, the same by all three.
pub fn compared(bytes: &[u8]) -> Result<Told, String> {
    let twins = twins(bytes);
    for (who, ours) in [("library", library(bytes)), ("wrapper", wrapper(bytes))] {
        if ours != twins {
            return Err(format!("{who}: {ours:?}\ntwin:    {twins:?}\nof the day:\n{}", text(bytes)));
        }
    }
    Ok(twins)
}

/// Whether the day's sums are those of its lines as they were drawn: where it stops, and, for so few lines, that the
/// locks' waits add up to the workers'.
fn as_drawn(day: &Day, told: &Told) -> bool {
    let adds_up = told.locks.iter().sum::<u64>() == told.waited.iter().sum::<u64>();
    let no_worker = |worker: usize| told.waited[worker] == 0 && told.moved[worker] == 0;
    let others = (day.workers()..WORKERS).all(no_worker);
    (told.cause, told.lines) == day.stops() && adds_up && others
}

/// Whether turns that were made one by one come to these sums.
fn as_played(played: &Played, told: &Told) -> bool {
    played.locks == told.locks && played.waited == told.waited && played.moved == told.moved
}

/// Draws a day and compares it.
pub fn day(r: &mut Rng, counts: &mut DayCounts) -> Result<(), String> {
    let day = Day::drawn(r);
    let bytes = day.bytes();
    let told = compared(&bytes)?;
    if !as_drawn(&day, &told) {
        let stops = day.stops();
        return Err(format!("{told:?}\nby its lines it stops at {stops:?}; of the day:\n{}", text(&bytes)));
    }
    counts.day(&day, &told);
    if day.is_one_run() || r.chance(20) {
        let played = day_calls::play(&day)?;
        if !as_played(&played, &told) {
            return Err(format!("{told:?}\nby single calls: {played:?}\nof the day:\n{}", text(&bytes)));
        }
        counts.played(&day, &played);
    }
    Ok(())
}

/// Bytes that are no day, or one by chance.
pub fn bytes(r: &mut Rng, counts: &mut DayCounts) -> Result<(), String> {
    let alphabet: &[u8] =
        r.pick(&[&b"0123456789abcdef\n"[..], b"01234\n", b"0\n", b"\n", b"04\nzA \r\0\xff"]);
    let mut bytes: Vec<u8> = (0..r.below(40)).map(|_| r.pick(alphabet)).collect();
    if r.chance(50) {
        bytes.splice(0..0, *b"02\n");
    }
    if r.chance(5) {
        bytes = (0..r.below(200)).map(|_| r.next() as u8).collect();
    }
    counts.bytes(&compared(&bytes)?);
    Ok(())
}

/// A line of a day is changed in one byte, left out or doubled, or the day ends anywhere.
pub fn damaged(r: &mut Rng, counts: &mut DayCounts) -> Result<(), String> {
    let mut bytes = Day::drawn(r).bytes();
    if bytes.is_empty() {
        return Ok(());
    }
    let at = r.below(bytes.len() as u64) as usize;
    match r.below(4) {
        0 => bytes.truncate(at),
        1 => drop(bytes.remove(at)),
        2 => bytes.insert(at, r.pick(b"\n0123456789abcdef")),
        _ => bytes[at] = r.pick(b"\n0123456789abcdefgA\r"),
    }
    counts.bytes(&compared(&bytes)?);
    Ok(())
}
