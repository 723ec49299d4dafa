//! The five calls that store, given the number of stores that they may still make: for tests.
//!
//! Each store takes one off `left`, and with none left it changes nothing. So a call that is given k is that call cut
//! after its k-th store, and the image is what the cut leaves; the answer and the cursors then count for nothing, and a
//! recovery is due. The calls without `left`, in the [crate's root](crate), are these given [`ENOUGH`].
//!
//! ```
//! use zilpanud::{code, cut, Cursors, Standing};
//!
//! let section = [code::acquire(3), code::set(24, 5), code::release(3), code::finish()];
//! let mut image = vec![0; zilpanud::image_len(1)];
//! let mut cursors = zilpanud::format(&mut image, 1)?;
//! zilpanud::submit(&mut image, &mut cursors, 0, 1, &[0; 8], &section)?;
//!
//! // The power goes after the eighth store of the run; the fifth made the section begun.
//! let mut left = 8;
//! let _ = cut::run(&mut image, &mut cursors, u16::MAX, &mut left);
//! assert_eq!(left, 0);
//!
//! let mut cursors = zilpanud::recover(&mut image)?;
//! assert_eq!(zilpanud::standing(&image, 0, 1)?, Standing::Begun);
//! zilpanud::run(&mut image, &mut cursors, 384)?;
//! assert_eq!(image[zilpanud::cell_index(24)], 5);
//! # Ok::<(), zilpanud::Refusal>(())
//! ```

use crate::{raw, Cursors, End, Passing, Refusal, RefusedRun, Run, Tally, Turn};

/// More stores than any list of calls makes: a call that is given so many is not cut.
pub const ENOUGH: u64 = u64::MAX;

/// An answer that is done or refuses.
pub(crate) fn done(answer: u64, detail: u64) -> Result<(), Refusal> {
    if answer == 0 {
        return Ok(());
    }
    Err(Refusal::of(answer, detail))
}

/// [`format`](crate::format). It reads no cursors, and leaves [`Cursors::IDLE`], also where it refuses.
pub fn format(
    image: &mut [u64],
    workers: usize,
    cursors: &mut Cursors,
    left: &mut u64,
) -> Result<(), Refusal> {
    let Cursors { step, turn, held } = cursors;
    let (words, len) = (image.as_mut_ptr(), image.len());
    // SAFETY: here and below, every pointer comes from a live reference of its own, and every length is its slice's.
    let answer = unsafe { raw::zilpanud_format(words, len, workers as u64, step, turn, held, left) };
    done(answer, 0)
}

/// [`submit`](crate::submit): the tests of causes 10, 1, 2 and 3, and then the [`check`](crate::check), make no store,
/// so that its answer is the same whatever `left` is. A section that it refuses with 4 to 9 is explained by the check.
pub fn submit(
    image: &mut [u64],
    cursors: &mut Cursors,
    worker: usize,
    number: u64,
    args: &[u64; 8],
    section: &[u64],
    left: &mut u64,
) -> Result<(), Refusal> {
    let mut detail = 0;
    // SAFETY: as in `format`.
    let answer = unsafe {
        raw::zilpanud_submit(
            image.as_mut_ptr(),
            image.len(),
            &mut cursors.step,
            &mut cursors.turn,
            &mut cursors.held,
            worker,
            number,
            args,
            section.as_ptr(),
            section.len(),
            left,
            &mut detail,
        )
    };
    done(answer, detail)
}

// The answers that are no causes, which are all below them.
const STORED: u64 = 32;
const PASSED: u64 = 33;
const WAITING: u64 = 34;
const IDLE: u64 = 35;
const SPENT: u64 = 36;

/// What the two numbers of a turn say.
fn turned(answer: u64, detail: u64) -> Result<Turn, Refusal> {
    match (answer, detail) {
        (STORED, index) => Ok(Turn::Stored(index as usize)),
        (PASSED, 0) => Ok(Turn::Passed(Passing::Jump)),
        (PASSED, 1) => Ok(Turn::Passed(Passing::AlreadyFree)),
        (PASSED, 2) => Ok(Turn::Passed(Passing::Others)),
        (WAITING, lock) => Ok(Turn::Waiting(lock as usize)),
        (IDLE, _) => Ok(Turn::Idle),
        _ => Err(Refusal::of(answer, detail)),
    }
}

/// [`turn`](crate::turn).
pub fn turn(
    image: &mut [u64],
    cursors: &mut Cursors,
    worker: usize,
    left: &mut u64,
) -> Result<Turn, Refusal> {
    let mut detail = 0;
    let Cursors { step, turn, held } = cursors;
    let (words, len) = (image.as_mut_ptr(), image.len());
    // SAFETY: as in `format`.
    let answer = unsafe { raw::zilpanud_turn(words, len, step, turn, held, worker, left, &mut detail) };
    turned(answer, detail)
}

/// [`run`](crate::run).
pub fn run(image: &mut [u64], cursors: &mut Cursors, rounds: u16, left: &mut u64) -> Result<Run, RefusedRun> {
    let mut detail = 0;
    let mut counts = [0; 5];
    let Cursors { step, turn, held } = cursors;
    let (words, len) = (image.as_mut_ptr(), image.len());
    // SAFETY: as in `format`.
    let answer =
        unsafe { raw::zilpanud_run(words, len, step, turn, held, rounds, &mut counts, left, &mut detail) };
    let [turns, waits, stores, already_free, others] = counts;
    let tally = Tally { turns, waits, stores, already_free, others };
    match answer {
        0 => Ok(Run { end: End::AllIdle, tally }),
        SPENT => Ok(Run { end: End::Spent, tally }),
        _ => Err(RefusedRun { refusal: Refusal::of(answer, detail), tally }),
    }
}

/// [`recover`](crate::recover). It reads no cursors, and leaves [`Cursors::IDLE`] where it refuses.
pub fn recover(image: &mut [u64], cursors: &mut Cursors, left: &mut u64) -> Result<(), Refusal> {
    let mut detail = 0;
    let Cursors { step, turn, held } = cursors;
    let (words, len) = (image.as_mut_ptr(), image.len());
    // SAFETY: as in `format`.
    let answer = unsafe { raw::zilpanud_recover(words, len, step, turn, held, left, &mut detail) };
    done(answer, detail)
}

#[cfg(test)]
mod tests {
    use super::*;
    use crate::Cause;

    #[test]
    fn a_turn_that_passed_for_no_known_reason_is_unknown() {
        for detail in [3, 4, 1 << 32, u64::MAX] {
            assert_eq!(turned(PASSED, detail), Err(Refusal(Cause::Unknown { answer: PASSED })));
        }
    }
}
