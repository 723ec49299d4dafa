//! How many turns a section takes.
//!
//! The table, which is document 01's: an acquire and a release take 6 turns, kinds 3 to 6 take 4, a jump 1, a finish 3.
//! Turns that store or pass are counted; those that wait come on top.

use crate::cut::done;
use crate::{raw, Needs, Refusal};

/// How many turns the steps of a path take: the sum of the turns of the steps whose numbers stand in `path`, in any
/// order, each as often as it stands there. (An acquire and a release take 6, kinds 3 to 6 take 4, a jump 1, a finish
/// 3.) An empty path takes 0.
///
/// A section with no cut and no recovery between its submit and the last turn of its finish takes exactly so many
/// turns, those that wait not counted, where `path` is the steps that the reference machine (document 01's plain
/// machine) goes through for it; those that a jump goes past are not among them.
///
/// Refuses with cause 5 the first number of the path that is no step's, or whose step is malformed where it stands.
/// No other step is looked at, and cause 4 is not asked: any number of words will do. (A jump goes to step 63 at
/// most.)
///
/// ```
/// use zilpanud::code::{acquire, finish, jump_if_zero, own, release, set};
/// use zilpanud::{Cause, Refusal};
///
/// // If own word 0 is 0, the jump goes past the assignment.
/// let section = [acquire(3), jump_if_zero(own(0), 3), set(24, 5), release(3), finish()];
/// assert_eq!(zilpanud::turns_of_path(&section, &[0, 1, 3, 4])?, 6 + 1 + 6 + 3);
/// assert_eq!(zilpanud::turns_of_path(&section, &[0, 1, 2, 3, 4])?, 6 + 1 + 4 + 6 + 3);
///
/// let no = zilpanud::turns_of_path(&section, &[0, 1, 5]);
/// assert_eq!(no, Err(Refusal(Cause::Malformed { step: 5 })));
/// # Ok::<(), Refusal>(())
/// ```
pub fn turns_of_path(section: &[u64], path: &[u64]) -> Result<u64, Refusal> {
    let (mut turns, mut detail) = (0, 0);
    // SAFETY: here and below, every pointer comes from a live reference, and one that is written to from a reference of
    // its own; every length is its slice's.
    let answer = unsafe {
        raw::zilpanud_turns_of_path(
            section.as_ptr(),
            section.len(),
            path.as_ptr(),
            path.len(),
            &mut turns,
            &mut detail,
        )
    };
    done(answer, detail)?;
    Ok(turns)
}

/// How many turns a section needs from a step on, that one included, over both ways of each jump that lies ahead.
/// From step 0 on it is what a section needs that is not cut: a timetable has it before the path is known.
///
/// Refuses with causes 4 to 9, as [`check`](crate::check) does, and then with 5 a step that the section has not.
///
/// ```
/// use zilpanud::code::{acquire, finish, jump_if_zero, own, release, set};
/// use zilpanud::Needs;
///
/// let section = [acquire(3), jump_if_zero(own(0), 3), set(24, 5), release(3), finish()];
/// assert_eq!(zilpanud::turns_from(&section, 0)?, Needs { fewest: 16, most: 20 });
/// assert_eq!(zilpanud::turns_from(&section, 3)?, Needs { fewest: 9, most: 9 }); // no jump lies ahead
/// # Ok::<(), zilpanud::Refusal>(())
/// ```
pub fn turns_from(section: &[u64], step: u64) -> Result<Needs, Refusal> {
    let (mut fewest, mut most, mut detail) = (0, 0, 0);
    let (words, count) = (section.as_ptr(), section.len());
    // SAFETY: as in `turns_of_path`.
    let answer = unsafe { raw::zilpanud_turns_from(words, count, step, &mut fewest, &mut most, &mut detail) };
    done(answer, detail)?;
    Ok(Needs { fewest, most })
}

/// How many turns a worker's begun section needs after a recovery: 3 if the pc names a release, else 1, and then what
/// [`turns_from`] says of the step behind the named one; 0 and 0 for a worker with nothing begun, whose pc is 0.
///
/// The answer is the same right before and right after a recovery. With no later cut or recovery the section takes
/// after it exactly those 3 or 1 turns, and those of the steps that it goes through behind the named one; turns that
/// wait come on top. Asked at another moment, it says what the next recovery would leave to be done, and not what is
/// left without one.
///
/// Refuses with causes 10, 1, and then 12 where this worker's record is not sound, by the recovery's test of it. The
/// other records and the locks are not asked.
///
/// ```
/// use zilpanud::code::{acquire, finish, release, set};
/// use zilpanud::Needs;
///
/// let section = [acquire(3), set(24, 5), release(3), finish()];
/// let mut image = vec![0; zilpanud::image_len(1)];
/// let mut cursors = zilpanud::format(&mut image, 1)?;
/// zilpanud::submit(&mut image, &mut cursors, 0, 1, &[0; 8], &section)?;
/// for _ in 0..5 {
///     zilpanud::turn(&mut image, &mut cursors, 0)?;
/// }
///
/// // The power goes. The acquire is named: its last store is to be made, and then 4 + 6 + 3 turns.
/// let left = zilpanud::turns_left(&image, 0)?;
/// assert_eq!(left, Needs { fewest: 14, most: 14 });
///
/// let mut cursors = zilpanud::recover(&mut image)?;
/// assert_eq!(zilpanud::turns_left(&image, 0)?, left);
/// assert_eq!(zilpanud::run(&mut image, &mut cursors, 384)?.tally.turns, 14);
/// # Ok::<(), zilpanud::Refusal>(())
/// ```
pub fn turns_left(image: &[u64], worker: usize) -> Result<Needs, Refusal> {
    let (mut fewest, mut most) = (0, 0);
    let (words, len) = (image.as_ptr(), image.len());
    // SAFETY: as in `turns_of_path`.
    let answer = unsafe { raw::zilpanud_turns_left(words, len, worker, &mut fewest, &mut most) };
    done(answer, worker as u64)?;
    Ok(Needs { fewest, most })
}
