//! The calls on an image that the caller keeps, none of them cut: `&mut { ENOUGH }` lends a number that nobody looks at
//! again.

use crate::cut::{self, done, ENOUGH};
use crate::{raw, Cause, Cursors, Fault, Refusal, RefusedRun, Run, Standing, Turn, STEPS};

/// Formats an image for so many workers, and gives the cursors, all idle with no lock held. Refuses with cause 10 and
/// stores nothing.
///
/// It is for a new image. One that a recovery refuses is better kept for those who can mend it: formatting loses it.
pub fn format(image: &mut [u64], workers: usize) -> Result<Cursors, Refusal> {
    let mut cursors = Cursors::IDLE;
    cut::format(image, workers, &mut cursors, &mut { ENOUGH })?;
    Ok(cursors)
}

/// The check of a section alone: without an image, before a worker is free. Any words will do, and nothing is stored.
///
/// Refuses with the first of causes 4 to 9 that the section fails, in document 01's order: 4; then 5 over all steps;
/// then 6, 7, 8, 9 step by step. The [`Fault`] says with it what is wrong at its step.
///
/// [`submit`] tests causes 10, 1, 2 and 3, and then does this very check. So the answer here is the one that every
/// later submit of the same section will have behind those four, whatever happens on the board until then: a section
/// that passes is taken by an idle worker under a number above its last finished one, and no other section is.
///
/// ```
/// use zilpanud::code::{acquire, finish, release, set};
/// use zilpanud::{Cause, Refusal};
///
/// let mut section = [acquire(3), set(32, 5), release(3), finish()];
/// let fault = zilpanud::check(&section).unwrap_err();
/// assert_eq!(fault.to_string(), "word 32 is in bay 4, which is not held at step 1");
///
/// let mut image = vec![0; zilpanud::image_len(1)];
/// let mut cursors = zilpanud::format(&mut image, 1)?;
/// let refused = zilpanud::submit(&mut image, &mut cursors, 0, 1, &[0; 8], &section);
/// assert_eq!(refused, Err(Refusal(fault.cause())));
///
/// section[1] = set(24, 5);
/// zilpanud::check(&section)?;
/// zilpanud::submit(&mut image, &mut cursors, 0, 1, &[0; 8], &section)?;
/// // The worker is busy now, and a submit says that before it does the check.
/// let refused = zilpanud::submit(&mut image, &mut cursors, 0, 2, &[0; 8], &[]);
/// assert_eq!(refused, Err(Refusal(Cause::Busy)));
/// # Ok::<(), Refusal>(())
/// ```
pub fn check(section: &[u64]) -> Result<(), Fault> {
    let mut detail = 0;
    // SAFETY: here and below, every pointer comes from a live reference of its own, and every length is its slice's.
    let answer = unsafe { raw::zilpanud_check(section.as_ptr(), section.len(), &mut detail) };
    match answer {
        0 => Ok(()),
        _ => Err(Fault::of(answer, detail, section)),
    }
}

/// The held set before each step of a section: a mask, in which bit b is set if lock b is held there. It goes by the
/// order of the steps, as if no jump were made: before step 0 no lock is held, an acquire sets its lock's bit, and a
/// release clears it. From the number of steps up the sets are 0. It is one pass. In its sets a recovery looks up the
/// step that a pc names, and the check the one that a jump names, unless it finds before that no jump goes past an
/// acquire or a release.
///
/// Refuses with causes 4 and 5 alone. A section that the check refuses with 6 to 9 has its sets given, and they show
/// why (as the check's [`Fault`] says it, step by step):
///
/// ```
/// use zilpanud::code::{acquire, finish, jump_if_zero, release};
/// use zilpanud::{Cause, LOCKS};
///
/// // Meant to go on behind the release of lock 5, the jump goes to the step that releases it.
/// let (jump, target) = (1, 3);
/// let section = [acquire(3), jump_if_zero(24, target), acquire(5), release(5), release(3), finish()];
/// assert_eq!(zilpanud::check(&section).unwrap_err().cause(), Cause::Unlevel { step: jump });
///
/// let sets = zilpanud::held_sets(&section)?;
/// assert_eq!(sets[..6], [0, 1 << 3, 1 << 3, 1 << 3 | 1 << 5, 1 << 3, 0]);
///
/// let held = |step: usize| (0..LOCKS).filter(|lock| sets[step] >> lock & 1 == 1).collect::<Vec<_>>();
/// let (here, there) = (held(jump), held(target as usize));
/// println!("step {jump} jumps with locks {here:?} held, to step {target} with {there:?}");
/// assert_eq!((here, there), (vec![3], vec![3, 5]));
/// # Ok::<(), zilpanud::Refusal>(())
/// ```
pub fn held_sets(section: &[u64]) -> Result<[u64; STEPS], Refusal> {
    let mut sets = [0; STEPS];
    let mut detail = 0;
    // SAFETY: as in `check`.
    let answer = unsafe { raw::zilpanud_held_sets(section.as_ptr(), section.len(), &mut sets, &mut detail) };
    done(answer, detail)?;
    Ok(sets)
}

/// Submits a section to a worker, with its number and its arguments, which become the worker's own words.
///
/// It tests causes 10, 1, 2 and 3, and then does the very [`check`] of the section; what passes is stored. Refused, it
/// leaves image and cursors as they were. With 4 to 9, the check of the same section has the same cause and step, and
/// says what is wrong there.
pub fn submit(
    image: &mut [u64],
    cursors: &mut Cursors,
    worker: usize,
    number: u64,
    args: &[u64; 8],
    section: &[u64],
) -> Result<(), Refusal> {
    cut::submit(image, cursors, worker, number, args, section, &mut { ENOUGH })
}

/// One turn of a worker, with at most one store. Refuses with causes 10, 1, 11 and leaves image and cursors as they
/// were.
pub fn turn(image: &mut [u64], cursors: &mut Cursors, worker: usize) -> Result<Turn, Refusal> {
    cut::turn(image, cursors, worker, &mut { ENOUGH })
}

/// Rounds of turns, each worker that is not idle one turn a round by rising number, until all are idle or the rounds
/// are spent. 384 rounds for each worker are proved to leave all idle on an image that these calls alone have changed
/// since one formatting, with a recovery after each cut. More cost nothing: [`u16::MAX`] will do for every such image.
///
/// Refuses with cause 10, then 11 as it meets it; the turns before that stand, and so does their tally.
pub fn run(image: &mut [u64], cursors: &mut Cursors, rounds: u16) -> Result<Run, RefusedRun> {
    cut::run(image, cursors, rounds, &mut { ENOUGH })
}

/// Recovery after a cut. It gives the cursors: a section that was begun goes on where it was, with the locks that it is
/// owed held again, one that was submitted and not begun is withdrawn, and all other workers are idle. Refuses with
/// causes 10, 12, 13 and leaves the image as it was.
pub fn recover(image: &mut [u64]) -> Result<Cursors, Refusal> {
    let mut cursors = Cursors::IDLE;
    cut::recover(image, &mut cursors, &mut { ENOUGH })?;
    Ok(cursors)
}

/// Whether a worker is idle. Refuses with causes 10, 1, as the questions below do.
pub fn is_idle(image: &[u64], cursors: &Cursors, worker: usize) -> Result<bool, Refusal> {
    let mut idle = 0;
    let (step, turn) = (&cursors.step, &cursors.turn);
    let (words, len) = (image.as_ptr(), image.len());
    // SAFETY: as in `check`.
    let answer = unsafe { raw::zilpanud_is_idle(words, len, step, turn, worker, &mut idle) };
    done(answer, 0)?;
    match idle {
        0 => Ok(false),
        1 => Ok(true),
        answer => Err(Refusal(Cause::Unknown { answer })),
    }
}

/// The number of the last section that a worker finished; 0 before its first.
pub fn finished(image: &[u64], worker: usize) -> Result<u64, Refusal> {
    let mut number = 0;
    let (words, len) = (image.as_ptr(), image.len());
    // SAFETY: as in `check`.
    let answer = unsafe { raw::zilpanud_finished(words, len, worker, &mut number) };
    done(answer, 0)?;
    Ok(number)
}

/// How a worker stands to the section of this number: what a caller asks after a cut and a recovery. A section that is
/// not begun is submitted again, under the same number; one that is begun is left to its turns; one that is finished is
/// done. With numbers that follow one another, each one above the last finished, every section is carried out once.
pub fn standing(image: &[u64], worker: usize, number: u64) -> Result<Standing, Refusal> {
    let mut standing = 0;
    let (words, len) = (image.as_ptr(), image.len());
    // SAFETY: as in `check`.
    let answer = unsafe { raw::zilpanud_standing(words, len, worker, number, &mut standing) };
    done(answer, 0)?;
    match standing {
        0 => Ok(Standing::NotBegun),
        1 => Ok(Standing::Begun),
        2 => Ok(Standing::Finished),
        answer => Err(Refusal(Cause::Unknown { answer })),
    }
}
