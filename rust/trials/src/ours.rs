//! The library that users link. Calls that write a detail, words or counts are made by C's door, lent ones, in which one
//! sees that all of it is written; the wrapper lends zeros of its own, and leaves out the detail of a cause that has
//! none, where a script shows that it is 0. The other calls are the wrapper's.

use crate::engine::{Engine, No, Section};
use zilpanud::{cut, Cursors, End, Needs, Passing, Refusal, Standing, Tally, Turn};

// As `include/zilpanud.h` declares them.
unsafe extern "C" {
    fn zilpanud_submit(
        image: *mut u64,
        len: usize,
        step: *mut [u8; 8],
        turn: *mut [u8; 8],
        held: *mut u64,
        worker: usize,
        number: u64,
        args: *const [u64; 8],
        words: *const u64,
        count: usize,
        left: *mut u64,
        detail: *mut u64,
    ) -> u64;
    fn zilpanud_turn(
        image: *mut u64,
        len: usize,
        step: *mut [u8; 8],
        turn: *mut [u8; 8],
        held: *mut u64,
        worker: usize,
        left: *mut u64,
        detail: *mut u64,
    ) -> u64;
    fn zilpanud_run(
        image: *mut u64,
        len: usize,
        step: *mut [u8; 8],
        turn: *mut [u8; 8],
        held: *mut u64,
        rounds: u16,
        tally: *mut [u64; 5],
        left: *mut u64,
        detail: *mut u64,
    ) -> u64;
    fn zilpanud_recover(
        image: *mut u64,
        len: usize,
        step: *mut [u8; 8],
        turn: *mut [u8; 8],
        held: *mut u64,
        left: *mut u64,
        detail: *mut u64,
    ) -> u64;
    fn zilpanud_check(words: *const u64, count: usize, detail: *mut u64) -> u64;
    fn zilpanud_held_sets(words: *const u64, count: usize, sets: *mut [u64; 64], detail: *mut u64) -> u64;
    fn zilpanud_turns_of_path(
        words: *const u64,
        count: usize,
        path: *const u64,
        path_len: usize,
        turns: *mut u64,
        detail: *mut u64,
    ) -> u64;
    fn zilpanud_turns_from(
        words: *const u64,
        count: usize,
        step: u64,
        fewest: *mut u64,
        most: *mut u64,
        detail: *mut u64,
    ) -> u64;
}

#[derive(Clone, Copy)]
pub struct Ours;

/// What a word is that a call is to write.
const UNWRITTEN: u64 = u64::MAX;

/// What a format and a recovery are lent: no record of theirs.
const OTHERS: Cursors = Cursors { step: [77; 8], turn: [7; 8], held: UNWRITTEN };

/// A refusal of the wrapper's.
fn no(Refusal(cause): Refusal) -> No {
    No { cause: cause.number(), at: cause.detail().unwrap_or(0) }
}

// The answers that are no causes, as the header has them.
const STORED: u64 = 32;
const PASSED: u64 = 33;
const WAITING: u64 = 34;
const IDLE: u64 = 35;
const SPENT: u64 = 36;

/// An answer that is done, with no detail, or refuses.
fn done(answer: u64, detail: u64) -> Result<(), No> {
    match (answer, detail) {
        (0, 0) => Ok(()),
        (cause, at) => Err(No { cause, at }),
    }
}

fn turned(answer: u64, detail: u64) -> Result<Turn, No> {
    match (answer, detail) {
        (STORED, index) => Ok(Turn::Stored(index as usize)),
        (PASSED, 0) => Ok(Turn::Passed(Passing::Jump)),
        (PASSED, 1) => Ok(Turn::Passed(Passing::AlreadyFree)),
        (PASSED, 2) => Ok(Turn::Passed(Passing::Others)),
        (WAITING, lock) => Ok(Turn::Waiting(lock as usize)),
        (IDLE, 0) => Ok(Turn::Idle),
        (cause, at) => Err(No { cause, at }),
    }
}

fn ended(answer: u64, detail: u64) -> Result<End, No> {
    match (answer, detail) {
        (0, 0) => Ok(End::AllIdle),
        (SPENT, 0) => Ok(End::Spent),
        (cause, at) => Err(No { cause, at }),
    }
}

impl Engine for Ours {
    fn format(
        self,
        image: &mut [u64],
        workers: u64,
        cursors: &mut Cursors,
        left: &mut u64,
    ) -> Result<(), No> {
        *cursors = OTHERS;
        cut::format(image, workers as usize, cursors, left).map_err(no)
    }

    fn submit(
        self,
        image: &mut [u64],
        cursors: &mut Cursors,
        section: &Section,
        left: &mut u64,
    ) -> Result<(), No> {
        let Section { worker, number, args, words } = *section;
        let (Cursors { step, turn, held }, mut detail) = (cursors, UNWRITTEN);
        let (image, len, worker) = (image.as_mut_ptr(), image.len(), worker as usize);
        let (words, count) = (words.as_ptr(), words.len());
        // SAFETY: here and below, every pointer comes from a live reference of its own, and every length is its slice's.
        let answer = unsafe {
            zilpanud_submit(
                image,
                len,
                step,
                turn,
                held,
                worker,
                number,
                args,
                words,
                count,
                left,
                &mut detail,
            )
        };
        done(answer, detail)
    }

    fn turn(self, image: &mut [u64], cursors: &mut Cursors, worker: u64, left: &mut u64) -> Result<Turn, No> {
        let (Cursors { step, turn, held }, mut detail) = (cursors, UNWRITTEN);
        let (image, len, worker) = (image.as_mut_ptr(), image.len(), worker as usize);
        // SAFETY: as in `submit`.
        let answer = unsafe { zilpanud_turn(image, len, step, turn, held, worker, left, &mut detail) };
        turned(answer, detail)
    }

    fn run(
        self,
        image: &mut [u64],
        cursors: &mut Cursors,
        rounds: u16,
        left: &mut u64,
    ) -> (Result<End, No>, Tally) {
        let (Cursors { step, turn, held }, mut counts, mut detail) = (cursors, [UNWRITTEN; 5], UNWRITTEN);
        let (image, len) = (image.as_mut_ptr(), image.len());
        // SAFETY: as in `submit`.
        let answer =
            unsafe { zilpanud_run(image, len, step, turn, held, rounds, &mut counts, left, &mut detail) };
        let [turns, waits, stores, already_free, others] = counts;
        (ended(answer, detail), Tally { turns, waits, stores, already_free, others })
    }

    fn recover(self, image: &mut [u64], cursors: &mut Cursors, left: &mut u64) -> Result<(), No> {
        *cursors = OTHERS;
        let (Cursors { step, turn, held }, mut detail) = (cursors, UNWRITTEN);
        let (image, len) = (image.as_mut_ptr(), image.len());
        // SAFETY: as in `submit`.
        let answer = unsafe { zilpanud_recover(image, len, step, turn, held, left, &mut detail) };
        done(answer, detail)
    }

    fn locks_held(self, cursors: &Cursors) -> u64 {
        cursors.locks_held() as u64
    }

    fn standing(self, image: &[u64], worker: u64, number: u64) -> Result<Standing, No> {
        zilpanud::standing(image, worker as usize, number).map_err(no)
    }

    fn check(self, words: &[u64]) -> Result<(), No> {
        let mut detail = UNWRITTEN;
        // SAFETY: as in `submit`.
        let answer = unsafe { zilpanud_check(words.as_ptr(), words.len(), &mut detail) };
        done(answer, detail)
    }

    fn held_sets(self, words: &[u64], sets: &mut [u64; 64]) -> Result<(), No> {
        let mut detail = UNWRITTEN;
        // SAFETY: as in `submit`.
        let answer = unsafe { zilpanud_held_sets(words.as_ptr(), words.len(), sets, &mut detail) };
        done(answer, detail)
    }

    fn turns_of_path(self, words: &[u64], path: &[u64]) -> Result<u64, No> {
        let (mut turns, mut detail) = (UNWRITTEN, UNWRITTEN);
        let (words, count, path, len) = (words.as_ptr(), words.len(), path.as_ptr(), path.len());
        // SAFETY: as in `submit`.
        let answer = unsafe { zilpanud_turns_of_path(words, count, path, len, &mut turns, &mut detail) };
        done(answer, detail).map(|()| turns)
    }

    fn turns_from(self, words: &[u64], step: u64) -> Result<Needs, No> {
        let (mut fewest, mut most, mut detail) = (UNWRITTEN, UNWRITTEN, UNWRITTEN);
        let (words, count) = (words.as_ptr(), words.len());
        // SAFETY: as in `submit`.
        let answer = unsafe { zilpanud_turns_from(words, count, step, &mut fewest, &mut most, &mut detail) };
        done(answer, detail).map(|()| Needs { fewest, most })
    }

    fn turns_left(self, image: &[u64], worker: u64) -> Result<Needs, No> {
        // the worker of cause 12 is the wrapper's, which knows whom it asked
        zilpanud::turns_left(image, worker as usize).map_err(|refusal| No { at: 0, ..no(refusal) })
    }
}
