//! How many turns sections take: the three functions, as the library's calls write their numbers to words that they are
//! lent, as the wrapper gives them, and as the twin does. What sections take in lists is in follow.rs.

use crate::rng::Rng;
use zilpanud::Needs;

unsafe extern "C" {
    /// As `include/zilpanud.h` declares them. The wrapper lends words of its own, in which one does not see whether
    /// they are written.
    fn zilpanud_turns_of_path(
        words: *const u64,
        words_len: usize,
        path: *const u64,
        path_len: usize,
        turns: *mut u64,
        detail: *mut u64,
    ) -> u64;
    fn zilpanud_turns_from(
        words: *const u64,
        words_len: usize,
        step: u64,
        fewest: *mut u64,
        most: *mut u64,
        detail: *mut u64,
    ) -> u64;
    fn zilpanud_turns_left(
        image: *const u64,
        image_words: usize,
        worker: usize,
        fewest: *mut u64,
        most: *mut u64,
    ) -> u64;
}

/// What stands in the words lent.
const JUNK: u64 = 0x96a5_c3f0_5a69_0f3d;

/// What a function tells.
#[derive(Clone, Copy, PartialEq, Eq, Debug)]
pub struct Told {
    pub answer: u64,
    /// What goes with the answer. Of 12 it is the worker asked after, which the library's call does not write.
    pub detail: u64,
    /// The fewest and the most turns; of a path its turns, twice. 0 where it is refused.
    pub numbers: [u64; 2],
}

/// What all three tell, or the difference in words.
pub type Compared = Result<Told, String>;

fn of_wrapper(result: Result<[u64; 2], zilpanud::Refusal>) -> Told {
    match result {
        Ok(numbers) => Told { answer: 0, detail: 0, numbers },
        Err(no) => Told { answer: no.0.number(), detail: no.0.detail().unwrap_or(0), numbers: [0; 2] },
    }
}

fn of_twin(result: Result<[u64; 2], (u8, u64)>) -> Told {
    match result {
        Ok(numbers) => Told { answer: 0, detail: 0, numbers },
        Err((number, detail)) => Told { answer: number as u64, detail, numbers: [0; 2] },
    }
}

fn both_of(needs: Needs) -> [u64; 2] {
    [needs.fewest, needs.most]
}

fn compared(asked: impl Fn() -> String, library: Told, wrapper: Told, twins: Told) -> Compared {
    for (who, ours) in [("library", library), ("wrapper", wrapper)] {
        if ours != twins {
            return Err(format!("{}\n{who}: {ours:?}\ntwin:    {twins:?}", asked()));
        }
    }
    Ok(twins)
}

/// The turns of a path.
pub fn of_path(words: &[u64], path: &[u64]) -> Compared {
    let (mut turns, mut detail) = (JUNK, !JUNK);
    let (steps, count, numbers, len) = (words.as_ptr(), words.len(), path.as_ptr(), path.len());
    // SAFETY: here and below, every pointer comes from a live reference, and every length is its slice's.
    let answer = unsafe { zilpanud_turns_of_path(steps, count, numbers, len, &mut turns, &mut detail) };
    let library = Told { answer, detail, numbers: [turns; 2] };
    let wrapper = of_wrapper(zilpanud::turns_of_path(words, path).map(|turns| [turns; 2]));
    let twins = twin::turns::turns_of_path(words, path);
    let twins = of_twin(twins.map(|turns| [turns; 2]).map_err(|no| (no.number, no.step)));
    compared(|| format!("turns of path {path:?} of {words:x?}"), library, wrapper, twins)
}

/// The turns from a step on.
pub fn from(words: &[u64], step: u64) -> Compared {
    let (mut fewest, mut most, mut detail) = (JUNK, !JUNK, JUNK);
    let (steps, count) = (words.as_ptr(), words.len());
    // SAFETY: as above.
    let answer = unsafe { zilpanud_turns_from(steps, count, step, &mut fewest, &mut most, &mut detail) };
    let library = Told { answer, detail, numbers: [fewest, most] };
    let wrapper = of_wrapper(zilpanud::turns_from(words, step).map(both_of));
    let twins = twin::turns::turns_from(words, step);
    let twins = of_twin(twins.map(|(a, b)| [a, b]).map_err(|no| (no.number, no.step)));
    compared(|| format!("turns from step {step} of {words:x?}"), library, wrapper, twins)
}

/// The library's turns left of a worker.
pub fn left_by_library(image: &[u64], worker: usize) -> Told {
    let (mut fewest, mut most) = (JUNK, !JUNK);
    let (words, len) = (image.as_ptr(), image.len());
    // SAFETY: as above.
    let answer = unsafe { zilpanud_turns_left(words, len, worker, &mut fewest, &mut most) };
    Told { answer, detail: of_12(answer, worker), numbers: [fewest, most] }
}

fn of_12(answer: u64, worker: usize) -> u64 {
    if answer == 12 {
        worker as u64
    } else {
        0
    }
}

/// The turns left of a worker. `other` is the twin's image, of the same words; it is not changed.
pub fn left(mine: &[u64], other: &mut [u64], worker: usize) -> Compared {
    let library = left_by_library(mine, worker);
    let wrapper = of_wrapper(zilpanud::turns_left(mine, worker).map(both_of));
    let twins = twin::turns::turns_left(other, worker as u64).map(|(a, b)| [a, b]);
    let twins = of_twin(twins.map_err(|no| (no.number, of_12(no.number as u64, worker))));
    compared(|| format!("turns left of worker {worker}"), library, wrapper, twins)
}

/// A way through words, from step 0 on, by either way of each jump; it ends behind the last word, or goes round where
/// a malformed jump does.
fn way(r: &mut Rng, words: &[u64]) -> Vec<u64> {
    let mut path = vec![];
    let mut step = 0;
    while step < words.len() && path.len() < 80 {
        path.push(step as u64);
        let word = words[step];
        let jumps = word >> 48 == 7 && r.chance(50);
        step = if jumps { (word >> 16 & 0xffff) as usize } else { step + 1 };
    }
    path
}

/// A path: a way, one with a number changed, or numbers in, near or out of the range of the steps.
pub fn path(r: &mut Rng, words: &[u64]) -> Vec<u64> {
    let len = words.len() as u64;
    let some = r.below(20);
    match r.below(8) {
        0..=3 => way(r, words),
        4 => {
            let mut path = way(r, words);
            if !path.is_empty() {
                let i = r.below(path.len() as u64) as usize;
                path[i] = r.pick(&[len, len + 1, len - 1, 256, 1 << 16, 1 << 32, u64::MAX]);
            }
            path
        }
        5 => (0..some).map(|_| r.below(len + 2)).collect(),
        6 if len > 0 => {
            let many = if r.chance(1) { 20_000 } else { 10 * some };
            (0..many).map(|_| r.below(len)).collect()
        }
        _ => (0..some).map(|_| r.word()).collect(),
    }
}

/// The words of a path: the section, or more of them than a section may have.
pub fn words(r: &mut Rng, section: &[u64]) -> Vec<u64> {
    let times = if r.chance(95) { 1 } else { 2 + r.below(5) as usize };
    section.repeat(times)
}

/// A step to ask from: one of the section, or one that it has not.
pub fn step(r: &mut Rng, section: &[u64]) -> u64 {
    let len = section.len() as u64;
    match r.below(10) {
        0 => len + r.below(3),
        1 => r.word(),
        2 => r.below(5) << 32 | r.below(len + 1),
        _ => r.below(len + 1),
    }
}
