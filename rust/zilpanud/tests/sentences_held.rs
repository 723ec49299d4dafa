//! What the check says of a well-formed section by what is held at its steps: causes 6 to 9, each with its step, its
//! sentence and the numbers of it. Every row is worked out by hand: the held set before step 0 is empty, an acquire
//! adds its lock, a release removes it, whatever a jump does.

mod common;

use common::held::mask;
use common::says::{passes, says};
use zilpanud::code::*;
use zilpanud::{Cause, Why};

// ---- cause 6

#[test]
fn a_first_step_that_takes_no_bay() {
    let no = Cause::Unbracketed { step: 0 };
    // also where the step would fail 7, 8 or 9: 6 is tested first
    for first in [set(512, 5), release(3), set(32, 5), add(24, 32, 40), jump_if_zero(512, 2), less(0, 1, 2)] {
        let section = [first, acquire(3), release(3), finish()];
        says(&section, no, "step 0 takes no bay, and a ticket starts by taking one", Why::FirstNoAcquire);
    }
}

/// An end at step `section.len() - 1` with these locks held.
fn ends_with(section: &[u64], sentence: &str, locks: &[usize]) {
    let no = Cause::Unbracketed { step: section.len() - 1 };
    says(section, no, sentence, Why::HeldAtFinish { held: mask(locks) });
}

#[test]
fn an_end_with_bays_held() {
    let one = [acquire(3), set(24, 5), finish()];
    ends_with(&one, "step 2 ends the ticket with bay 3 held", &[3]);
    let two = [acquire(3), acquire(5), finish()];
    ends_with(&two, "step 2 ends the ticket with bays 3 and 5 held", &[3, 5]);
    let three = [acquire(3), acquire(5), acquire(9), finish()];
    ends_with(&three, "step 3 ends the ticket with bays 3, 5 and 9 held", &[3, 5, 9]);
    let first_and_last = [acquire(0), acquire(7), acquire(63), release(7), finish()];
    ends_with(&first_and_last, "step 4 ends the ticket with bays 0 and 63 held", &[0, 63]);
    passes(&[acquire(0), acquire(63), release(0), release(63), finish()]);
}

/// 63 acquires, of locks 1 to 63: the most that an end can have held.
#[test]
fn an_end_with_63_bays_held() {
    let mut section: Vec<u64> = (1..64).map(acquire).collect();
    section.push(finish());
    let bays = "1, 2, 3, 4, 5, 6, 7, 8, 9, 10, 11, 12, 13, 14, 15, 16, 17, 18, 19, 20, 21, 22, 23, 24, 25, 26, 27, \
                28, 29, 30, 31, 32, 33, 34, 35, 36, 37, 38, 39, 40, 41, 42, 43, 44, 45, 46, 47, 48, 49, 50, 51, \
                52, 53, 54, 55, 56, 57, 58, 59, 60, 61, 62 and 63";
    let no = Cause::Unbracketed { step: 63 };
    let why = Why::HeldAtFinish { held: u64::MAX - 1 };
    says(&section, no, &format!("step 63 ends the ticket with bays {bays} held"), why);
}

#[test]
fn a_step_with_no_bay_held() {
    let no = Cause::Unbracketed { step: 2 };
    // also where the step would fail 7 or 8: 6 is tested first
    for word in [set(512, 5), acquire(4), release(3), set(32, 5), jump_if_zero(512, 3)] {
        let section = [acquire(3), release(3), word, finish()];
        says(&section, no, "no bay is held at step 2, which is not the end", Why::NothingHeld);
    }
}

// ---- cause 7

#[test]
fn a_take_of_a_bay_that_is_held() {
    let twice = [acquire(3), acquire(3), release(3), finish()];
    let why = Why::HeldAlready { lock: 3, held: mask(&[3]) };
    says(&twice, Cause::Unordered { step: 1 }, "bay 3 is held already at step 1, which takes it", why);
    // below the highest too, but it is held
    let below = [acquire(3), acquire(5), acquire(3), release(5), release(3), finish()];
    let why = Why::HeldAlready { lock: 3, held: mask(&[3, 5]) };
    says(&below, Cause::Unordered { step: 2 }, "bay 3 is held already at step 2, which takes it", why);
    let last = [acquire(63), acquire(63), release(63), finish()];
    let why = Why::HeldAlready { lock: 63, held: 1 << 63 };
    says(&last, Cause::Unordered { step: 1 }, "bay 63 is held already at step 1, which takes it", why);
    // taken again behind its drop
    passes(&[acquire(2), acquire(7), release(7), acquire(7), release(2), release(7), finish()]);
}

#[test]
fn a_take_below_a_bay_that_is_held() {
    let section = [acquire(5), acquire(3), release(3), release(5), finish()];
    let why = Why::NotAbove { lock: 3, highest: 5, held: mask(&[5]) };
    says(&section, Cause::Unordered { step: 1 }, "bay 3 is below bay 5, which is held at step 1", why);
    let between = [acquire(3), acquire(9), acquire(5), release(5), release(9), release(3), finish()];
    let why = Why::NotAbove { lock: 5, highest: 9, held: mask(&[3, 9]) };
    says(&between, Cause::Unordered { step: 2 }, "bay 5 is below bay 9, which is held at step 2", why);
    let ends = [acquire(63), acquire(0), release(0), release(63), finish()];
    let why = Why::NotAbove { lock: 0, highest: 63, held: 1 << 63 };
    says(&ends, Cause::Unordered { step: 1 }, "bay 0 is below bay 63, which is held at step 1", why);
    // above all that are held by now
    passes(&[acquire(3), acquire(9), release(9), acquire(5), release(5), release(3), finish()]);
}

#[test]
fn a_drop_of_a_bay_that_is_not_held() {
    let section = [acquire(3), release(4), release(3), finish()];
    let why = Why::NotHeld { lock: 4, held: mask(&[3]) };
    says(&section, Cause::Unordered { step: 1 }, "bay 4 is not held at step 1, which drops it", why);
    let again = [acquire(3), acquire(63), release(63), release(63), release(3), finish()];
    let why = Why::NotHeld { lock: 63, held: mask(&[3]) };
    says(&again, Cause::Unordered { step: 3 }, "bay 63 is not held at step 3, which drops it", why);
}

// ---- cause 8

/// With locks 3 and 5 held, so that cells 24 to 31 and 40 to 47 may be named: step 2 of six.
fn says_8(word: u64, cell: u16, bay: u16) {
    let section = [acquire(3), acquire(5), word, release(5), release(3), finish()];
    let sentence = format!("word {cell} is in bay {bay}, which is not held at step 2");
    let why = Why::Unguarded { word: cell, lock: bay, held: mask(&[3, 5]) };
    says(&section, Cause::Unguarded { step: 2 }, &sentence, why);
}

#[test]
fn a_word_whose_bay_is_not_held() {
    let document_01 = [acquire(3), set(32, 5), release(3), finish()];
    let why = Why::Unguarded { word: 32, lock: 4, held: mask(&[3]) };
    let no = Cause::Unguarded { step: 1 };
    says(&document_01, no, "word 32 is in bay 4, which is not held at step 1", why);
    // the words beside those of bays 3 and 5, the first and the last
    for (cell, bay) in [(23, 2), (32, 4), (39, 4), (48, 6), (0, 0), (7, 0), (8, 1), (504, 63), (511, 63)] {
        says_8(set(cell, 5), cell, bay);
        says_8(jump_if_zero(cell, 3), cell, bay);
    }
    for word in [24, 31, 40, 47, 512, 519] {
        passes(&[acquire(3), acquire(5), set(word, 5), release(5), release(3), finish()]);
    }
}

/// The first of the step's words, in the order a, b, c.
#[test]
fn the_first_word_whose_bay_is_not_held() {
    for three in [add, sub, less] {
        says_8(three(24, 25, 32), 32, 4);
        says_8(three(24, 48, 32), 48, 6);
        says_8(three(16, 48, 32), 16, 2);
        says_8(three(16, 24, 32), 16, 2);
        says_8(three(512, 519, 511), 511, 63);
        says_8(three(512, 7, 513), 7, 0);
        passes(&[acquire(3), acquire(5), three(24, 47, 519), release(5), release(3), finish()]);
    }
    // kind 3's b and c are values, and a skip's b is a step
    passes(&[acquire(3), set(24, 0x0020_0030), jump_if_zero(24, 3), release(3), finish()]);
    // 8 is tested before 9
    let section = [acquire(3), jump_if_zero(32, 3), release(3), finish()];
    let why = Why::Unguarded { word: 32, lock: 4, held: mask(&[3]) };
    let no = Cause::Unguarded { step: 1 };
    says(&section, no, "word 32 is in bay 4, which is not held at step 1", why);
}

#[test]
fn a_word_behind_the_drop_of_its_bay() {
    let section = [acquire(3), acquire(4), release(4), add(24, 24, 32), release(3), finish()];
    let why = Why::Unguarded { word: 32, lock: 4, held: mask(&[3]) };
    let no = Cause::Unguarded { step: 3 };
    says(&section, no, "word 32 is in bay 4, which is not held at step 3", why);
}

// ---- cause 9

#[test]
fn a_skip_to_a_step_with_other_bays_held() {
    let to_the_end = [acquire(3), jump_if_zero(24, 3), release(3), finish()];
    let why = Why::Unlevel { held: mask(&[3]), target: 3, held_there: 0 };
    let sentence = "step 1 has bay 3 held and skips to step 3, which has no bay held";
    says(&to_the_end, Cause::Unlevel { step: 1 }, sentence, why);

    let more = [acquire(3), jump_if_zero(24, 3), acquire(5), release(5), release(3), finish()];
    let why = Why::Unlevel { held: mask(&[3]), target: 3, held_there: mask(&[3, 5]) };
    let sentence = "step 1 has bay 3 held and skips to step 3, which has bays 3 and 5 held";
    says(&more, Cause::Unlevel { step: 1 }, sentence, why);

    let fewer = [
        acquire(3),
        acquire(5),
        acquire(9),
        jump_if_zero(24, 5),
        release(5),
        release(3), // step 5
        release(9),
        finish(),
    ];
    let why = Why::Unlevel { held: mask(&[3, 5, 9]), target: 5, held_there: mask(&[3, 9]) };
    let sentence = "step 3 has bays 3, 5 and 9 held and skips to step 5, which has bays 3 and 9 held";
    says(&fewer, Cause::Unlevel { step: 3 }, sentence, why);
}

/// As many bays, and others.
#[test]
fn a_skip_to_a_step_with_another_bay_held() {
    let section = [
        acquire(3),
        acquire(5),
        release(3),
        jump_if_zero(own(0), 5),
        acquire(9),
        release(5), // step 5
        jump_if_zero(own(0), 7),
        release(9),
        finish(),
    ];
    let why = Why::Unlevel { held: mask(&[5]), target: 5, held_there: mask(&[5, 9]) };
    let sentence = "step 3 has bay 5 held and skips to step 5, which has bays 5 and 9 held";
    says(&section, Cause::Unlevel { step: 3 }, sentence, why);
    let mut to_6 = section;
    to_6[3] = jump_if_zero(own(0), 6);
    let why = Why::Unlevel { held: mask(&[5]), target: 6, held_there: mask(&[9]) };
    let sentence = "step 3 has bay 5 held and skips to step 6, which has bay 9 held";
    says(&to_6, Cause::Unlevel { step: 3 }, sentence, why);
    let mut to_4 = section;
    to_4[3] = jump_if_zero(own(0), 4);
    passes(&to_4);
}

// ---- their order

/// "then step by step 6, 7, 8, 9": the lowest step that fails one, whatever that is.
#[test]
fn the_first_step_that_fails() {
    let mut section = [
        acquire(6),
        jump_if_zero(48, 6), // 9
        set(511, 1),         // 8
        acquire(2),          // 7
        release(6),
        set(512, 1), // 6, once step 3 takes nothing
        finish(),
    ];
    let sentence = "step 1 has bay 6 held and skips to step 6, which has bay 2 held";
    let why = Why::Unlevel { held: mask(&[6]), target: 6, held_there: mask(&[2]) };
    says(&section, Cause::Unlevel { step: 1 }, sentence, why);
    section[1] = jump_if_zero(48, 2);
    let why = Why::Unguarded { word: 511, lock: 63, held: mask(&[6]) };
    let sentence = "word 511 is in bay 63, which is not held at step 2";
    says(&section, Cause::Unguarded { step: 2 }, sentence, why);
    section[2] = set(512, 1);
    let why = Why::NotAbove { lock: 2, highest: 6, held: mask(&[6]) };
    let sentence = "bay 2 is below bay 6, which is held at step 3";
    says(&section, Cause::Unordered { step: 3 }, sentence, why);
    section[3] = set(512, 2);
    let sentence = "no bay is held at step 5, which is not the end";
    says(&section, Cause::Unbracketed { step: 5 }, sentence, Why::NothingHeld);
    section[4] = set(48, 2);
    let sentence = "step 6 ends the ticket with bay 6 held";
    let why = Why::HeldAtFinish { held: mask(&[6]) };
    says(&section, Cause::Unbracketed { step: 6 }, sentence, why);
    section[5] = release(6);
    passes(&section);
}
