//! The held set before each step: document 02's 3/14, "Called by itself, the pass refuses with 4 or 5, or gives 01's
//! held set before each step, also where 6 to 9 would refuse, and 0 from the count up."
//!
//! Every expectation is worked out by hand. Document 01: "The held set before step 0 is empty; a take adds its bay, a
//! drop removes it." So one reads the steps from the top to the bottom, writes down the set, and changes it behind an
//! acquire or a release, whatever a jump does; a lock that is added twice is in the set once, and one that is removed
//! without being there leaves the set as it was. Where the call is refused, no word has a set: all are 0, as
//! `include/zilpanud.h` says.

mod common;

use common::held::mask;
use common::TICKET;
use zilpanud::code::*;
use zilpanud::{Cause, Refusal, STEPS};

unsafe extern "C" {
    /// As `include/zilpanud.h` declares it.
    fn zilpanud_held_sets(words: *const u64, words_len: usize, sets: *mut u64, detail: *mut u64) -> u64;
}

/// What the 64 lent words are filled with.
const FILLS: [u64; 4] = [0, 1, u64::MAX, 0x8000_0100_0000_0bad];

/// The call itself: its answer, its detail, and the 64 words, which lie between words that are not lent.
fn called(section: &[u64], fill: u64) -> (u64, u64, [u64; STEPS]) {
    const AROUND: usize = 8;
    const GUARD: u64 = 0x5a69_0f3c_96a5_c3f0;
    let mut words = [GUARD; AROUND + STEPS + AROUND];
    words[AROUND..AROUND + STEPS].fill(fill);
    let mut detail = 0xdead;
    let (steps, count) = (section.as_ptr(), section.len());
    // SAFETY: the section's pointer and length are its slice's; from word AROUND on there are STEPS words, and more.
    let answer = unsafe { zilpanud_held_sets(steps, count, words.as_mut_ptr().add(AROUND), &mut detail) };
    let (before, rest) = words.split_at(AROUND);
    let (sets, behind) = rest.split_at(STEPS);
    assert_eq!((before, behind), (&[GUARD; AROUND][..], &[GUARD; AROUND][..]), "words that were not lent");
    (answer, detail, sets.try_into().unwrap())
}

/// A section has these sets, and 0 from the count up, whatever the lent words were.
fn given(section: &[u64], sets: &[u64]) {
    assert_eq!(section.len(), sets.len());
    let mut expected = [0; STEPS];
    expected[..sets.len()].copy_from_slice(sets);
    assert_eq!(zilpanud::held_sets(section), Ok(expected));
    for fill in FILLS {
        assert_eq!(called(section, fill), (0, 0, expected), "lent words of {fill:#x}");
    }
}

/// The same, by the locks of each set.
fn holds(section: &[u64], locks: &[&[usize]]) {
    let sets: Vec<u64> = locks.iter().map(|locks| mask(locks)).collect();
    given(section, &sets);
}

/// A section is refused, and by the check too, and all 64 lent words are 0.
fn refused(section: &[u64], cause: Cause) {
    assert_eq!(zilpanud::held_sets(section), Err(Refusal(cause)));
    assert_eq!(zilpanud::check(section).map_err(Refusal::from), Err(Refusal(cause)));
    for fill in FILLS {
        let detail = cause.detail().unwrap_or(0);
        assert_eq!(called(section, fill), (cause.number(), detail, [0; STEPS]), "{cause:?}");
    }
}

/// An acquire, sets up to the last but `ends`, and `ends`: so many steps in all.
fn long(steps: usize, ends: &[u64]) -> Vec<u64> {
    let mut section = vec![acquire(3)];
    section.resize(steps - ends.len(), set(24, 5));
    section.extend(ends);
    section
}

// ---- sections that pass the check

fn passes(section: &[u64], locks: &[&[usize]]) {
    assert_eq!(zilpanud::check(section), Ok(()));
    holds(section, locks);
}

#[test]
fn the_ticket() {
    passes(&TICKET, &[&[], &[3], &[3], &[]]);
}

#[test]
fn three_steps_of_each_lock() {
    for lock in 0..64u16 {
        passes(&[acquire(lock), release(lock), finish()], &[&[], &[lock as usize], &[]]);
    }
}

/// The first lock and the last, in one section.
#[test]
fn locks_0_and_63() {
    let section = [acquire(0), acquire(63), release(0), release(63), finish()];
    passes(&section, &[&[], &[0], &[0, 63], &[63], &[]]);
    given(&section, &[0, 1, 0x8000_0000_0000_0001, 0x8000_0000_0000_0000, 0]);
}

/// Locks that are released in another order than they were acquired, and a lock that is acquired again.
#[test]
fn hand_over_hand() {
    let section = [acquire(2), acquire(7), release(2), acquire(9), release(7), release(9), finish()];
    passes(&section, &[&[], &[2], &[2, 7], &[7], &[7, 9], &[9], &[]]);
    let again = [acquire(2), acquire(7), release(7), acquire(7), release(2), release(7), finish()];
    passes(&again, &[&[], &[2], &[2, 7], &[2], &[2, 7], &[7], &[]]);
}

/// No kind but acquire and release changes the set.
#[test]
fn each_other_kind_leaves_it() {
    let section = [
        acquire(3),
        set(24, 0x3_0005),
        add(25, 24, own(0)),
        sub(26, 24, own(1)),
        less(27, 24, 25),
        jump_if_zero(24, 6),
        release(3),
        finish(),
    ];
    passes(&section, &[&[], &[3], &[3], &[3], &[3], &[3], &[3], &[]]);
}

/// 64 steps: locks 0 to 30 are acquired in steps 0 to 30, step 31 is a sum, steps 32 to 62 release 0 to 30, and step 63
/// finishes. Before step i up to 31 those below i are held; before step 32 + k, those from k to 30.
#[test]
fn sixty_four_steps() {
    let mut section: Vec<u64> = (0..31).map(acquire).collect();
    section.push(add(0, 8, own(0)));
    section.extend((0..31).map(release));
    section.push(finish());
    let all = (1 << 31) - 1;
    let mut sets: Vec<u64> = (0..32).map(|i| (1 << i) - 1).collect();
    sets.extend((0..32).map(|k| all - ((1 << k) - 1)));
    assert_eq!((sets[31], sets[32], sets[33], sets[62], sets[63]), (all, all, all - 1, 1 << 30, 0));
    assert_eq!(zilpanud::check(&section), Ok(()));
    given(&section, &sets);
}

/// The sets go by the order of the steps: the jump goes past the acquire and the release of lock 5, and they are in the
/// sets behind it all the same.
#[test]
fn jumps_are_not_followed() {
    let section = [acquire(3), jump_if_zero(own(0), 4), acquire(5), release(5), release(3), finish()];
    passes(&section, &[&[], &[3], &[3], &[3, 5], &[3], &[]]);
}

// ---- sections that the check refuses with 6 to 9

fn fails(section: &[u64], cause: Cause, locks: &[&[usize]]) {
    assert_eq!(zilpanud::check(section).map_err(Refusal::from), Err(Refusal(cause)));
    holds(section, locks);
}

/// "first step no take; a later step other than end with nothing held before it; end with something held". In the last
/// two the set behind the last step is not empty, and the words from the count up are 0 all the same.
#[test]
fn cause_6_is_not_asked() {
    let no = |step| Cause::Unbracketed { step };
    fails(&[set(512, 5), acquire(3), release(3), finish()], no(0), &[&[], &[], &[3], &[]]);
    fails(&[acquire(3), release(3), set(512, 5), finish()], no(2), &[&[], &[3], &[], &[]]);
    fails(&[acquire(3), set(24, 5), finish()], no(2), &[&[], &[3], &[3]]);
    fails(&[acquire(3), acquire(63), release(3), finish()], no(3), &[&[], &[3], &[3, 63], &[63]]);
}

/// The last of 64 sets is not empty: all but the first have lock 3.
#[test]
fn the_last_of_64_sets_is_given() {
    let section = long(64, &[finish()]);
    let verdict = zilpanud::check(&section).map_err(Refusal::from);
    assert_eq!(verdict, Err(Refusal(Cause::Unbracketed { step: 63 })));
    let mut sets = [1 << 3; 64];
    sets[0] = 0;
    given(&section, &sets);
}

/// "take not above all held, drop of a bay not held". A set has a lock or has it not: one that is acquired twice is
/// gone with one release.
#[test]
fn cause_7_is_not_asked() {
    let no = |step| Cause::Unordered { step };
    fails(&[acquire(3), acquire(3), release(3), finish()], no(1), &[&[], &[3], &[3], &[]]);
    let twice = [acquire(3), acquire(3), release(3), release(3), finish()];
    fails(&twice, no(1), &[&[], &[3], &[3], &[], &[]]);
    let falling = [acquire(5), acquire(3), release(3), release(5), finish()];
    fails(&falling, no(1), &[&[], &[5], &[3, 5], &[5], &[]]);
    fails(&[acquire(3), release(4), release(3), finish()], no(1), &[&[], &[3], &[3], &[]]);
    let none = [acquire(0), release(63), release(1), release(0), finish()];
    fails(&none, no(1), &[&[], &[0], &[0], &[0], &[]]);
}

/// "board word whose bay isn't held": word 32 is lock 4's.
#[test]
fn cause_8_is_not_asked() {
    let no = |step| Cause::Unguarded { step };
    fails(&[acquire(3), set(32, 5), release(3), finish()], no(1), &[&[], &[3], &[3], &[]]);
    let late = [acquire(3), acquire(4), release(4), add(24, 24, 32), release(3), finish()];
    fails(&late, no(3), &[&[], &[3], &[3, 4], &[3], &[3], &[]]);
}

/// "skip to a step with another held set".
#[test]
fn cause_9_is_not_asked() {
    let no = |step| Cause::Unlevel { step };
    fails(&[acquire(3), jump_if_zero(24, 3), release(3), finish()], no(1), &[&[], &[3], &[3], &[]]);
    let section = [acquire(3), acquire(5), jump_if_zero(24, 4), release(5), release(3), finish()];
    fails(&section, no(2), &[&[], &[3], &[3, 5], &[3, 5], &[3], &[]]);
}

/// Steps that fail 6, 7, 8 and 9, in this order, mended one by one until the finish is left, which has lock 1 held.
#[test]
fn all_of_them_in_one_section() {
    let mut section = [
        release(6),
        acquire(6),
        acquire(2),
        release(2),
        set(511, 1),
        jump_if_zero(48, 7),
        release(6),
        finish(),
    ];
    let locks: [&[usize]; 8] = [&[], &[], &[6], &[2, 6], &[6], &[6], &[6], &[]];
    fails(&section, Cause::Unbracketed { step: 0 }, &locks);
    section[0] = acquire(1);
    let locks: [&[usize]; 8] = [&[], &[1], &[1, 6], &[1, 2, 6], &[1, 6], &[1, 6], &[1, 6], &[1]];
    fails(&section, Cause::Unordered { step: 2 }, &locks);
    section[2] = acquire(8);
    section[3] = release(8);
    let locks: [&[usize]; 8] = [&[], &[1], &[1, 6], &[1, 6, 8], &[1, 6], &[1, 6], &[1, 6], &[1]];
    fails(&section, Cause::Unguarded { step: 4 }, &locks);
    section[4] = set(48, 1);
    fails(&section, Cause::Unlevel { step: 5 }, &locks);
    section[5] = jump_if_zero(48, 6);
    fails(&section, Cause::Unbracketed { step: 7 }, &locks);
}

/// A jump passes the check exactly where the sets before it and before its target are the same: one at step 1 with lock
/// 3 held, to each later step. Lock 5 is held besides before 3 and before 5, and none before the finish.
#[test]
fn the_check_looks_a_target_up_there() {
    for target in 2..8 {
        let section = [
            acquire(3),
            jump_if_zero(own(0), target),
            acquire(5),
            release(5),
            acquire(5),
            release(5),
            release(3),
            finish(),
        ];
        holds(&section, &[&[], &[3], &[3], &[3, 5], &[3], &[3, 5], &[3], &[]]);
        let level = [2, 4, 6].contains(&target);
        let verdict = if level { Ok(()) } else { Err(Refusal(Cause::Unlevel { step: 1 })) };
        assert_eq!(zilpanud::check(&section).map_err(Refusal::from), verdict, "to step {target}");
    }
}

// ---- refusals

/// "step count not 3 to 64": whatever the words are, and tested before 5. 259 and 65,539 are 3 to a count that is kept
/// in 8 or in 16 bits.
#[test]
fn refused_with_4() {
    refused(&[], Cause::Length);
    refused(&TICKET[..1], Cause::Length);
    refused(&[acquire(3), finish()], Cause::Length);
    for steps in [65, 66, 128, 259, 65_539, 100_000] {
        refused(&long(steps, &[release(3), finish()]), Cause::Length);
        refused(&vec![0; steps], Cause::Length);
    }
    refused(&[0; 2], Cause::Length);
    // one step less and one more are enough
    passes(&[acquire(3), release(3), finish()], &[&[], &[3], &[]]);
    assert_eq!(zilpanud::check(&long(64, &[release(3), finish()])), Ok(()));
}

/// "step of unknown kind, or field outside its range or position", at step 1 of four.
#[test]
fn refused_with_5() {
    let wrong = [
        instruction(0, 0, 0, 0),
        instruction(9, 0, 0, 0),
        u64::MAX,
        acquire(64),
        instruction(1, 3, 1, 0),
        release(64),
        instruction(2, 3, 0, 1),
        set(520, 5),
        add(24, 520, 24),
        sub(24, 24, 520),
        less(520, 24, 24),
        jump_if_zero(520, 2),
        instruction(7, 24, 2, 1),
        // to itself, backwards, and past the end
        jump_if_zero(24, 1),
        jump_if_zero(24, 0),
        jump_if_zero(24, 4),
        finish(),
    ];
    for word in wrong {
        refused(&[acquire(3), word, release(3), finish()], Cause::Malformed { step: 1 });
    }
    let section = [acquire(3), instruction(8, 0, 0, 1), release(3), finish()];
    refused(&section, Cause::Malformed { step: 1 });
}

/// "as the last step and nowhere else; another kind as the last step fails 5".
#[test]
fn refused_with_5_at_the_last_step() {
    refused(&[acquire(3), release(3), release(3)], Cause::Malformed { step: 2 });
    refused(&[acquire(3), release(3), instruction(8, 1, 0, 0)], Cause::Malformed { step: 2 });
    refused(&long(64, &[release(3), set(24, 5)]), Cause::Malformed { step: 63 });
    refused(&long(64, &[release(3), 0]), Cause::Malformed { step: 63 });
}

/// The lowest step of those that fail.
#[test]
fn refused_with_5_at_the_lowest_step() {
    refused(&[acquire(64), acquire(3), 0, finish()], Cause::Malformed { step: 0 });
    refused(&[acquire(3), acquire(64), set(520, 1), finish()], Cause::Malformed { step: 1 });
    refused(&[acquire(3), set(24, 5), u64::MAX, release(3)], Cause::Malformed { step: 2 });
    let mut section = long(64, &[release(3), finish()]);
    for step in (0..64).rev() {
        section[step] = release(64);
        refused(&section, Cause::Malformed { step });
    }
}

/// "5 over all steps; then step by step 6, 7, 8, 9": steps that fail those come before it here.
#[test]
fn refused_with_5_behind_6_to_9() {
    let section = [
        set(512, 5), // 6
        acquire(3),
        acquire(3),          // 7
        set(32, 5),          // 8
        jump_if_zero(24, 7), // 9
        acquire(64),         // 5
        release(3),
        finish(),
    ];
    refused(&section, Cause::Malformed { step: 5 });
    let mut mended = section;
    mended[5] = set(24, 5);
    let locks: [&[usize]; 8] = [&[], &[], &[3], &[3], &[3], &[3], &[3], &[]];
    fails(&mended, Cause::Unbracketed { step: 0 }, &locks);
}
