//! How many turns a section takes: document 02's 4/14, "the sum of the turn table over the steps it really goes
//! through, skipped steps left out", and the fewest and the most of it from each step on.
//!
//! Every expectation is worked out by hand. Document 01's table: a take and a drop have 6 turns, kinds 3 to 6 have 4, a
//! skip 1, the end 3. So one writes down the steps that are gone through and adds. For the most, every jump goes on at
//! the next step, since then no step is left out; for the fewest, one compares the ways. What is left after a cut is in
//! turns_left.rs.

mod common;

use common::{World, TICKET};
use zilpanud::code::*;
use zilpanud::{Cause, Needs, Refusal, Turn};

unsafe extern "C" {
    /// As `include/zilpanud.h` declares them.
    fn zilpanud_turns_of_path(
        words: *const u64,
        words_len: usize,
        path: *const u64,
        path_len: usize,
        turns: *mut u64,
        detail: *mut u64,
    ) -> u64;
    fn zilpanud_turns_from(
        words: *const u64,
        words_len: usize,
        step: u64,
        fewest: *mut u64,
        most: *mut u64,
        detail: *mut u64,
    ) -> u64;
}

/// What the words that a call writes to are filled with.
const FILLS: [u64; 4] = [0, 1, u64::MAX, 0x8000_0100_0000_0bad];

/// The call itself: its answer, its turns and its detail.
fn path_called(section: &[u64], path: &[u64], fill: u64) -> (u64, u64, u64) {
    let (mut turns, mut detail) = (fill, !fill);
    let (words, count) = (section.as_ptr(), section.len());
    // SAFETY: every pointer comes from a live reference, and every length is its slice's.
    let answer =
        unsafe { zilpanud_turns_of_path(words, count, path.as_ptr(), path.len(), &mut turns, &mut detail) };
    (answer, turns, detail)
}

/// The same: its answer, the fewest and the most, and its detail.
fn from_called(section: &[u64], step: u64, fill: u64) -> (u64, u64, u64, u64) {
    let (mut fewest, mut most, mut detail) = (fill, !fill, fill);
    let (words, count) = (section.as_ptr(), section.len());
    // SAFETY: as above.
    let answer = unsafe { zilpanud_turns_from(words, count, step, &mut fewest, &mut most, &mut detail) };
    (answer, fewest, most, detail)
}

fn malformed<T>(step: u64) -> Result<T, Refusal> {
    Err(Refusal(Cause::Malformed { step: step as usize }))
}

/// A path of a section takes so many turns.
fn takes(section: &[u64], path: &[u64], turns: u64) {
    assert_eq!(zilpanud::turns_of_path(section, path), Ok(turns), "{path:?}");
    for fill in FILLS {
        assert_eq!(path_called(section, path, fill), (0, turns, 0), "{path:?}");
    }
}

/// A path is refused at this number.
fn strays(section: &[u64], path: &[u64], at: u64) {
    assert_eq!(zilpanud::turns_of_path(section, path), malformed(at), "{path:?}");
    for fill in FILLS {
        assert_eq!(path_called(section, path, fill), (5, 0, at), "{path:?}");
    }
}

/// A section passes the check, and needs so many turns from each of its steps on: the fewest and the most.
fn needs(section: &[u64], expected: &[(u64, u64)]) {
    assert_eq!((zilpanud::check(section), section.len()), (Ok(()), expected.len()));
    for (step, &(fewest, most)) in (0..).zip(expected) {
        assert_eq!(zilpanud::turns_from(section, step), Ok(Needs { fewest, most }), "from {step}");
        for fill in FILLS {
            assert_eq!(from_called(section, step, fill), (0, fewest, most, 0), "from {step}");
        }
    }
    for step in past(section.len() as u64) {
        refused(section, step, Cause::Malformed { step: step as usize });
    }
}

fn refused(section: &[u64], step: u64, cause: Cause) {
    assert_eq!(zilpanud::turns_from(section, step), Err(Refusal(cause)), "from {step}");
    for fill in FILLS {
        let detail = cause.detail().unwrap_or(0);
        assert_eq!(from_called(section, step, fill), (cause.number(), 0, 0, detail), "from {step}");
    }
}

/// Numbers of no step of a section of so many; some are the number of one to a count of 8, 16 or 32 bits.
fn past(steps: u64) -> [u64; 7] {
    [steps, steps + 1, 1 << 8, (1 << 16) + 1, (1 << 32) + 2, 1 << 63, u64::MAX]
}

/// Every kind once, by number.
const EVERY: [u64; 8] = [
    acquire(3),
    set(24, 0x3_0005),
    add(25, 24, own(0)),
    sub(26, 24, own(1)),
    less(27, 24, 25),
    jump_if_zero(24, 6),
    release(3),
    finish(),
];

/// The jump goes past the assignment if own word 0 is 0.
const EITHER: [u64; 5] = [acquire(3), jump_if_zero(own(0), 3), set(24, 5), release(3), finish()];

/// Two jumps: the first goes to step 3, past the second; the second, where it is come to, past all three assignments.
const CROSSED: [u64; 8] = [
    acquire(3),
    jump_if_zero(own(0), 3),
    jump_if_zero(own(1), 6),
    set(24, 1),
    set(25, 2),
    set(26, 3),
    release(3),
    finish(),
];

// ---- the turns of a path

/// Document 01's row "uncut: 19 turns".
#[test]
fn the_ticket() {
    takes(&TICKET, &[0, 1, 2, 3], 6 + 4 + 6 + 3);
    takes(&TICKET, &[], 0);
    takes(&TICKET, &[1, 2, 3], 13);
}

#[test]
fn each_kind_by_itself() {
    for (step, turns) in (0..).zip([6, 4, 4, 4, 4, 1, 6, 3]) {
        takes(&EVERY, &[step], turns);
    }
    takes(&EVERY, &[0, 1, 2, 3, 4, 5, 6, 7], 32);
}

/// A sum: no number is left out for being there already, or for standing behind a higher one.
#[test]
fn in_any_order_and_again() {
    takes(&TICKET, &[3, 2, 1, 0], 19);
    takes(&TICKET, &[3, 0, 0, 2, 1, 3], 3 + 6 + 6 + 6 + 4 + 3);
    takes(&TICKET, &[0; 11_000], 66_000);
    takes(&EVERY, &[5; 300], 300);
}

#[test]
fn steps_jumped_over_are_left_out() {
    takes(&EITHER, &[0, 1, 3, 4], 16);
    takes(&EITHER, &[0, 1, 2, 3, 4], 20);
    takes(&CROSSED, &[0, 1, 3, 4, 5, 6, 7], 6 + 1 + 12 + 6 + 3);
    takes(&CROSSED, &[0, 1, 2, 6, 7], 6 + 1 + 1 + 6 + 3);
    takes(&CROSSED, &[0, 1, 2, 3, 4, 5, 6, 7], 6 + 1 + 1 + 12 + 6 + 3);
}

/// Causes 6 to 9 are not asked.
#[test]
fn sections_that_the_check_refuses_behind_5() {
    takes(&[set(512, 5), acquire(3), release(3), finish()], &[0, 1, 2, 3], 19);
    takes(&[acquire(5), acquire(3), release(4), finish()], &[0, 1, 2, 3], 21);
    takes(&[acquire(3), set(32, 5), finish()], &[0, 1, 2], 13);
    takes(&[acquire(3), jump_if_zero(24, 3), release(3), finish()], &[0, 1, 3], 10);
}

/// Cause 4 is not asked: from no word to 100,000.
#[test]
fn any_number_of_words() {
    takes(&[], &[], 0);
    strays(&[], &[0], 0);
    takes(&[finish()], &[0, 0], 6);
    takes(&[acquire(3), finish()], &[0, 1], 9);
    for steps in [65, 66, 259, 65_539, 100_000] {
        let mut section = vec![acquire(3)];
        section.resize(steps - 1, set(24, 5));
        section.push(finish());
        let last = steps as u64 - 1;
        takes(&section, &[0, 1, 64, last - 1, last], 6 + 4 + if steps == 65 { 3 + 4 + 3 } else { 4 + 4 + 3 });
        strays(&section, &[0, last, last + 1], last + 1);
    }
}

/// A jump goes to step 63 at most, the last that a section can have, also where there are more words.
#[test]
fn jumps_among_many_words() {
    let mut words = [set(24, 5); 70];
    words[69] = finish();
    for (at, to) in [(0, 63), (62, 63), (5, 6)] {
        words[at] = jump_if_zero(own(0), to);
        takes(&words, &[at as u64, 1, 69], 1 + 4 + 3);
    }
    for (at, to) in [(0, 64), (63, 64), (64, 65), (0, 69), (64, 63)] {
        words[at] = jump_if_zero(own(0), to);
        strays(&words, &[69, at as u64, 1], at as u64);
    }
}

#[test]
fn numbers_of_no_step() {
    for number in past(4) {
        strays(&TICKET, &[number], number);
        strays(&TICKET, &[0, 1, number, 2, 3], number);
    }
    // the first in the path, and not the lowest
    strays(&TICKET, &[3, 9, 7, 4], 9);
    strays(&TICKET, &[0, u64::MAX, 4], u64::MAX);
}

/// A step that fails 5 is refused where the path comes to it, and only there.
#[test]
fn malformed_steps() {
    let wrong = [
        0,
        u64::MAX,
        instruction(9, 0, 0, 0),
        acquire(64),
        instruction(2, 3, 0, 1),
        set(520, 5),
        add(24, 24, 520),
        // to itself, backwards and past the end; a finish before the last step
        jump_if_zero(24, 1),
        jump_if_zero(24, 0),
        jump_if_zero(24, 4),
        finish(),
    ];
    for word in wrong {
        let section = [acquire(3), word, release(3), finish()];
        strays(&section, &[0, 1, 2, 3], 1);
        strays(&section, &[3, 1, 9], 1);
        strays(&section, &[3, 9, 1], 9);
        takes(&section, &[0, 2, 3], 15);
    }
    let no_finish = [acquire(3), set(24, 5), release(3)];
    takes(&no_finish, &[0, 1], 10);
    strays(&no_finish, &[0, 1, 2], 2);
}

// ---- the fewest and the most

#[test]
fn with_no_jump_they_are_the_same() {
    needs(&TICKET, &[(19, 19), (13, 13), (9, 9), (3, 3)]);
    needs(&[acquire(3), release(3), finish()], &[(15, 15), (9, 9), (3, 3)]);
}

/// The most that 64 steps can have, 379: 31 acquires, a sum, 31 releases and the finish. From step i up to 31 on there
/// are 31 - i acquires less than at first; from step 32 + k on, 31 - k releases and the finish.
#[test]
fn sixty_four_steps() {
    let mut section: Vec<u64> = (0..31).map(acquire).collect();
    section.push(add(0, 8, own(0)));
    section.extend((0..31).map(release));
    section.push(finish());
    let mut expected: Vec<u64> = (0..32).map(|i| 379 - 6 * i).collect();
    expected.extend((0..32).map(|k| 6 * (31 - k) + 3));
    assert_eq!((expected[0], expected[31], expected[32], expected[63]), (379, 193, 189, 3));
    needs(&section, &expected.iter().map(|&turns| (turns, turns)).collect::<Vec<_>>());
}

/// Behind the jump nothing is open any more; a jump to the next step goes the same way twice.
#[test]
fn over_both_ways_of_a_jump() {
    needs(&EITHER, &[(16, 20), (10, 14), (13, 13), (9, 9), (3, 3)]);
    let same = [acquire(3), jump_if_zero(own(0), 2), release(3), finish()];
    needs(&same, &[(16, 16), (10, 10), (9, 9), (3, 3)]);
}

/// Who jumps wherever it can comes to the three assignments: 1 + 12 + 9 from step 1 on. Who goes on there finds the
/// second jump, which goes past them: 1 + 1 + 9.
#[test]
fn the_first_jump_is_not_the_shortest_way() {
    let from_3 = [(21, 21), (17, 17), (13, 13), (9, 9), (3, 3)];
    let mut expected = vec![(6 + 11, 6 + 23), (11, 1 + 22), (10, 1 + 21)];
    expected.extend(from_3);
    needs(&CROSSED, &expected);
}

/// By the first jump eight steps are gone through, and by the second seven; but an acquire and a release are among the
/// seven: 6 + 1 + 12 + 1 + 9 turns, and by the first 6 + 1 + 1 + 1 + 8 + 9.
#[test]
fn turns_are_compared_and_not_steps() {
    let section = [
        acquire(3),
        jump_if_zero(own(0), 6), // the first, past steps 2 to 5
        acquire(5),
        release(5),
        jump_if_zero(own(1), 10), // the second, past steps 5 to 9
        set(24, 1),
        jump_if_zero(own(2), 7), // step 6
        jump_if_zero(own(3), 8),
        set(25, 1),
        set(26, 1),
        release(3), // step 10
        finish(),
    ];
    let to_6 = [(26, 43), (20, 37), (22, 36), (16, 30), (10, 24), (23, 23)];
    let from_6 = [(19, 19), (18, 18), (17, 17), (13, 13), (9, 9), (3, 3)];
    needs(&section, &[to_6, from_6].concat());
}

/// Jumps to the next step but one, one behind the other: each goes past an assignment of 4 turns, or does not.
#[test]
fn jumps_one_behind_the_other() {
    let section = [
        acquire(3),
        jump_if_zero(own(0), 3),
        set(24, 1),
        jump_if_zero(own(1), 5),
        set(25, 1),
        jump_if_zero(own(2), 7),
        set(26, 1),
        release(3),
        finish(),
    ];
    let expected = [(18, 30), (12, 24), (15, 23), (11, 19), (14, 18), (10, 14), (13, 13), (9, 9), (3, 3)];
    needs(&section, &expected);
}

/// The check's causes come first, from whatever step it is asked; then 5 for a step that is not there.
#[test]
fn refused_as_the_check_does() {
    let mut long = vec![acquire(3)];
    long.resize(63, set(24, 5));
    long.extend([release(3), finish()]);
    let sections: [(&[u64], Cause); 9] = [
        (&[], Cause::Length),
        (&[acquire(3), finish()], Cause::Length),
        (&long, Cause::Length),
        (&[acquire(3), acquire(64), release(3), finish()], Cause::Malformed { step: 1 }),
        (&[acquire(3), set(24, 5), release(3)], Cause::Malformed { step: 2 }),
        (&[acquire(3), set(24, 5), finish()], Cause::Unbracketed { step: 2 }),
        (&[acquire(3), acquire(3), release(3), finish()], Cause::Unordered { step: 1 }),
        (&[acquire(3), set(32, 5), release(3), finish()], Cause::Unguarded { step: 1 }),
        (&[acquire(3), jump_if_zero(24, 3), release(3), finish()], Cause::Unlevel { step: 1 }),
    ];
    for (section, cause) in sections {
        assert_eq!(zilpanud::check(section).map_err(Refusal::from), Err(Refusal(cause)));
        for step in [0, 1, 2, 3].into_iter().chain(past(section.len() as u64)) {
            refused(section, step, cause);
        }
    }
}

// ---- what an uncut section takes

/// The turns of a section by itself, up to idle; none of them waits.
fn turns_made(section: &[u64], args: &[u64; 8]) -> u64 {
    let mut world = World::formatted(1);
    world.submit_with(0, 1, args, section).unwrap();
    let mut turns = 0;
    loop {
        match world.turn(0) {
            Ok(Turn::Idle) => return turns,
            Ok(Turn::Stored(_) | Turn::Passed(_)) => turns += 1,
            other => panic!("{other:?}"),
        }
    }
}

/// "for a ticket run without a cut or recovery, the sum of the turn table over the steps it really goes through".
#[test]
fn uncut_sections_take_the_turns_of_their_path() {
    assert_eq!(turns_made(&TICKET, &[0; 8]), 19);
    assert_eq!(turns_made(&EITHER, &[0; 8]), 16);
    assert_eq!(turns_made(&EITHER, &[9; 8]), 20);
    // own words 0 and 1: by the first jump; by the second; by none
    assert_eq!(turns_made(&CROSSED, &[0, 1, 0, 0, 0, 0, 0, 0]), 28);
    assert_eq!(turns_made(&CROSSED, &[1, 0, 0, 0, 0, 0, 0, 0]), 17);
    assert_eq!(turns_made(&CROSSED, &[1, 1, 0, 0, 0, 0, 0, 0]), 29);
}
