//! Totals at the ends of a word: document 02's 5/14, "a total never goes below nothing and never starts over. Kind 4 now
//! stops at 2^64 − 1 and kind 5 at 0."
//!
//! Every expectation is written out by hand; nothing here adds or subtracts words. Cells that are to be near an end are
//! stored into an image at rest, which may have any (change_over.rs). After cuts: totals_resumed.rs.

mod common;

use common::held::stores;
use common::totals::*;
use common::*;
use zilpanud::code::*;
use zilpanud::{End, Turn};

/// Two words and their sum, which is below the top.
const SUMS: [(u64, u64, u64); 8] = [
    (0, 0, 0),
    (2, 3, 5),
    (0xffff_ffff, 1, 0x1_0000_0000),
    (BELOW_HALF, 0, BELOW_HALF),
    (BELOW_HALF, 1, HALF),
    (HALF, 1, ABOVE_HALF),
    (BELOW_HALF, BELOW_HALF, TOP_1),
    (TOP_3, 1, TOP_2),
];

/// Two words whose sum is just the top.
const JUST_THE_TOP: [(u64, u64); 6] = [
    (TOP, 0),
    (TOP_1, 1),
    (TOP_2, 2),
    (HALF, BELOW_HALF),
    (0xffff_ffff_0000_0000, 0xffff_ffff),
    (0xffff_ffff_ffff_ff9c, 99),
];

/// Two words whose sum is past the top: by one, and by more.
const PAST_THE_TOP: [(u64, u64); 10] = [
    (TOP, 1),
    (TOP_2, 3),
    (HALF, HALF),
    (BELOW_HALF, ABOVE_HALF),
    (0xffff_ffff_0000_0000, 0x1_0000_0000),
    (TOP_1, 5),
    (TOP, HALF),
    (ABOVE_HALF, TOP_1),
    (TOP, TOP_1),
    (TOP, TOP),
];

/// Two words, and the first less the second, which is more than nothing.
const DIFFERENCES: [(u64, u64, u64); 10] = [
    (7, 5, 2),
    (1, 0, 1),
    (0x1_0000_0000, 1, 0xffff_ffff),
    (HALF, 1, BELOW_HALF),
    (HALF, BELOW_HALF, 1),
    (ABOVE_HALF, 1, HALF),
    (TOP, HALF, BELOW_HALF),
    (TOP, TOP_2, 2),
    (TOP, 1, TOP_1),
    (TOP, 0, TOP),
];

/// Words that less themselves are just nothing.
const JUST_NOTHING: [u64; 6] = [0, 1, BELOW_HALF, HALF, TOP_1, TOP];

/// Two words of which the first is less than the second: by one, and by more.
const BELOW_NOTHING: [(u64, u64); 10] = [
    (0, 1),
    (6, 7),
    (BELOW_HALF, HALF),
    (0xffff_ffff, 0x1_0000_0000),
    (TOP_1, TOP),
    (0, HALF),
    (0, TOP),
    (1, TOP_1),
    (5, ABOVE_HALF),
    (HALF, TOP),
];

/// Target, first and second word, cells and own words. The target is a third one, or the first, or the second.
const WORDS: [(u16, u16, u16); 12] = [
    (26, 24, 25),
    (own(2), own(0), own(1)),
    (31, own(7), 24),
    (31, 24, own(7)),
    (own(5), 30, own(4)),
    (own(5), 30, 31),
    (24, 24, 25),
    (25, 24, 25),
    (own(0), own(0), own(1)),
    (own(1), own(0), own(1)),
    (24, 24, own(3)),
    (own(3), 24, own(3)),
];

/// Junk, no two words the same.
fn junk() -> Words {
    let cells: [u64; 8] = std::array::from_fn(|i| 0x9e37_79b9_7f4a_7c15_u64.rotate_left(7 * i as u32));
    Words { cells, own: cells.map(|word| !word) }
}

/// One instruction, run to the end: its target is as expected, and every other word is as it was.
fn gives(instruction: u64, given: &[(u16, u64)], (target, expected): (u16, u64)) {
    let words = given.iter().fold(junk(), |words, (word, value)| words.with(*word, *value));
    let mut world = words.submitted(&[instruction]);
    assert_eq!(world.run(19).unwrap().end, End::AllIdle);
    assert_eq!(Words::of(&world), words.with(target, expected), "{instruction:#x} of {given:x?}");
}

// ---- values

#[test]
fn sums() {
    let stopped = JUST_THE_TOP.iter().chain(&PAST_THE_TOP).map(|&(x, y)| (x, y, TOP));
    for (x, y, sum) in SUMS.into_iter().chain(stopped) {
        for (a, b, c) in WORDS {
            gives(add(a, b, c), &[(b, x), (c, y)], (a, sum));
            gives(add(a, c, b), &[(b, x), (c, y)], (a, sum));
        }
    }
}

#[test]
fn differences() {
    let nothing = JUST_NOTHING.map(|x| (x, x, 0));
    let stopped = BELOW_NOTHING.map(|(x, y)| (x, y, 0));
    for (x, y, difference) in DIFFERENCES.into_iter().chain(nothing).chain(stopped) {
        for (a, b, c) in WORDS {
            gives(sub(a, b, c), &[(b, x), (c, y)], (a, difference));
            gives(sub(a, c, b), &[(c, x), (b, y)], (a, difference));
        }
    }
}

/// Both words are one, and the target may be that one too.
#[test]
fn a_word_with_itself() {
    let words = [(24, 24), (25, 24), (own(6), own(6)), (own(0), own(6)), (31, own(0)), (own(0), 31)];
    let doubled =
        [(0, 0), (1, 2), (BELOW_HALF, TOP_1), (HALF, TOP), (ABOVE_HALF, TOP), (TOP_1, TOP), (TOP, TOP)];
    for (x, sum) in doubled {
        for (a, b) in words {
            gives(add(a, b, b), &[(b, x)], (a, sum));
            gives(sub(a, b, b), &[(b, x)], (a, 0));
        }
    }
}

/// Comparisons and sets are as they were: 2^63 is above what is below it, and no word is above the top.
#[test]
fn comparisons_are_unsigned() {
    let rows =
        [(0, TOP, 1), (TOP, 0, 0), (TOP_1, TOP, 1), (TOP, TOP, 0), (BELOW_HALF, HALF, 1), (HALF, 1, 0)];
    for (x, y, below) in rows {
        gives(less(26, 24, own(0)), &[(24, x), (own(0), y)], (26, below));
    }
    gives(set(24, u32::MAX), &[(24, TOP)], (24, 0xffff_ffff));
}

/// The stores of a total that stops, as of any other: the log's entry that is not active, the pc, the target. The
/// acquire was logged in entry 1.
#[test]
fn the_four_stores_of_a_stop() {
    for (instruction, value) in [(add(24, 24, own(0)), TOP), (sub(24, own(1), 24), 0)] {
        let mut world = Words { cells: [TOP_1; 8], own: [5; 8] }.submitted(&[instruction]);
        stores(&mut world, 0, 6);
        for (index, word) in [(RECORD + 2, 8 + 24), (RECORD + 3, value), (PC, 2), (CELL_24, value)] {
            let mut expected = world.image.clone();
            expected[index] = word;
            assert_eq!(world.turn(0), Ok(Turn::Stored(index)));
            assert_eq!(world.image, expected);
        }
    }
}

// ---- what a total is when it has stopped

/// Own word i is i, but for the sixth.
const OWN_WORDS: [u64; 8] = [0, 1, 2, 3, 4, 5, TOP, 7];

/// What cell 24 becomes by these steps, in one section and in a section for each step.
fn becomes(start: u64, steps: &[u64], expected: u64) {
    let words = Words { cells: [start; 8], own: OWN_WORDS };
    let mut world = words.submitted(steps);
    assert_eq!(world.run(384).unwrap().end, End::AllIdle);
    assert_eq!(Words::of(&world), words.with(24, expected));
    let mut world = words.submitted(&steps[..1]);
    for (step, number) in steps[1..].iter().zip(2..) {
        world.run(384).unwrap();
        world.submit_with(0, number, &OWN_WORDS, &under_lock_3(&[*step])).unwrap();
    }
    world.run(384).unwrap();
    assert_eq!(Words::of(&world), words.with(24, expected));
}

/// A word that stopped is the word at the end and nothing more: what comes then starts from there.
#[test]
fn a_stop_is_not_remembered() {
    let (plus, minus) = (|i| add(24, 24, own(i)), |i| sub(24, 24, own(i)));
    becomes(TOP, &[plus(5), minus(1)], TOP_1);
    becomes(TOP_1, &[plus(5), minus(5), plus(2)], TOP_3);
    becomes(0, &[minus(5), plus(3)], 3);
    // the order counts
    becomes(5, &[minus(7), plus(7)], 7);
    becomes(5, &[plus(7), minus(7)], 5);
    // from one end to the other
    becomes(3, &[plus(6), minus(6)], 0);
    becomes(TOP_2, &[minus(6), plus(6)], TOP);
}

/// The manual's moves, here from cell 24 to cell 25: 13 are there. The plain one makes boxes where more are wanted; the
/// one with two differences more moves the smaller number, whichever that is.
#[test]
fn a_move_of_more_than_there_is() {
    let plain: &[u64] = &[sub(24, 24, own(0)), add(25, 25, own(0))];
    let bounded: &[u64] =
        &[sub(own(2), 24, own(0)), sub(own(3), 24, own(2)), sub(24, 24, own(3)), add(25, 25, own(3))];
    let rows = [
        (plain, 20, [0, 27]),
        (plain, 13, [0, 20]),
        (plain, 5, [8, 12]),
        (bounded, 20, [0, 20]),
        (bounded, 13, [0, 20]),
        (bounded, 5, [8, 12]),
        (bounded, 0, [13, 7]),
        (bounded, TOP, [0, 20]),
    ];
    for (steps, wanted, [from, to]) in rows {
        let cells = [13, 7, 0, 0, 0, 0, 0, 0];
        let mut world = Words { cells, own: [wanted; 8] }.submitted(steps);
        world.run(384).unwrap();
        assert_eq!(Words::of(&world).cells, [from, to, 0, 0, 0, 0, 0, 0]);
    }
}

/// The manual's question whether a sum would pass the top: the room above the first word, and whether that is too small.
#[test]
fn the_room_above_a_word() {
    let fits = SUMS.iter().map(|&(x, y, _)| (x, y)).chain(JUST_THE_TOP).map(|sum| (sum, 0));
    for ((x, y), passes) in fits.chain(PAST_THE_TOP.map(|sum| (sum, 1))) {
        for (x, y) in [(x, y), (y, x)] {
            let words = Words { cells: [x, y, 0, 0, 0, 0, 0, 0], own: [TOP; 8] };
            let mut world = words.submitted(&[sub(own(6), own(5), 24), less(own(6), own(6), 25)]);
            world.run(384).unwrap();
            assert_eq!(Words::of(&world), words.with(own(6), passes));
        }
    }
}

/// Cell 24 has 2^64 − 2. Worker 0 adds 5, worker 1 subtracts 3: the sum stops, and 3 are gone from there; or 5 more
/// than 2^64 − 5 is one past the top.
#[test]
fn which_worker_comes_first_shows() {
    for (first, second, expected) in [(0, 1, TOP_3), (1, 0, TOP)] {
        let mut world = World::formatted(2);
        world.image[CELL_24] = TOP_1;
        for (worker, step) in [(0, add(24, 24, own(5))), (1, sub(24, 24, own(3)))] {
            world.submit_with(worker, 1, &OWN_WORDS, &under_lock_3(&[step])).unwrap();
        }
        for worker in [first, second] {
            stores(&mut world, worker, 19);
            assert_eq!(world.turn(worker), Ok(Turn::Idle));
        }
        assert_eq!(world.image[CELL_24], expected);
    }
}
