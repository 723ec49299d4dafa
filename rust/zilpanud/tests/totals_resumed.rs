//! Totals that stop, in sections that are cut and resumed: document 02's 5/14, "an uncut or resumed ticket is measured by
//! the new rule". A total is worked out once, when it is logged; what is resumed is stored as it was logged.
//!
//! Every expectation is worked out by hand.

mod common;

use common::held::stores;
use common::totals::*;
use common::*;
use zilpanud::code::*;
use zilpanud::cut::ENOUGH;
use zilpanud::{End, Standing, Turn};

const START: Words = Words { cells: [TOP_1, 5, 3, HALF, 8, 9, 6, 1], own: [2, 7, 0, 3, 4, 5, TOP, 0] };

/// Totals that stop and totals that go on from there. Worked out a second time, the second would be 2^64 − 7, the fourth
/// 0 and the sixth 7.
const STEPS: [u64; 8] = [
    add(24, 24, own(5)),         // 2^64 − 2 and 5: 2^64 − 1
    sub(24, 24, own(3)),         // less 3: 2^64 − 4
    sub(25, 25, 24),             // 5 less 2^64 − 4: 0
    sub(25, 26, 25),             // 3 less 0: 3
    add(own(0), 27, 27),         // 2^63 and 2^63: 2^64 − 1
    sub(own(0), own(1), own(0)), // 7 less 2^64 − 1: 0
    add(28, own(0), 25),         // 0 and 3: 3
    sub(29, 24, own(6)),         // 2^64 − 4 less 2^64 − 1: 0
];

const END: Words = Words { cells: [TOP_3, 3, 3, HALF, 3, 0, 6, 1], own: [0, 7, 0, 3, 4, 5, TOP, 0] };

/// Six turns of the acquire, four of each total, six of the release, three of the finish.
const TURNS: usize = 6 + 4 * 8 + 6 + 3;

/// A recovery, a run to the end; a section that was not begun has changed no cell, and is submitted again.
fn carried_on(world: &mut World) {
    world.at = ODD;
    world.left = ENOUGH;
    world.recover().unwrap();
    assert_eq!(world.run(384).unwrap().end, End::AllIdle);
    if zilpanud::standing(&world.image, 0, 1) == Ok(Standing::NotBegun) {
        assert_eq!(Words::of(world).cells, START.cells);
        world.submit_with(0, 1, &START.own, &under_lock_3(&STEPS)).unwrap();
        assert_eq!(world.run(384).unwrap().end, End::AllIdle);
    }
    assert_eq!(Words::of(world), END);
    assert_eq!(zilpanud::finished(&world.image, 0), Ok(1));
}

fn cut_after(turns: usize) -> World {
    let mut world = START.submitted(&STEPS);
    stores(&mut world, 0, turns);
    world
}

#[test]
fn uncut() {
    let mut world = cut_after(TURNS);
    assert_eq!((world.turn(0), Words::of(&world)), (Ok(Turn::Idle), END));
}

#[test]
fn cut_at_each_store() {
    for turns in 0..=TURNS {
        carried_on(&mut cut_after(turns));
    }
}

#[test]
fn cut_at_each_store_of_the_recovery_too() {
    for turns in 0..=TURNS {
        for kept in 0..=4 {
            let mut world = cut_after(turns);
            world.left = kept;
            world.recover().unwrap();
            carried_on(&mut world);
        }
    }
}

/// A second cut, after each of the turns up to the next total's last; and a third after as many.
#[test]
fn cut_again_and_again() {
    for turns in 5..TURNS - 1 {
        for more in 0..=5 {
            let mut world = cut_after(turns);
            for _ in 0..2 {
                world.recover().unwrap();
                (0..more).for_each(|_| assert!(world.turn(0).is_ok()));
            }
            carried_on(&mut world);
        }
    }
}

/// Cut behind each store of one total that stops, its target also the word that it starts from. With its third store
/// the pc names it: only its target is then left to be stored, with what was logged.
#[test]
fn the_value_is_that_of_the_log() {
    let rows =
        [(add(24, 24, own(5)), TOP, TOP), (sub(24, own(5), 24), 0, 5), (sub(24, own(6), 24), 1, TOP_1)];
    for (step, once, twice) in rows {
        for turns in 0..=4 {
            let mut world = START.submitted(&[step]);
            stores(&mut world, 0, 6 + turns);
            if turns == 4 {
                assert_eq!(world.image[CELL_24], once);
            }
            world.recover().unwrap();
            // four stores and the acquire's last one, or the last of the four
            stores(&mut world, 0, if turns < 3 { 5 } else { 1 });
            assert_eq!(world.image[CELL_24], once, "cut after {turns} of {step:#x}");
        }
        // as a second total it would have given this
        let mut world = START.submitted(&[step, step]);
        world.run(384).unwrap();
        assert_eq!(world.image[CELL_24], twice);
    }
}

/// The log's words alone say what is stored: not the words that the instruction names, which are others by now, and not
/// the rule. 3 is what 2^64 − 2 and 5 gave before the rule was changed. The next total goes by the new one.
#[test]
fn what_was_logged_is_stored_whatever_it_is() {
    for logged in [3, 0, 77, HALF, TOP] {
        let mut world = START.submitted(&[add(24, 24, own(5)), add(25, 24, own(6))]);
        stores(&mut world, 0, 6 + 3);
        assert_eq!(world.image[RECORD + 3], TOP);
        world.image[RECORD + 3] = logged;
        (world.image[CELL_24], world.image[OWN + 5]) = (9, 11);
        world.recover().unwrap();
        stores(&mut world, 0, 1);
        assert_eq!(world.image[CELL_24], logged);
        assert_eq!(world.run(384).unwrap().end, End::AllIdle);
        assert_eq!((world.image[CELL_24], world.image[CELL_24 + 1]), (logged, TOP));
    }
}

/// Logged and not yet named: the total is worked out again, from the words that there are then.
#[test]
fn what_was_not_yet_named_is_worked_out_again() {
    for turns in [1, 2] {
        let mut world = START.submitted(&[sub(24, own(5), 24)]);
        stores(&mut world, 0, 6 + turns);
        world.image[CELL_24] = 2;
        world.recover().unwrap();
        assert_eq!(world.run(384).unwrap().end, End::AllIdle);
        assert_eq!(world.image[CELL_24], 3);
    }
}
