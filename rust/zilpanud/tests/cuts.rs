//! The power cut at each store of document 01's ticket: of its formatting, its submit, its turns and its recoveries.

mod common;

use common::{World, CELL_24, COUNT, LOCK_3, NUMBER, ODD, ONLY_3, OWN, STEPS, TICKET};
use zilpanud::cut::{self, ENOUGH};
use zilpanud::{Cursors, End, Passing, Turn};

/// The turns that a recovery and a run to the end make. The cursors from before the cut are lost.
fn carried_on(world: &mut World) -> u64 {
    world.at = ODD;
    world.recover().unwrap();
    assert_eq!(world.at.held, if world.image[LOCK_3] == 0 { 0 } else { ONLY_3 });
    let run = world.run(384).unwrap();
    assert_eq!((run.end, world.image[LOCK_3]), (End::AllIdle, 0));
    assert_eq!(world.at.held, 0);
    run.tally.turns
}

/// What is left to do after a cut: nothing before the fifth turn, since the section is withdrawn; then the target
/// store of the instruction that the pc names, and all that comes after it. The acquire is named by the turns 5 to 8,
/// the assignment by 9 to 12, the release by 13 to 17; the 18th clears the pc.
fn turns_left(cut: usize) -> u64 {
    match cut {
        0..=4 => 0,
        5..=8 => 1 + 4 + 6 + 3,
        9..=12 => 1 + 6 + 3,
        13..=17 => 3 + 3,
        _ => 0,
    }
}

#[test]
fn after_each_turn() {
    for cut in 0..=19 {
        let mut world = World::after_turns(cut);
        assert_eq!(carried_on(&mut world), turns_left(cut), "cut after {cut}");
        let begun = cut >= 5;
        assert_eq!(world.image[CELL_24], if begun { 5 } else { 0 });
        assert_eq!(zilpanud::finished(&world.image, 0), Ok(begun as u64));
    }
}

/// A turn given no store leaves the image as the turn before it did.
#[test]
fn a_turn_without_a_store_changes_nothing() {
    for cut in 0..19 {
        let mut world = World::after_turns(cut);
        let before = world.image.clone();
        world.left = 0;
        world.turn(0).unwrap();
        assert_eq!((world.image, world.left), (before, 0));
    }
}

/// Document 01's row "after 15: 6 more turns, the second passes".
#[test]
fn after_15_the_second_turn_passes() {
    let mut world = World::after_turns(15);
    world.recover().unwrap();
    let answers: Vec<Turn> = (0..6).map(|_| world.turn(0).unwrap()).collect();
    assert_eq!(answers[1], Turn::Passed(Passing::AlreadyFree));
    let stored = |a: &&Turn| matches!(a, Turn::Stored(_));
    assert_eq!(answers.iter().filter(stored).count(), 5);
    assert_eq!(world.turn(0), Ok(Turn::Idle));
}

/// The order of a submit's stores: number, eight own words, the instructions, the count.
#[test]
fn in_the_submit() {
    let args = [11, 12, 13, 14, 15, 16, 17, 18];
    let mut stores = vec![(NUMBER, 1)];
    stores.extend((0..8).map(|i| (OWN + i, args[i])));
    stores.extend((0..4).map(|i| (STEPS + i, TICKET[i])));
    stores.push((COUNT, 4));
    for k in 0..=stores.len() {
        let mut world = World::formatted(1);
        let mut expected = world.image.clone();
        for (index, value) in &stores[..k] {
            expected[*index] = *value;
        }
        world.left = k as u64;
        world.submit_with(0, 1, &args, &TICKET).unwrap();
        assert_eq!((&world.image, world.left), (&expected, 0));
        world.left = ENOUGH;
        assert_eq!(carried_on(&mut world), 0);
        assert_eq!(world.image[CELL_24], 0);
    }
}

/// A formatting stores 0 in word 0, the words from 1 up, then 1 in word 0.
#[test]
fn in_the_formatting() {
    let len = zilpanud::image_len(1);
    for k in 0..=len + 1 {
        let mut image = vec![7; len];
        let (mut at, mut left) = (ODD, k as u64);
        cut::format(&mut image, 1, &mut at, &mut left).unwrap();
        let expected: Vec<u64> = (0..len)
            .map(|i| match i {
                0 if k == len + 1 => 1,
                1 if k > 1 => 1,
                i if i < k => 0,
                _ => 7,
            })
            .collect();
        assert_eq!((image, at, left), (expected, Cursors::IDLE, 0), "cut after {k}");
    }
}

/// A recovery cut after each of its stores, after each turn: a second one leaves the ticket as the first would have.
#[test]
fn in_the_recovery() {
    for cut in 0..=19 {
        for k in 0..=4 {
            let mut world = World::after_turns(cut);
            world.left = k;
            world.recover().unwrap();
            world.left = ENOUGH;
            assert_eq!(carried_on(&mut world), turns_left(cut));
            assert_eq!(world.image[CELL_24], if cut >= 5 { 5 } else { 0 });
        }
    }
}
