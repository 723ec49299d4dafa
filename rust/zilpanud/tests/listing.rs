//! Document 01's listing: the ticket's first five turns and a recovery, store by store.

mod common;

use common::{World, CELL_24, FINISHED, LOCK_3, ODD, ONLY_3};
use zilpanud::{cut, End, Run, Standing, Tally, Turn};

/// The listing's lines, as they stand in document 01: five of turns, three of the recovery.
const LISTING: &str = "\
024e 0000000000000008
020b 0000000000000001
024c 000000000000024f
024d 0000000000000008
0249 8000000000000001
020b 0000000000000000
024e 0000000000000008
020b 0000000000000001
";

fn lines() -> Vec<(usize, u64)> {
    let hex = |digits| u64::from_str_radix(digits, 16).unwrap();
    LISTING
        .lines()
        .map(|line| line.split_once(' ').unwrap())
        .map(|(index, value)| (hex(index) as usize, hex(value)))
        .collect()
}

#[test]
fn turns_store_what_the_listing_says() {
    let mut world = World::after_turns(0);
    for (index, value) in &lines()[..5] {
        let before = world.image.clone();
        assert_eq!(world.turn(0).unwrap(), Turn::Stored(*index));
        let mut expected = before;
        expected[*index] = *value;
        assert_eq!(world.image, expected);
    }
}

/// The recovery's stores, found by cutting it after each of them.
#[test]
fn recovery_stores_what_the_listing_says() {
    let start = World::after_turns(5).image;
    let stores = &lines()[5..];
    for k in 0..=stores.len() {
        let mut expected = start.clone();
        for (index, value) in &stores[..k] {
            expected[*index] = *value;
        }
        let (mut image, mut at, mut left) = (start.clone(), ODD, k as u64);
        cut::recover(&mut image, &mut at, &mut left).unwrap();
        assert_eq!((image, left), (expected, 0));
    }
}

#[test]
fn recovery_makes_no_further_store() {
    let mut world = World::after_turns(5);
    world.left = 10;
    world.recover().unwrap();
    assert_eq!(world.left, 7);
    assert_eq!((world.at.step[0], world.at.turn[0], world.at.held), (0, 5, ONLY_3));
}

#[test]
fn uncut_it_takes_19_turns() {
    let mut world = World::after_turns(0);
    let tally = Tally { turns: 19, waits: 0, stores: 19, already_free: 0, others: 0 };
    assert_eq!(world.run(19), Ok(Run { end: End::AllIdle, tally }));
    assert_eq!(world.image[CELL_24], 5);
    assert_eq!(world.image[LOCK_3], 0);
    assert_eq!(world.turn(0), Ok(Turn::Idle));
}

#[test]
fn a_run_of_18_rounds_is_spent() {
    let mut world = World::after_turns(0);
    let run = world.run(18).unwrap();
    assert_eq!((run.end, run.tally.turns), (End::Spent, 18));
    assert_eq!(world.run(0), Ok(Run { end: End::Spent, tally: Tally::default() }));
    assert_eq!(world.run(1).unwrap().end, End::AllIdle);
}

/// Two workers at one lock: the second waits, and a waiting turn counts as a turn and as a wait.
#[test]
fn a_second_worker_waits() {
    let mut world = World::formatted(2);
    world.submit(0, 1, &common::TICKET).unwrap();
    world.submit(1, 1, &common::TICKET).unwrap();
    for _ in 0..2 {
        world.turn(0).unwrap();
    }
    assert!(matches!(world.turn(1), Ok(Turn::Stored(_))));
    assert_eq!(world.turn(1), Ok(Turn::Waiting(3)));
    let run = world.run(768);
    // 17 and 18 turns are left, and worker 1 waits in every round up to the one in which worker 0, whose turns come
    // first, makes its 15th turn and frees the lock: rounds 1 to 12.
    let tally = Tally { turns: 17 + 18 + 12, waits: 12, stores: 17 + 18, already_free: 0, others: 0 };
    assert_eq!(run, Ok(Run { end: End::AllIdle, tally }));
}

#[test]
fn questions_follow_the_section() {
    let mut world = World::formatted(1);
    let standing = |w: &World, number| zilpanud::standing(&w.image, 0, number).unwrap();
    let idle = |w: &World| zilpanud::is_idle(&w.image, &w.at, 0).unwrap();
    assert_eq!((standing(&world, 9), idle(&world)), (Standing::NotBegun, true));
    // a worker that finished no section has 0 as its last finished number
    assert_eq!(standing(&world, 0), Standing::Finished);
    world.submit(0, 9, &common::TICKET).unwrap();
    // the pc is stored in the fifth turn, the finished number in the 17th, and the pc is 0 again after the 18th
    let turns = [(5, Standing::NotBegun), (12, Standing::Begun), (2, Standing::Finished)];
    for (count, expected) in turns {
        for _ in 0..count {
            assert_eq!((standing(&world, 9), idle(&world)), (expected, false));
            world.turn(0).unwrap();
        }
    }
    assert_eq!((standing(&world, 9), idle(&world)), (Standing::Finished, true));
    assert_eq!(zilpanud::finished(&world.image, 0), Ok(9));
    assert_eq!(world.image[FINISHED], 9);
}

#[test]
fn a_begun_section_is_that_of_its_own_number() {
    let mut world = World::formatted(1);
    world.image[FINISHED] = 7;
    world.submit(0, 9, &common::TICKET).unwrap();
    for _ in 0..5 {
        world.turn(0).unwrap();
    }
    let asked = [7, 8, 9, 10, u64::MAX].map(|number| zilpanud::standing(&world.image, 0, number).unwrap());
    let no = Standing::NotBegun;
    assert_eq!(asked, [Standing::Finished, no, Standing::Begun, no, no]);
}
