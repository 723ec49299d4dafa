//! What a release (document 01's drop) finds in its lock's owner word, and what is told of it.
//!
//! The ticket's turns 1 to 6 are the acquire's, 7 to 10 the assignment's. The release's are 11 to 13, which log it and
//! name it in the pc; 14, the ownership mask; 15, the lock's owner word; 16, the intent. 17 to 19 are the finish's.

mod common;

use common::{World, CELL_24, COUNT, FINISHED, INTENT, LOCK_3, OWNED, PC, TICKET};
use zilpanud::code::{acquire, finish, jump_if_zero, own, release, set};
use zilpanud::{End, Passing, Run, Tally, Turn};

/// The turn that frees the lock.
const FREES: usize = 15;

/// The index of a word of worker 1's record, which is the 82 words behind that of worker 0.
const fn of_worker_1(of_worker_0: usize) -> usize {
    of_worker_0 + 82
}

/// Two workers: worker 0 has freed lock 3, was cut there and is recovered.
fn two_workers_recovered() -> World {
    let mut world = World::formatted(2);
    world.submit(0, 1, &TICKET).unwrap();
    for _ in 0..FREES {
        assert!(matches!(world.turn(0), Ok(Turn::Stored(_))));
    }
    world.recover().unwrap();
    world
}

/// Worker 1 is given the ticket and makes its first two turns: the intent, and the lock's owner word.
fn worker_1_acquires(world: &mut World) {
    world.submit(1, 1, &TICKET).unwrap();
    assert_eq!(world.turn(1), Ok(Turn::Stored(of_worker_1(INTENT))));
    assert_eq!(world.turn(1), Ok(Turn::Stored(LOCK_3)));
    assert_eq!(world.image[LOCK_3], 2);
}

/// A turn of worker 0 that passes, and leaves every word and the locks held as they were.
fn passes(world: &mut World, why: Passing) {
    let (image, held, left) = (world.image.clone(), world.at.held, world.left);
    assert_eq!(world.turn(0), Ok(Turn::Passed(why)));
    assert_eq!((&world.image, world.at.held, world.left), (&image, held, left));
}

#[test]
fn a_lock_that_is_freed_is_stored() {
    let mut world = World::after_turns(FREES - 1);
    assert_eq!(world.image[LOCK_3], 1);
    assert_eq!(world.turn(0), Ok(Turn::Stored(LOCK_3)));
    assert_eq!(world.image[LOCK_3], 0);
}

/// Document 01's row "after 15: 6 more turns, the second passes".
#[test]
fn resumed_it_finds_its_lock_already_free() {
    let mut world = World::after_turns(FREES);
    world.recover().unwrap();
    assert_eq!(world.turn(0), Ok(Turn::Stored(OWNED)));
    passes(&mut world, Passing::AlreadyFree);
    for index in [INTENT, FINISHED, PC, COUNT] {
        assert_eq!(world.turn(0), Ok(Turn::Stored(index)));
    }
    assert_eq!(world.turn(0), Ok(Turn::Idle));
    assert_eq!((world.image[LOCK_3], world.image[CELL_24]), (0, 5));
}

#[test]
fn a_run_counts_already_free() {
    let mut world = World::after_turns(FREES);
    world.recover().unwrap();
    let tally = Tally { turns: 6, waits: 0, stores: 5, already_free: 1, others: 0 };
    assert_eq!(world.run(6), Ok(Run { end: End::AllIdle, tally }));
}

/// The release is named by the pc from turn 13 on, up to the finish's second turn. Up to turn 13 it owns its lock, so
/// the recovery gives it back, and it is freed as uncut; from turn 14 on it is owed nothing.
#[test]
fn after_each_turn_that_leaves_the_release_named() {
    for cut in 13..=17 {
        let mut world = World::after_turns(cut);
        world.recover().unwrap();
        assert_eq!(world.turn(0), Ok(Turn::Stored(OWNED)));
        let second = if cut == 13 { Turn::Stored(LOCK_3) } else { Turn::Passed(Passing::AlreadyFree) };
        assert_eq!(world.turn(0), Ok(second), "cut after {cut}");
    }
}

/// A release that passed is cut again: the next recovery resumes it at the same turn, and the report comes once more.
#[test]
fn a_second_cut_tells_it_again() {
    let mut world = World::after_turns(FREES);
    for _ in 0..3 {
        world.recover().unwrap();
        assert_eq!(world.turn(0), Ok(Turn::Stored(OWNED)));
        passes(&mut world, Passing::AlreadyFree);
    }
}

#[test]
fn resumed_it_finds_its_lock_anothers() {
    let mut world = two_workers_recovered();
    worker_1_acquires(&mut world);
    assert_eq!(world.turn(0), Ok(Turn::Stored(OWNED)));
    passes(&mut world, Passing::Others);
    assert_eq!(world.turn(0), Ok(Turn::Stored(INTENT)));
    // worker 1 still has the lock, and carries its section out as if it were alone
    assert_eq!(world.image[LOCK_3], 2);
    for _ in 2..19 {
        assert!(matches!(world.turn(1), Ok(Turn::Stored(_))));
    }
    assert_eq!((world.turn(1), world.image[LOCK_3]), (Ok(Turn::Idle), 0));
}

/// Worker 1 takes the lock between the two turns of worker 0.
#[test]
fn the_owner_word_is_read_in_the_turn_that_tells_it() {
    let mut world = two_workers_recovered();
    assert_eq!(world.turn(0), Ok(Turn::Stored(OWNED)));
    worker_1_acquires(&mut world);
    passes(&mut world, Passing::Others);
}

/// Six turns of worker 0 are left, one of which passes, and 17 of worker 1's 19.
#[test]
fn a_run_counts_anothers() {
    let mut world = two_workers_recovered();
    worker_1_acquires(&mut world);
    let tally = Tally { turns: 6 + 17, waits: 0, stores: 5 + 17, already_free: 0, others: 1 };
    assert_eq!(world.run(17), Ok(Run { end: End::AllIdle, tally }));
}

/// In a run worker 0's second turn comes before worker 1's, so the lock is still free then.
#[test]
fn a_run_of_both_from_the_start_counts_already_free() {
    let mut world = two_workers_recovered();
    world.submit(1, 1, &TICKET).unwrap();
    let tally = Tally { turns: 6 + 19, waits: 0, stores: 5 + 19, already_free: 1, others: 0 };
    assert_eq!(world.run(19), Ok(Run { end: End::AllIdle, tally }));
}

/// The tally starts at 0 with each run.
#[test]
fn the_next_run_counts_anew() {
    let mut world = World::after_turns(FREES);
    world.recover().unwrap();
    let two = Tally { turns: 2, waits: 0, stores: 1, already_free: 1, others: 0 };
    assert_eq!(world.run(2), Ok(Run { end: End::Spent, tally: two }));
    let four = Tally { turns: 4, waits: 0, stores: 4, already_free: 0, others: 0 };
    assert_eq!(world.run(4), Ok(Run { end: End::AllIdle, tally: four }));
}

/// Any word but 0 and the worker's own is another's, also one that names no worker of the image, or none at all.
#[test]
fn any_other_owner_word_is_anothers() {
    for owner in [2, 8, 9, 1 << 32, 1 + (1 << 32), 1 << 63, u64::MAX] {
        let mut world = World::after_turns(FREES - 1);
        world.image[LOCK_3] = owner;
        passes(&mut world, Passing::Others);
    }
    let mut world = World::after_turns(FREES - 1);
    world.image[LOCK_3] = 0;
    passes(&mut world, Passing::AlreadyFree);
}

/// A turn that is given no store reports as one that is.
#[test]
fn a_report_needs_no_store() {
    let mut world = World::after_turns(FREES);
    world.recover().unwrap();
    world.turn(0).unwrap();
    world.left = 0;
    passes(&mut world, Passing::AlreadyFree);
}

/// Six turns of the acquire, one of the jump, six of the release, three of the finish; and four of the assignment where
/// the jump goes on to it.
#[test]
fn a_jump_passes_with_no_report() {
    let section = [acquire(3), jump_if_zero(own(0), 3), set(24, 5), release(3), finish()];
    for (word, turns) in [(0, 16), (1, 20)] {
        let mut world = World::formatted(1);
        world.submit_with(0, 1, &[word; 8], &section).unwrap();
        for _ in 0..6 {
            assert!(matches!(world.turn(0), Ok(Turn::Stored(_))));
        }
        passes(&mut world, Passing::Jump);
        let rest = turns - 7;
        let tally = Tally { turns: rest, waits: 0, stores: rest, already_free: 0, others: 0 };
        assert_eq!(world.run(13), Ok(Run { end: End::AllIdle, tally }));

        let mut world = World::formatted(1);
        world.submit_with(0, 1, &[word; 8], &section).unwrap();
        let tally = Tally { turns, waits: 0, stores: turns - 1, already_free: 0, others: 0 };
        assert_eq!(world.run(20), Ok(Run { end: End::AllIdle, tally }));
    }
}
