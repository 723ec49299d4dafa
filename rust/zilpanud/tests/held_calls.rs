//! Which locks are held after submits, refused calls, formatting and recovery, and on images that something else changed:
//! document 02's 2/14. Which turns set and clear a bit is in held.rs.

mod common;

use common::held::*;
use common::*;
use zilpanud::code::{acquire, finish, jump_if_zero, release, set};
use zilpanud::cut::{self, ENOUGH};
use zilpanud::{owner_index, Cause, Cursors, End, Passing, Refusal, Run, Turn};

// ---- submits, and calls that are refused

/// Document 01's table: refused with 1 to 9, a hand-in leaves "image, places"; with 10 too. One that is taken sets the
/// desk's place, and takes no bay.
#[test]
fn a_submit_leaves_it() {
    let no = |cause| Err(Refusal(cause));
    let mut world = World::formatted(2);
    kept(&mut world, |world| assert_eq!(world.submit(2, 1, &TICKET), no(Cause::Worker)));
    kept(&mut world, |world| assert_eq!(world.submit(0, 0, &TICKET), no(Cause::Number)));
    kept(&mut world, |world| assert_eq!(world.submit(0, 1, &TICKET[..2]), no(Cause::Length)));
    let cases = [
        (vec![acquire(64), release(3), finish()], Cause::Malformed { step: 0 }),
        (vec![acquire(3), release(3), set(512, 5), finish()], Cause::Unbracketed { step: 2 }),
        (vec![acquire(3), acquire(3), release(3), finish()], Cause::Unordered { step: 1 }),
        (vec![acquire(3), set(32, 5), release(3), finish()], Cause::Unguarded { step: 1 }),
        (vec![acquire(3), jump_if_zero(24, 3), release(3), finish()], Cause::Unlevel { step: 1 }),
    ];
    for (section, cause) in cases {
        kept(&mut world, |world| assert_eq!(world.submit(0, 1, &section), no(cause)));
    }
    for given in MASKS {
        let mut world = World::formatted(2);
        world.at.held = given;
        assert_eq!((world.submit(0, 1, &TICKET), world.at.held), (Ok(()), given));
        assert_eq!((world.submit(0, 2, &TICKET), world.at.held), (no(Cause::Busy), given));
    }
    world.image[0] = 2;
    kept(&mut world, |world| assert_eq!(world.submit(0, 1, &TICKET), no(Cause::Image)));
}

/// The table: a turn refused with 1, 10 or 11 leaves "image, places", and so does a run refused with 10, or with 11
/// before it made a turn.
#[test]
fn a_refused_turn_leaves_it() {
    let no = |cause| Err(Refusal(cause));
    let mut world = World::after_turns(ACQUIRES - 1);
    kept(&mut world, |world| assert_eq!(world.turn(1), no(Cause::Worker)));
    // on the turn behind the last of an acquire
    world.at.turn[0] = 6;
    kept(&mut world, |world| assert_eq!(world.turn(0), no(Cause::Cursor { worker: 0 })));
    kept(&mut world, |world| {
        let no = world.run(9).unwrap_err();
        assert_eq!((no.refusal, no.tally.turns), (Refusal(Cause::Cursor { worker: 0 }), 0));
    });
    // on the one that would store the owner word, in words that are no image
    world.at.turn[0] = 1;
    world.image[7] = 1;
    kept(&mut world, |world| assert_eq!(world.turn(0), no(Cause::Image)));
    kept(&mut world, |world| assert_eq!(world.run(9).unwrap_err().refusal, Refusal(Cause::Image)));
}

/// The table: "a run keeps earlier turns", here two of the round in which one is refused. Worker 0 frees lock 3, worker
/// 1 acquires lock 9, worker 2's cursor is on no turn, and worker 3, which would acquire lock 11, gets no turn.
#[test]
fn a_run_refused_in_a_round_keeps_what_its_turns_made() {
    for (given, expected) in [(ONLY_3, 1 << 9), (u64::MAX, !ONLY_3), (mask(&[11, 63]), mask(&[9, 11, 63]))] {
        let mut world = World::formatted(4);
        world.submit(0, 1, &TICKET).unwrap();
        stores(&mut world, 0, FREES - 1);
        for (worker, lock) in [(1, 9), (3, 11)] {
            world.submit(worker, 1, &[acquire(lock), release(lock), finish()]).unwrap();
            stores(&mut world, worker, 1);
        }
        assert_eq!(world.at.held, ONLY_3);
        (world.at.turn[2], world.at.held) = (0, given);
        let no = world.run(9).unwrap_err();
        assert_eq!((no.refusal, no.tally.turns), (Refusal(Cause::Cursor { worker: 2 }), 2));
        assert_eq!(world.at.held, expected);
    }
}

// ---- formatting and recovery

/// "a refused recovery or formatting returns it as 0", and a finished formatting leaves every lock free. A formatting
/// that is cut gives its record as uncut.
#[test]
fn a_formatting_gives_no_lock() {
    for (len, workers) in [(666, 1), (1240, 8), (665, 1), (666, 0), (666, 2), (0, 1)] {
        for (given, left) in MASKS.into_iter().flat_map(|given| [(given, 0), (given, 9), (given, ENOUGH)]) {
            let (mut image, mut at) = (vec![1; len], Cursors { held: given, ..ODD });
            let formatted = cut::format(&mut image, workers, &mut at, &mut { left });
            assert_eq!(formatted.is_ok(), matches!((len, workers), (666, 1) | (1240, 8)));
            assert_eq!(at, Cursors::IDLE);
        }
    }
    let mut image = vec![7; 666];
    assert_eq!(zilpanud::format(&mut image, 1).unwrap().locks_held(), 0);
}

/// The same of a recovery, with lock 3 taken in the image: by causes 10, 12 and 13.
#[test]
fn a_refused_recovery_gives_no_lock() {
    let damages = [
        (0, 2, Cause::Image),
        (NUMBER, 0, Cause::Record { worker: 0 }),
        (LOCK_3 + 1, 1, Cause::Lock { lock: 4 }),
    ];
    for (index, word, cause) in damages {
        for given in MASKS {
            let mut world = World::after_turns(6);
            assert_eq!(world.image[LOCK_3], 1);
            world.image[index] = word;
            world.at.held = given;
            assert_eq!((world.recover(), world.at.held), (Err(Refusal(cause)), 0));
        }
    }
}

/// "recovery included, which builds it afresh": by the owed set. "empty if place is 0", so up to the 4th turn and from
/// the 18th on; "the held set after the step if place names a take", which the 5th to 8th turn leave; "else the
/// ownership mask", which has bit 3 when the assignment (9 to 12) and the release (13) are named, and not when the 14th
/// turn has stored it without.
#[test]
fn a_recovery_builds_it_from_the_image_alone() {
    for turns in 0..=TURNS {
        let owed = if (5..=13).contains(&turns) { ONLY_3 } else { 0 };
        for given in MASKS {
            let mut world = World::after_turns(turns);
            world.at = Cursors { held: given, ..ODD };
            world.recover().unwrap();
            assert_eq!(world.at.held, owed, "after {turns} turns, given {given:#x}");
            as_owned(&world);
            // and again, with no turn in between
            world.recover().unwrap();
            assert_eq!(world.at.held, owed);
        }
        let mut image = World::after_turns(turns).image;
        assert_eq!(zilpanud::recover(&mut image).unwrap().held, owed);
    }
}

/// A recovery that is cut gives its record as uncut, though the owner word is not stored yet, and the next one does.
#[test]
fn a_cut_recovery_gives_it_as_uncut() {
    for left in 0..=3 {
        let mut world = World::after_turns(5);
        world.left = left;
        world.recover().unwrap();
        assert_eq!((world.at.held, world.left), (ONLY_3, 0));
        // the three stores of document 01's listing: lock 3 := 0, the intent, lock 3 := 1
        assert_eq!(world.image[LOCK_3], if left == 0 || left == 3 { 1 } else { 0 });
        (world.at.held, world.left) = (0, ENOUGH);
        world.recover().unwrap();
        assert_eq!(world.at.held, ONLY_3);
        as_owned(&world);
    }
}

/// "Re-taking only ownership .. a take logged but not yet owned resumes without its bay" is document 01's reading that
/// breaks the board. A section of two locks: its second acquire's turns are 7, the intent; 8, the owner word; 9 and 10,
/// the log entry; 11, the pc; 12, the ownership mask. Up to the 10th the pc names the first acquire: lock 5 is freed if
/// it was taken. From the 11th on it names the second, and both are owed, though after the 11th only 3 is owned.
#[test]
fn a_cut_acquire_is_owed_before_it_is_owned() {
    for (turns, owner_of_5, owned, owed) in [
        (7, 0, mask(&[3]), mask(&[3])),
        (8, 1, mask(&[3]), mask(&[3])),
        (10, 1, mask(&[3]), mask(&[3])),
        (11, 1, mask(&[3]), mask(&[3, 5])),
        (12, 1, mask(&[3, 5]), mask(&[3, 5])),
    ] {
        let mut world = World::formatted(1);
        world.submit(0, 1, &[acquire(3), acquire(5), release(5), release(3), finish()]).unwrap();
        stores(&mut world, 0, turns);
        assert_eq!((world.image[owner_index(5)], world.image[OWNED]), (owner_of_5, owned));
        world.at = ODD;
        world.recover().unwrap();
        assert_eq!((world.at.held, world.at.locks_held()), (owed, owed.count_ones() as usize));
        as_owned(&world);
        // on to the ownership mask of the acquire that is named
        stores(&mut world, 0, 1);
        assert_eq!((world.at.held, world.image[OWNED]), (owed, owed));
        assert_eq!(world.run(384).unwrap().end, End::AllIdle);
        assert_eq!(world.at.held, 0);
    }
}

/// The union of the owed sets: worker 0's acquire of lock 3 is begun, with its fifth store; worker 1's of lock 9 is
/// after its fifth too, and is withdrawn after its fourth, though the owner word names it.
#[test]
fn a_recovery_joins_what_the_workers_are_owed() {
    for (turns, owed) in [(2, mask(&[3])), (4, mask(&[3])), (5, mask(&[3, 9])), (6, mask(&[3, 9]))] {
        let mut world = World::formatted(2);
        world.submit(0, 1, &TICKET).unwrap();
        world.submit(1, 1, &[acquire(9), release(9), finish()]).unwrap();
        stores(&mut world, 0, 5);
        stores(&mut world, 1, turns);
        assert_eq!((world.at.held, world.image[owner_index(9)]), (mask(&[3, 9]), 2));
        world.recover().unwrap();
        assert_eq!(world.at.held, owed);
        as_owned(&world);
    }
}

/// A list with a recovery after each turn, and none of them cut: document 02's sentence holds after each call.
#[test]
fn recovered_after_each_turn() {
    let mut world = World::after_turns(5);
    for _ in 0..100 {
        world.recover().unwrap();
        as_owned(&world);
        for _ in 0..6 {
            world.turn(0).unwrap();
            as_owned(&world);
        }
        if world.turn(0) == Ok(Turn::Idle) {
            assert_eq!((world.at.held, world.image[CELL_24]), (0, 5));
            return;
        }
    }
    panic!("it does not come to an end");
}

// ---- images that something else changed: the mask goes by the turns, and not by the image

/// An owner word that is changed by hand is not in the mask, and the mask is not changed by it.
#[test]
fn a_changed_owner_word_is_not_seen() {
    let mut world = World::after_turns(ACQUIRES);
    world.image[owner_index(9)] = 5;
    world.image[LOCK_3] = 0;
    stores(&mut world, 0, FREES - ACQUIRES - 1);
    assert_eq!(world.at.held, ONLY_3);
    // the release finds its lock free and clears nothing: the bit stays to the end
    assert_eq!(world.turn(0), Ok(Turn::Passed(Passing::AlreadyFree)));
    assert!(matches!(world.run(9), Ok(Run { end: End::AllIdle, .. })));
    assert_eq!((world.at.held, world.image[owner_index(9)]), (ONLY_3, 5));
    // a recovery goes by the image: none is owed
    world.image[owner_index(9)] = 0;
    world.recover().unwrap();
    assert_eq!(world.at.held, 0);
}

/// A lock that is taken by hand makes the acquire wait, and one that is freed by hand is acquired twice: the bit is set
/// again, and cleared by the release that stores.
#[test]
fn a_lock_that_is_freed_by_hand_is_acquired_twice() {
    let mut world = World::formatted(2);
    world.submit(0, 1, &TICKET).unwrap();
    world.submit(1, 1, &TICKET).unwrap();
    stores(&mut world, 0, 1);
    stores(&mut world, 1, 1);
    world.image[LOCK_3] = 7;
    assert_eq!((world.turn(0), world.at.held), (Ok(Turn::Waiting(3)), 0));
    world.image[LOCK_3] = 0;
    assert_eq!((world.turn(0), world.at.held), (Ok(Turn::Stored(LOCK_3)), ONLY_3));
    world.image[LOCK_3] = 0;
    assert_eq!((world.turn(1), world.at.held), (Ok(Turn::Stored(LOCK_3)), ONLY_3));
    // worker 0's release finds the lock worker 1's; that of worker 1 frees it
    stores(&mut world, 0, FREES - ACQUIRES - 1);
    assert_eq!((world.turn(0), world.at.held), (Ok(Turn::Passed(Passing::Others)), ONLY_3));
    stores(&mut world, 1, FREES - ACQUIRES - 1);
    assert_eq!((world.turn(1), world.at.held), (Ok(Turn::Stored(LOCK_3)), 0));
}

/// A release whose owner word was put there by hand stores 0, and clears a bit that no acquire has set.
#[test]
fn a_lock_that_is_taken_by_hand_is_freed() {
    for given in MASKS {
        let mut world = freed_and_recovered();
        stores(&mut world, 0, 1);
        world.image[LOCK_3] = 1;
        world.at.held = given;
        assert_eq!(world.turn(0), Ok(Turn::Stored(LOCK_3)));
        assert_eq!((world.at.held, world.image[LOCK_3]), (given & !ONLY_3, 0));
    }
}
