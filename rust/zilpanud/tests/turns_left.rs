//! How many turns a resumed section takes: document 02's 4/14, "3 if place names a drop, else 1, plus that sum over the
//! steps it goes through after the one named", before and after a recovery.
//!
//! Every expectation is worked out by hand. A section's pc names a step from the turn that stores it there on: the
//! fifth of an acquire, the third of a release and of kinds 3 to 6. It names it until the next such turn, or until the
//! second turn of the finish, which stores 0. A jump is not named.

mod common;

use common::*;
use zilpanud::code::*;
use zilpanud::cut::ENOUGH;
use zilpanud::{Cause, End, Needs, Refusal, Turn};

unsafe extern "C" {
    /// As `include/zilpanud.h` declares it.
    fn zilpanud_turns_left(
        image: *const u64,
        image_words: usize,
        worker: usize,
        fewest: *mut u64,
        most: *mut u64,
    ) -> u64;
}

/// The call itself: its answer, the fewest and the most. The image stays as it is.
fn called(image: &[u64], worker: usize, fill: u64) -> (u64, u64, u64) {
    let (mut fewest, mut most) = (fill, !fill);
    let before = image.to_vec();
    // SAFETY: every pointer comes from a live reference, and the length is its slice's.
    let answer = unsafe { zilpanud_turns_left(image.as_ptr(), image.len(), worker, &mut fewest, &mut most) };
    assert!(image == before, "a word of the image was changed");
    (answer, fewest, most)
}

fn left(world: &World, worker: usize, fewest: u64, most: u64) {
    assert_eq!(zilpanud::turns_left(&world.image, worker), Ok(Needs { fewest, most }));
    for fill in [0, 1, u64::MAX] {
        assert_eq!(called(&world.image, worker, fill), (0, fewest, most));
    }
}

fn refused(image: &[u64], worker: usize, cause: Cause) {
    assert_eq!(zilpanud::turns_left(image, worker), Err(Refusal(cause)));
    for fill in [0, 1, u64::MAX] {
        assert_eq!(called(image, worker, fill), (cause.number(), 0, 0));
    }
}

/// A worker's turns up to idle, none of which waits.
fn to_idle(world: &mut World, worker: usize) -> u64 {
    let mut turns = 0;
    loop {
        match world.turn(worker) {
            Ok(Turn::Idle) => return turns,
            Ok(Turn::Stored(_) | Turn::Passed(_)) => turns += 1,
            other => panic!("{other:?}"),
        }
    }
}

/// Document 01's rows "cut after turn 4: withdrawn", "after 5: 14 more turns", "after 15: 6 more turns", and those in
/// between: the acquire is named after turns 5 to 8, the assignment after 9 to 12, the release after 13 to 17.
fn of_ticket(turns: usize) -> u64 {
    match turns {
        5..=8 => 1 + 4 + 6 + 3,
        9..=12 => 1 + 6 + 3,
        13..=17 => 3 + 3,
        _ => 0,
    }
}

#[test]
fn the_ticket_after_each_turn() {
    assert_eq!((of_ticket(4), of_ticket(5), of_ticket(15)), (0, 14, 6));
    for turns in 0..=19 {
        let mut world = World::after_turns(turns);
        let expected = of_ticket(turns);
        left(&world, 0, expected, expected);
        world.recover().unwrap();
        left(&world, 0, expected, expected);
        assert_eq!(to_idle(&mut world, 0), expected, "cut after {turns}");
        left(&world, 0, 0, 0);
    }
}

/// A recovery that is itself cut, after each of its stores, leaves as much to be done.
#[test]
fn the_same_in_the_midst_of_a_recovery() {
    for turns in 0..=19 {
        for stores in 0..=4 {
            let mut world = World::after_turns(turns);
            world.left = stores;
            world.recover().unwrap();
            left(&world, 0, of_ticket(turns), of_ticket(turns));
            world.left = ENOUGH;
            world.recover().unwrap();
            assert_eq!(to_idle(&mut world, 0), of_ticket(turns));
        }
    }
}

/// Resumed at the acquire's last turn: the fourth turn from there names the assignment. Until then a second recovery
/// resumes it at the same place, and only the turns after the last one count.
#[test]
fn after_a_second_recovery() {
    for (more, expected) in [(0, 14), (1, 14), (3, 14), (4, 10), (7, 10), (8, 6), (12, 6), (13, 0)] {
        let mut world = World::after_turns(5);
        world.recover().unwrap();
        held::stores(&mut world, 0, more);
        left(&world, 0, expected, expected);
        world.recover().unwrap();
        left(&world, 0, expected, expected);
        assert_eq!(to_idle(&mut world, 0), expected, "after {more}");
    }
}

/// The jump goes past the assignment if own word 0 is 0: turn 7.
const EITHER: [u64; 5] = [acquire(3), jump_if_zero(own(0), 3), set(24, 5), release(3), finish()];

/// From step 1 on it is 10 or 14. The third turn behind the jump names the next step: the assignment, behind which 9
/// turns are left, or the release, behind which 3 are. Turns 5 to 9 leave the acquire named, with the jump made or not.
#[test]
fn both_ways_of_a_jump() {
    for (word, total, named) in [(1, 15, 1 + 9), (0, 11, 3 + 3)] {
        for turns in 5..=10 {
            let mut world = World::formatted(1);
            world.submit_with(0, 1, &[word; 8], &EITHER).unwrap();
            (0..turns).for_each(|_| assert!(world.turn(0).is_ok()));
            let (fewest, most) = if turns < 10 { (1 + 10, 1 + 14) } else { (named, named) };
            left(&world, 0, fewest, most);
            world.recover().unwrap();
            left(&world, 0, fewest, most);
            assert_eq!(to_idle(&mut world, 0), if turns < 10 { total } else { named }, "cut after {turns}");
        }
    }
}

/// Each kind of step that a pc can name, of a section of every kind: step 0 by its turn 5, the others by their third.
/// Behind them are 26, 22, 18, 14, 10 and 3 turns; the jump goes to the next step either way.
#[test]
fn each_kind_named() {
    let section = [
        acquire(3),
        set(24, 5),
        add(25, 24, own(0)),
        sub(26, 24, own(1)),
        less(27, 24, 25),
        jump_if_zero(24, 6),
        release(3),
        finish(),
    ];
    let named = [(5, 1 + 26), (9, 1 + 22), (13, 1 + 18), (17, 1 + 14), (21, 1 + 10), (26, 3 + 3)];
    for (turns, expected) in named {
        let mut world = World::formatted(1);
        world.submit(0, 1, &section).unwrap();
        (0..turns).for_each(|_| assert!(world.turn(0).is_ok()));
        left(&world, 0, expected, expected);
        world.recover().unwrap();
        assert_eq!(to_idle(&mut world, 0), expected, "cut after {turns}");
    }
}

/// A release in the middle: 3, and what comes behind it.
#[test]
fn a_release_before_others() {
    let section = [acquire(2), acquire(7), release(2), set(56, 1), release(7), finish()];
    let mut world = World::formatted(1);
    world.submit(0, 1, &section).unwrap();
    held::stores(&mut world, 0, 6 + 6 + 3);
    left(&world, 0, 3 + 4 + 6 + 3, 3 + 4 + 6 + 3);
    world.recover().unwrap();
    assert_eq!(to_idle(&mut world, 0), 16);
}

/// Worker 1 has lock 2 and waits for lock 3, which worker 0 has. Worker 0, at 14 turns left, frees it with the tenth.
/// Worker 1 makes its own last store and notes its intent in rounds 1 and 2, waits in rounds 3 to 9, and has the lock
/// in round 10, since worker 0's turn comes first.
#[test]
fn waits_come_on_top() {
    let waiting = [acquire(2), acquire(3), release(3), release(2), finish()];
    let mut world = World::formatted(2);
    world.submit(0, 1, &TICKET).unwrap();
    world.submit(1, 1, &waiting).unwrap();
    held::stores(&mut world, 0, 5);
    held::stores(&mut world, 1, 7);
    assert_eq!(world.turn(1), Ok(Turn::Waiting(3)));
    for _ in 0..2 {
        left(&world, 0, 14, 14);
        left(&world, 1, 1 + 6 + 6 + 6 + 3, 22);
        world.recover().unwrap();
    }
    let run = world.run(768).unwrap();
    assert_eq!((run.end, run.tally.turns, run.tally.waits), (End::AllIdle, 14 + 22 + 7, 7));
}

/// Nothing is left of a section that is not begun, since a recovery withdraws it; nor where there is none.
#[test]
fn nothing_begun() {
    let mut world = World::formatted(3);
    world.submit(1, 1, &TICKET).unwrap();
    world.submit(2, 1, &TICKET).unwrap();
    held::stores(&mut world, 2, 4);
    (0..3).for_each(|worker| left(&world, worker, 0, 0));
    world.recover().unwrap();
    (0..3).for_each(|worker| left(&world, worker, 0, 0));
}

/// What a recovery refuses of others, with 12 or 13, is not asked; the worker's own record is.
#[test]
fn other_records_and_locks_are_not_asked() {
    let mut world = World::formatted(2);
    world.submit(0, 1, &TICKET).unwrap();
    held::stores(&mut world, 0, 5);
    let image = world.image.clone();
    let (of_worker_1, lock_9) = (COUNT + 82, LOCK_3 + 6);
    for (index, word, cause) in [
        (of_worker_1, 65, Cause::Record { worker: 1 }),
        (of_worker_1 + 1, 1, Cause::Record { worker: 1 }),
        (lock_9, 1, Cause::Lock { lock: 9 }),
        (LOCK_3, 2, Cause::Lock { lock: 3 }),
    ] {
        world.image.copy_from_slice(&image);
        world.image[index] = word;
        left(&world, 0, 14, 14);
        assert_eq!(zilpanud::recover(&mut world.image.clone()), Err(Refusal(cause)));
        match cause {
            Cause::Record { .. } => refused(&world.image, 1, cause),
            _ => left(&world, 1, 0, 0),
        }
    }
}

/// Records that are not sound, each by one word: the acquire is named, and its lock owned.
#[test]
fn refused_with_12() {
    let changes = [
        (COUNT, 0),
        (COUNT, 3),
        (COUNT, 65),
        (PC, 2 + (1 << 63)),
        (PC, 4 + (1 << 63)),
        (PC, 5 + (1 << 63)),
        (PC, 1 << 63),
        (PC, 1 + (1 << 63) + (1 << 62)),
        (PC, 1 + (1 << 63) + (1 << 32)),
        (PC, 1 + (1 << 63) + (1 << 8)),
        (PC, 0),
        (VALUE_1, 9),
        (INTENT, 0),
        (OWNED, 16),
        (NUMBER, 0),
        (FINISHED, 2),
        (STEPS + 1, set(32, 5)),
    ];
    for (index, word) in changes {
        let mut world = World::after_turns(6);
        left(&world, 0, 14, 14);
        world.image[index] = word;
        refused(&world.image, 0, Cause::Record { worker: 0 });
        assert_eq!(world.recover(), Err(Refusal(Cause::Record { worker: 0 })));
    }
}

/// 10, then 1, then 12: each with what the next would refuse.
#[test]
fn refused_in_this_order() {
    let mut world = World::formatted(2);
    world.image[PC] = 1;
    world.image[PC + 82] = 1;
    refused(&world.image, 1, Cause::Record { worker: 1 });
    for worker in [2, 7, 8, 256, 1 << 32, usize::MAX] {
        refused(&world.image, worker, Cause::Worker);
        refused(&[], worker, Cause::Image);
    }
    for word in 0..8 {
        let mut image = world.image.clone();
        image[word] ^= 1 << (7 * word);
        refused(&image, 0, Cause::Image);
        refused(&image, 2, Cause::Image);
    }
    let longer: Vec<u64> = world.image.iter().copied().chain([0]).collect();
    for image in [&longer[..], &longer[..longer.len() - 2], &longer[..8], &longer[..1]] {
        refused(image, 0, Cause::Image);
    }
}

/// A board that is opened again says what is left.
#[test]
fn on_a_board() {
    let folder = Folder::new("turns-left");
    let path = folder.path("board");
    let mut board = boards::create(&path, 2).unwrap();
    board.submit_next(1, &[0; 8], &TICKET).unwrap();
    assert_eq!(board.turns_left(1), Ok(Needs { fewest: 0, most: 0 }));
    board.run(5).unwrap();
    drop(board);
    let mut board = boards::open(&path).unwrap();
    assert_eq!(board.turns_left(0), Ok(Needs { fewest: 0, most: 0 }));
    assert_eq!(board.turns_left(1), Ok(Needs { fewest: 14, most: 14 }));
    assert_eq!(board.turns_left(2), Err(Refusal(Cause::Worker)));
    assert_eq!(board.run_to_idle().unwrap().tally.turns, 14);
    assert_eq!(board.turns_left(1), Ok(Needs { fewest: 0, most: 0 }));
}
