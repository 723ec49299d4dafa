//! Which locks are held, and how many: document 02's 2/14, "Keep a mask beside the working places and take its number
//! of ones."
//!
//! Document 01 says which turns store a lock's owner word; a logged store is four turns. "Take: intention with the bit;
//! the lock word if 0, else the desk waits and stores nothing; ownership with the bit as a logged store": the second of
//! an acquire's six. "Drop: ownership without the bit as a logged store; lock word 0 if it names this desk, else no
//! store; intention without the bit": the fifth of a release's. So of the ticket's 19 turns, 1 to 6 are the acquire's,
//! and the 2nd sets bit 3; 7 to 10 are the assignment's; 11 to 16 are the release's, and the 15th clears the bit; 17 to
//! 19 are the finish's.

mod common;

use common::held::*;
use common::*;
use zilpanud::code::{acquire, finish, jump_if_zero, own, release, set};
use zilpanud::{Cursors, End, Passing, Turn};

// ---- the number of ones

/// Counted by hand: 64 bits, one bit at either end, five bits, 0xbad's eight and two more.
#[test]
fn locks_held_is_the_number_of_ones() {
    let counts =
        [(0, 0), (1, 1), (1 << 63, 1), (0b1011_0011, 5), (0x8000_0100_0000_0bad, 10), (u64::MAX, 64)];
    for (held, count) in counts {
        assert_eq!(Cursors { held, ..Cursors::IDLE }.locks_held(), count);
    }
    for lock in 0..64 {
        let (one, others) = (1 << lock, !(1 << lock));
        assert_eq!(Cursors { held: one, ..Cursors::IDLE }.locks_held(), 1);
        assert_eq!(Cursors { held: others, ..Cursors::IDLE }.locks_held(), 63);
    }
}

#[test]
fn a_lock_is_held_where_its_bit_is_set() {
    let at = Cursors { held: 1 << 63 | 1 << 32 | 1, ..Cursors::IDLE };
    let held: Vec<usize> = (0..200).filter(|&lock| at.holds(lock)).collect();
    assert_eq!(held, [0, 32, 63]);
    let all = Cursors { held: u64::MAX, ..Cursors::IDLE };
    assert!([64, 65, 127, 128, 1 << 32, usize::MAX].iter().all(|&lock| all.holds(63) && !all.holds(lock)));
    assert_eq!((Cursors::IDLE.locks_held(), Cursors::default().held), (0, 0));
}

// ---- turns

/// From the turns above: bit 3 is set from the 2nd to the 14th, and no other bit ever is.
#[test]
fn the_ticket_turn_by_turn() {
    let mut world = World::after_turns(0);
    for turn in 0..=TURNS {
        let held = (ACQUIRES..FREES).contains(&turn);
        assert_eq!((world.at.held, world.at.locks_held()), (if held { ONLY_3 } else { 0 }, held as usize));
        as_owned(&world);
        world.turn(0).unwrap();
    }
    assert_eq!(world.turn(0), Ok(Turn::Idle));
}

/// Each turn by itself, on any mask: the 2nd sets the bit and the 15th clears it, whatever the others are. The intent's
/// turns (1 and 16) and the ownership mask's (6 and 14) do neither. It is so with no store left too: the mask goes with
/// the turn, as the cursor does.
#[test]
fn the_second_turn_of_an_acquire_sets_and_the_fifth_of_a_release_clears() {
    for turn in 1..=TURNS {
        for (given, left) in MASKS.into_iter().flat_map(|given| [(given, 0), (given, 1)]) {
            let mut world = World::after_turns(turn - 1);
            (world.at.held, world.left) = (given, left);
            stores(&mut world, 0, 1);
            let expected = match turn {
                ACQUIRES => given | ONLY_3,
                FREES => given & !ONLY_3,
                _ => given,
            };
            assert_eq!((world.at.held, world.left), (expected, 0), "turn {turn} on {given:#x}");
        }
    }
}

/// The first lock, the last, and those in the middle of the mask.
#[test]
fn every_lock_has_its_bit() {
    for lock in 0..64 {
        let mut world = World::formatted(8);
        world.submit(7, 1, &[acquire(lock), release(lock), finish()]).unwrap();
        stores(&mut world, 7, 2);
        assert_eq!((world.at.held, world.at.locks_held()), (1 << lock, 1));
        as_owned(&world);
        // four more of the acquire, and five of the release
        stores(&mut world, 7, 9);
        assert_eq!(world.at.held, 0);
        as_owned(&world);
    }
}

/// Two workers that contend for lock 5.
fn contending() -> World {
    let mut world = World::formatted(2);
    world.submit(0, 1, &[acquire(3), acquire(5), release(3), release(5), finish()]).unwrap();
    world.submit(1, 1, &[acquire(5), acquire(9), release(9), release(5), finish()]).unwrap();
    world
}

/// Round by round, worker 0 first. It acquires lock 3 in its turn 2 and lock 5 in its turn 8, frees 3 in 17 and 5 in
/// 23, and finishes in 27; worker 1 acquires 5 in 2 and 9 in 8, frees 9 in 17 and 5 in 23, and finishes in 27. So
/// worker 0 waits for lock 5 from round 8 on, up to round 23, in which worker 1 frees it behind worker 0's turn: turn 8
/// falls in round 24, and each later one comes 16 rounds late too.
#[test]
fn two_workers_contend() {
    let mut world = contending();
    // after the turn of this round and worker
    let changes: [((usize, usize), &[usize]); 8] = [
        ((2, 0), &[3]),
        ((2, 1), &[3, 5]),
        ((8, 1), &[3, 5, 9]),
        ((17, 1), &[3, 5]),
        ((23, 1), &[3]),
        ((24, 0), &[3, 5]),
        ((17 + 16, 0), &[5]),
        ((23 + 16, 0), &[]),
    ];
    let mut held: &[usize] = &[];
    for round in 1..=27 + 16 {
        for worker in 0..2 {
            let waits = worker == 0 && (8..=23).contains(&round);
            let answer = world.turn(worker).unwrap();
            assert_eq!(answer == Turn::Waiting(5), waits, "round {round}, worker {worker}");
            if let Some((_, locks)) = changes.iter().find(|(at, _)| *at == (round, worker)) {
                held = locks;
            }
            assert_eq!(world.at.held, mask(held), "round {round}, worker {worker}");
            assert_eq!(world.at.locks_held(), held.len());
            as_owned(&world);
        }
    }
    assert_eq!((world.turn(0), world.turn(1)), (Ok(Turn::Idle), Ok(Turn::Idle)));
}

/// The same by one run of so many rounds, and by runs of one round.
#[test]
fn a_run_leaves_what_its_turns_do() {
    let after =
        [(1, 0), (2, 2), (7, 2), (8, 3), (16, 3), (17, 2), (22, 2), (23, 1), (24, 2), (33, 1), (39, 0)];
    for (rounds, count) in after {
        for at_once in [true, false] {
            let mut world = contending();
            let runs = if at_once { vec![rounds] } else { vec![1; rounds as usize] };
            for rounds in runs {
                assert_eq!(world.run(rounds).unwrap().end, End::Spent);
            }
            assert_eq!(world.at.locks_held(), count, "{rounds} rounds");
            as_owned(&world);
            assert_eq!(world.run(4).unwrap().end, if rounds == 39 { End::AllIdle } else { End::Spent });
        }
    }
}

/// "else the desk waits and stores nothing": the mask is as it was, with the lock's bit or without.
#[test]
fn a_waiting_turn_leaves_it() {
    let mut world = World::formatted(2);
    world.submit(0, 1, &TICKET).unwrap();
    world.submit(1, 1, &TICKET).unwrap();
    stores(&mut world, 0, 2);
    stores(&mut world, 1, 1);
    assert_eq!(world.at.held, ONLY_3);
    kept(&mut world, |world| assert_eq!(world.turn(1), Ok(Turn::Waiting(3))));
}

/// "lock word 0 if it names this desk, else no store": a release that is resumed behind that store finds its lock free,
/// or another's, whose bit stays.
#[test]
fn a_release_that_passes_leaves_it() {
    for anothers in [false, true] {
        let mut world = freed_and_recovered();
        assert_eq!(world.at.held, 0);
        stores(&mut world, 0, 1);
        if anothers {
            world.submit(1, 1, &TICKET).unwrap();
            stores(&mut world, 1, 2);
            assert_eq!(world.at.held, ONLY_3);
        }
        let why = if anothers { Passing::Others } else { Passing::AlreadyFree };
        kept(&mut world, |world| assert_eq!(world.turn(0), Ok(Turn::Passed(why))));
        world.turn(0).unwrap();
        as_owned(&world);
    }
}

/// "Skip: no store", and a turn that answers idle.
#[test]
fn a_jump_and_an_idle_worker_leave_it() {
    let section = [acquire(3), jump_if_zero(own(0), 3), set(24, 5), release(3), finish()];
    let mut world = World::formatted(2);
    world.submit(0, 1, &section).unwrap();
    stores(&mut world, 0, 6);
    kept(&mut world, |world| assert_eq!(world.turn(0), Ok(Turn::Passed(Passing::Jump))));
    kept(&mut world, |world| assert_eq!(world.turn(1), Ok(Turn::Idle)));
}

/// All 64 at once: 31 locks are the most that a section of 64 steps can hold and release again, so three workers have
/// them. Each lock takes six turns, and each acquire's second turn counts. A recovery gives all of them back.
#[test]
fn all_locks() {
    let mut world = World::formatted(3);
    let mut count = 0;
    for (worker, locks) in [0..31, 31..62, 62..64].into_iter().enumerate() {
        let mut section: Vec<u64> = locks.clone().map(acquire).collect();
        section.extend(locks.clone().map(release));
        section.push(finish());
        world.submit(worker, 1, &section).unwrap();
        for _ in locks {
            stores(&mut world, worker, 1);
            assert_eq!(world.at.locks_held(), count);
            stores(&mut world, worker, 5);
            count += 1;
            assert_eq!(world.at.locks_held(), count);
        }
        as_owned(&world);
    }
    assert_eq!((world.at.held, world.at.locks_held()), (u64::MAX, 64));
    world.at = Cursors::IDLE;
    world.recover().unwrap();
    assert_eq!((world.at.held, world.at.locks_held()), (u64::MAX, 64));
    assert_eq!(world.run(u16::MAX).unwrap().end, End::AllIdle);
    assert_eq!(world.at.held, 0);
    as_owned(&world);
}
