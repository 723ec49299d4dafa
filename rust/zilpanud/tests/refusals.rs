//! Causes 1 to 13, with what goes with each and what it leaves; the sections are document 01's edges.

mod common;

use common::*;
use zilpanud::code::{acquire, add, finish, instruction, jump_if_zero, release, set};
use zilpanud::cut::{self, ENOUGH};
use zilpanud::{Cause, Cursors, End, Refusal, RefusedRun, Run, Tally, Turn};

fn refused<T>(cause: Cause) -> Result<T, Refusal> {
    Err(Refusal(cause))
}

fn refused_run(cause: Cause, tally: Tally) -> Result<Run, RefusedRun> {
    Err(RefusedRun { refusal: Refusal(cause), tally })
}

/// A submit that is refused and leaves image, cursors and stores left; the mask too, whatever it is.
fn not_taken(world: &mut World, worker: usize, number: u64, section: &[u64], cause: Cause) {
    let held = world.at.held;
    for given in [held, !held] {
        world.at.held = given;
        let before = (world.image.clone(), world.at, world.left);
        assert_eq!(world.submit(worker, number, section), refused(cause));
        assert_eq!((world.image.clone(), world.at, world.left), before);
    }
    world.at.held = held;
}

#[test]
fn cause_1_worker() {
    let mut world = World::formatted(2);
    for worker in [2, 8, 255, usize::MAX] {
        not_taken(&mut world, worker, 1, &TICKET, Cause::Worker);
        assert_eq!(world.turn(worker), refused(Cause::Worker));
        assert_eq!(zilpanud::finished(&world.image, worker), refused(Cause::Worker));
        assert_eq!(zilpanud::standing(&world.image, worker, 1), refused(Cause::Worker));
        assert_eq!(zilpanud::turns_left(&world.image, worker), refused(Cause::Worker));
        let idle = zilpanud::is_idle(&world.image, &world.at, worker);
        assert_eq!(idle, refused(Cause::Worker));
    }
}

#[test]
fn cause_2_busy() {
    let mut world = World::after_turns(0);
    not_taken(&mut world, 0, 2, &TICKET, Cause::Busy);
    // the cursor alone, the count alone and the pc alone
    world.at = Cursors::IDLE;
    not_taken(&mut world, 0, 2, &TICKET, Cause::Busy);
    world.image[COUNT] = 0;
    world.image[PC] = 1;
    not_taken(&mut world, 0, 2, &TICKET, Cause::Busy);
    world.image[PC] = 0;
    world.at.turn[0] = 0;
    not_taken(&mut world, 0, 2, &TICKET, Cause::Busy);
    world.at.turn[0] = 255;
    assert_eq!(world.submit(0, 2, &TICKET), Ok(()));
}

#[test]
fn cause_3_number() {
    let mut world = World::after_turns(19);
    not_taken(&mut world, 0, 0, &TICKET, Cause::Number);
    not_taken(&mut world, 0, 1, &TICKET, Cause::Number);
    // 3 comes before 4
    not_taken(&mut world, 0, 1, &[], Cause::Number);
    assert_eq!(world.submit(0, 2, &TICKET), Ok(()));
}

/// A section that the check refuses, by itself and in a submit.
fn fails(section: &[u64], cause: Cause) {
    assert_eq!(zilpanud::check(section).map_err(Refusal::from), refused(cause));
    not_taken(&mut World::formatted(1), 0, 1, section, cause);
}

fn passes(section: &[u64]) {
    assert_eq!(zilpanud::check(section), Ok(()));
    assert_eq!(World::formatted(1).submit(0, 1, section), Ok(()));
}

#[test]
fn cause_4_length() {
    fails(&[], Cause::Length);
    fails(&[acquire(3), finish()], Cause::Length);
    passes(&[acquire(3), release(3), finish()]);
    let mut long = vec![acquire(3)];
    long.extend([set(24, 5); 61]);
    long.extend([release(3), finish()]);
    passes(&long);
    long.insert(1, set(24, 5));
    fails(&long, Cause::Length);
}

#[test]
fn cause_5_malformed() {
    passes(&[acquire(63), release(63), finish()]);
    fails(&[acquire(64), release(64), finish()], Cause::Malformed { step: 0 });
    for kind in [0, 9, 65535] {
        let section = [acquire(3), instruction(kind, 0, 0, 0), release(3), finish()];
        fails(&section, Cause::Malformed { step: 1 });
    }
    passes(&[acquire(3), set(519, 5), release(3), finish()]);
    let section = [acquire(3), set(520, 5), release(3), finish()];
    fails(&section, Cause::Malformed { step: 1 });
    // another kind as the last step, a finish before it, a jump backwards and one past the end
    fails(&[acquire(3), set(24, 5), release(3)], Cause::Malformed { step: 2 });
    fails(&[acquire(3), finish(), release(3), finish()], Cause::Malformed { step: 1 });
    fails(&[acquire(3), jump_if_zero(24, 1), release(3), finish()], Cause::Malformed { step: 1 });
    fails(&[acquire(3), jump_if_zero(24, 4), release(3), finish()], Cause::Malformed { step: 1 });
}

#[test]
fn cause_6_unbracketed() {
    fails(&[set(512, 5), acquire(3), release(3), finish()], Cause::Unbracketed { step: 0 });
    fails(&[acquire(3), release(3), set(512, 5), finish()], Cause::Unbracketed { step: 2 });
    fails(&[acquire(3), set(24, 5), finish()], Cause::Unbracketed { step: 2 });
}

#[test]
fn cause_7_unordered() {
    fails(&[acquire(3), acquire(3), release(3), finish()], Cause::Unordered { step: 1 });
    fails(&[acquire(5), acquire(3), release(3), release(5), finish()], Cause::Unordered { step: 1 });
    fails(&[acquire(3), release(4), release(3), finish()], Cause::Unordered { step: 1 });
}

#[test]
fn cause_8_unguarded() {
    fails(&[acquire(3), set(32, 5), release(3), finish()], Cause::Unguarded { step: 1 });
    let sum = add(24, 25, 32);
    fails(&[acquire(3), sum, release(3), finish()], Cause::Unguarded { step: 1 });
}

#[test]
fn cause_9_unlevel() {
    fails(&[acquire(3), jump_if_zero(24, 3), release(3), finish()], Cause::Unlevel { step: 1 });
    passes(&[acquire(3), jump_if_zero(24, 2), release(3), finish()]);
}

/// An image whose header, number of workers or length is wrong.
fn wrong_images() -> Vec<Vec<u64>> {
    let good = World::formatted(2).image;
    let mut wrong: Vec<Vec<u64>> = (0..8)
        .map(|word| {
            let mut image = good.clone();
            image[word] ^= 1 << (7 * word);
            image
        })
        .collect();
    wrong.extend((0..9).map(|len| good[..len].to_vec()));
    wrong.push(good[..good.len() - 1].to_vec());
    wrong.push(good.iter().copied().chain([0]).collect());
    wrong
}

#[test]
fn cause_10_image() {
    let no = Cause::Image;
    for image in wrong_images() {
        let mut world = World { image, at: ODD, left: ENOUGH };
        not_taken(&mut world, 9, 0, &[], no);
        let before = world.image.clone();
        assert_eq!(world.turn(9), refused(no));
        assert_eq!(world.run(5), refused_run(no, Tally::default()));
        let World { image, at, left } = &mut world;
        assert_eq!(zilpanud::is_idle(image, at, 0), refused(no));
        assert_eq!(zilpanud::finished(image, 0), refused(no));
        assert_eq!(zilpanud::standing(image, 9, 0), refused(no));
        assert_eq!(zilpanud::turns_left(image, 9), refused(no));
        assert_eq!(*at, ODD);
        assert_eq!(cut::recover(image, at, left), refused(no));
        assert_eq!(*at, Cursors::IDLE);
        assert_eq!((world.image, world.left), (before, ENOUGH));
    }
}

#[test]
fn cause_10_of_a_formatting() {
    for (len, workers) in [(584, 0), (1322, 9), (665, 1), (667, 1), (666, 2), (0, 1)] {
        let mut image = vec![7; len];
        let (mut at, mut left) = (ODD, 3);
        let answer = cut::format(&mut image, workers, &mut at, &mut left);
        assert_eq!(answer, refused(Cause::Image));
        assert_eq!((image, at, left), (vec![7; len], Cursors::IDLE, 3));
    }
}

#[test]
fn cause_11_cursor() {
    // past the count; a turn that its kind lacks; then a count and an instruction that a turn cannot stand on
    let places = [(4, 0), (255, 0), (0, 6), (1, 4), (3, 3), (0, 254)];
    for (step, turn) in places {
        let mut world = World::after_turns(3);
        world.at.step[0] = step;
        world.at.turn[0] = turn;
        halts(&mut world, 0);
    }
    for (index, value) in [(COUNT, 2), (COUNT, 65), (COUNT, 0), (STEPS, acquire(64))] {
        let mut world = World::after_turns(3);
        world.image[index] = value;
        halts(&mut world, 0);
    }
}

/// A turn and a run of this worker are refused with 11 and leave all as it was.
fn halts(world: &mut World, worker: usize) {
    let no = Cause::Cursor { worker };
    world.at.held = ODD.held;
    let before = (world.image.clone(), world.at, world.left);
    assert_eq!(world.turn(worker), refused(no));
    assert_eq!(world.run(9), refused_run(no, Tally::default()));
    assert_eq!((world.image.clone(), world.at, world.left), before);
}

/// A run keeps the turns before the one that is refused, and their tally.
#[test]
fn cause_11_in_a_run() {
    let mut world = World::formatted(2);
    world.submit(0, 1, &TICKET).unwrap();
    world.at.turn[1] = 0;
    let one = Tally { turns: 1, waits: 0, stores: 1, already_free: 0, others: 0 };
    assert_eq!(world.run(9), refused_run(Cause::Cursor { worker: 1 }, one));
    assert_eq!(world.at.turn[0], 1);
    // an idle worker 1 with the same record would have ended the run
    world.at.turn[1] = 255;
    let tally = Tally { turns: 18, waits: 0, stores: 18, already_free: 0, others: 0 };
    assert_eq!(world.run(18), Ok(Run { end: End::AllIdle, tally }));
}

/// A recovery that is refused leaves the image, all workers idle and no lock held.
fn unrecovered(mut world: World, cause: Cause) {
    world.at.held = ODD.held;
    let before = (world.image.clone(), Cursors::IDLE, world.left);
    assert_eq!(world.recover(), refused(cause));
    assert_eq!((world.image.clone(), world.at, world.left), before);
    assert_eq!(world.turn(0), Ok(Turn::Idle));
}

#[test]
fn cause_12_record() {
    let no = Cause::Record { worker: 0 };
    let changes = [
        (COUNT, 0),
        (COUNT, 3),
        (COUNT, 65),
        (PC, 2 + (1 << 63)),
        (PC, 4 + (1 << 63)),
        (PC, 0),
        (VALUE_1, 9),
        (INTENT, 0),
        (OWNED, 16),
        (NUMBER, 0),
        (FINISHED, 2),
        (STEPS + 1, set(32, 5)),
    ];
    for (index, value) in changes {
        // the acquire is named and its lock owned, so a pc of 0 would leave a lock owned too
        let mut world = World::after_turns(6);
        world.image[index] = value;
        unrecovered(world, no);
    }
}

#[test]
fn cause_13_lock() {
    let stray = [(LOCK_3 + 1, 1), (LOCK_3, 2), (LOCK_3, u64::MAX)];
    for (index, value) in stray {
        let mut world = World::after_turns(6);
        world.image[index] = value;
        let lock = index - 520;
        unrecovered(world, Cause::Lock { lock });
    }
    // two workers that are owed lock 3
    let mut world = World::formatted(2);
    for worker in 0..2 {
        world.submit(worker, 1, &TICKET).unwrap();
        world.image[LOCK_3] = 0;
        for _ in 0..5 {
            world.turn(worker).unwrap();
        }
    }
    unrecovered(world, Cause::Lock { lock: 3 });
}
