//! Document 02's 6/14: the check alone, and the submit, which tests 10, 1, 2 and 3 and then does that check. "The
//! second answers and stores as the single one did." The sections and what is wrong with them are worked out by hand.

mod common;

use common::says::passes;
use common::*;
use std::collections::HashSet;
use std::error::Error;
use std::hash::Hash;
use zilpanud::code::*;
use zilpanud::cut::ENOUGH;
use zilpanud::{Cause, Cursors, End, Fault, Field, Refusal, Standing, Why};

/// Wrong sections of every cause from 4 to 9, with the step.
fn wrong() -> Vec<(Vec<u64>, Cause)> {
    vec![
        (vec![], Cause::Length),
        (vec![acquire(3), finish()], Cause::Length),
        ([vec![acquire(3); 64], vec![finish()]].concat(), Cause::Length),
        (vec![u64::MAX; 400], Cause::Length),
        (vec![acquire(64), release(64), finish()], Cause::Malformed { step: 0 }),
        (vec![acquire(3), instruction(9, 0, 0, 0), finish()], Cause::Malformed { step: 1 }),
        (vec![acquire(3), set(24, 5), release(3)], Cause::Malformed { step: 2 }),
        (vec![acquire(3); 64], Cause::Malformed { step: 63 }),
        (vec![set(512, 5), acquire(3), release(3), finish()], Cause::Unbracketed { step: 0 }),
        (vec![acquire(3), release(3), set(512, 5), finish()], Cause::Unbracketed { step: 2 }),
        (vec![acquire(3), set(24, 5), finish()], Cause::Unbracketed { step: 2 }),
        (vec![acquire(3), acquire(3), release(3), finish()], Cause::Unordered { step: 1 }),
        (vec![acquire(5), acquire(3), release(3), release(5), finish()], Cause::Unordered { step: 1 }),
        (vec![acquire(3), release(4), release(3), finish()], Cause::Unordered { step: 1 }),
        (vec![acquire(3), set(32, 5), release(3), finish()], Cause::Unguarded { step: 1 }),
        (vec![acquire(3), set(24, 5), add(24, 24, 511), release(3), finish()], Cause::Unguarded { step: 2 }),
        (vec![acquire(3), jump_if_zero(24, 3), release(3), finish()], Cause::Unlevel { step: 1 }),
    ]
}

/// A submit that is refused with this cause, and leaves image, cursors and stores left; the mask too, whatever it is.
fn not_taken(world: &mut World, worker: usize, number: u64, section: &[u64], cause: Cause) {
    let held = world.at.held;
    for given in [held, !held] {
        world.at.held = given;
        let before = (world.image.clone(), world.at, world.left);
        assert_eq!(world.submit(worker, number, section), Err(Refusal(cause)), "{section:x?}");
        assert_eq!((world.image.clone(), world.at, world.left), before, "{section:x?}");
    }
    world.at.held = held;
}

/// The check alone says this before and after what `submits` does.
fn checked_around(section: &[u64], cause: Cause, submits: impl FnOnce(&[u64], Cause)) {
    let fault = zilpanud::check(section).unwrap_err();
    assert_eq!((fault.cause(), Refusal::from(fault)), (cause, Refusal(cause)), "{section:x?}");
    submits(section, cause);
    assert_eq!(zilpanud::check(section), Err(fault));
}

// ---- wrong sections

#[test]
fn an_idle_worker_refuses_as_the_check_does() {
    for (section, cause) in wrong() {
        checked_around(&section, cause, |section, cause| {
            not_taken(&mut World::formatted(1), 0, 1, section, cause);
            let mut world = World::after_turns(19);
            not_taken(&mut world, 0, 2, section, cause);
            not_taken(&mut world, 0, u64::MAX, section, cause);
            // however few stores are left
            world.left = 0;
            not_taken(&mut world, 0, 2, section, cause);
            // beside a worker that is not idle
            let mut world = World::formatted(2);
            world.submit(1, 1, &TICKET).unwrap();
            not_taken(&mut world, 0, 1, section, cause);
        });
    }
}

#[test]
fn a_busy_worker_says_2_first() {
    for (section, cause) in wrong() {
        checked_around(&section, cause, |section, _| {
            // submitted, begun (with the fifth store), with its lock released, and at its last turn
            for turns in [0, 4, 5, 6, 15, 18] {
                let mut world = World::after_turns(turns);
                not_taken(&mut world, 0, 2, section, Cause::Busy);
                // 2 comes before 3
                not_taken(&mut world, 0, 0, section, Cause::Busy);
            }
            // begun, cut and recovered
            let mut world = World::after_turns(7);
            world.at = zilpanud::recover(&mut world.image).unwrap();
            not_taken(&mut world, 0, 2, section, Cause::Busy);
        });
    }
}

#[test]
fn a_number_that_is_not_above_says_3_first() {
    for (section, cause) in wrong() {
        checked_around(&section, cause, |section, _| {
            not_taken(&mut World::formatted(1), 0, 0, section, Cause::Number);
            let mut world = World::formatted(1);
            world.submit(0, 7, &TICKET).unwrap();
            world.run(19).unwrap();
            for number in [0, 1, 6, 7] {
                not_taken(&mut world, 0, number, section, Cause::Number);
            }
        });
    }
}

#[test]
fn no_such_worker_says_1_first() {
    for (section, cause) in wrong() {
        checked_around(&section, cause, |section, _| {
            let mut world = World::formatted(2);
            world.submit(1, 1, &TICKET).unwrap();
            for worker in [2, 7, 8, 255, 256, 1 << 32, usize::MAX] {
                not_taken(&mut world, worker, 1, section, Cause::Worker);
                not_taken(&mut world, worker, 0, section, Cause::Worker);
            }
        });
    }
}

#[test]
fn a_wrong_image_says_10_first() {
    let formatted = World::formatted(1).image;
    let mut images: Vec<Vec<u64>> = vec![vec![], vec![0; 666], formatted[..665].to_vec()];
    for word in 0..8 {
        let mut image = formatted.clone();
        image[word] ^= 2;
        images.push(image);
    }
    for (section, cause) in wrong() {
        checked_around(&section, cause, |section, _| {
            for image in &images {
                let mut world = World { image: image.clone(), at: ODD, left: ENOUGH };
                not_taken(&mut world, 0, 1, section, Cause::Image);
                not_taken(&mut world, 9, 0, section, Cause::Image);
            }
        });
    }
}

// ---- sections that pass

/// Taken by an idle worker: "Hand-in stores ticket number, eight arguments into the own words, steps, count, and sets
/// the desk to step 0, first turn." Those are 1 + 8 + 3 + 1 stores here.
#[test]
fn what_passes_is_taken_and_stored() {
    let section = [acquire(63), release(63), finish()];
    passes(&section);
    let mut world = World::formatted(1);
    let mut expected = world.image.clone();
    let args = [1, 2, 3, 4, 5, 6, 7, u64::MAX];
    expected[NUMBER] = 9;
    expected[OWN..OWN + 8].copy_from_slice(&args);
    expected[STEPS..STEPS + 3].copy_from_slice(&section);
    expected[COUNT] = 3;
    let mut at = Cursors::IDLE;
    at.turn[0] = 0;
    assert_eq!(world.submit_with(0, 9, &args, &section), Ok(()));
    assert_eq!((world.image, world.at, ENOUGH - world.left), (expected, at, 13));
    passes(&section);
}

/// Checked while the worker is busy; refused then, and taken when it has run to idle.
#[test]
fn what_passes_is_taken_when_the_worker_is_free() {
    let section = [acquire(3), jump_if_zero(24, 3), set(25, 6), release(3), finish()];
    for turns in 0..19 {
        let mut world = World::after_turns(turns);
        passes(&section);
        not_taken(&mut world, 0, 2, &section, Cause::Busy);
        assert_eq!(world.run(u16::MAX).unwrap().end, End::AllIdle);
        // the verdict is the same; the number is the submit's to test
        passes(&section);
        not_taken(&mut world, 0, 1, &section, Cause::Number);
        assert_eq!(world.submit(0, 2, &section), Ok(()));
        assert_eq!(world.run(u16::MAX).unwrap().end, End::AllIdle);
        // cell 24 is 5 by the ticket, so that the jump goes on
        assert_eq!((world.image[CELL_24], world.image[CELL_24 + 1], world.image[FINISHED]), (5, 6, 2));
    }
}

#[test]
fn on_a_board_in_a_file() {
    let folder = Folder::new("checked");
    let mut board = boards::create(folder.path("board"), 1).unwrap();
    let wrong = [acquire(3), set(32, 5), release(3), finish()];
    let fault = zilpanud::check(&wrong).unwrap_err();
    assert_eq!(board.submit_next(0, &[0; 8], &wrong), Err(fault.into()));
    assert_eq!(board.submit(0, 1, &[0; 8], &wrong), Err(Refusal(Cause::Unguarded { step: 1 })));
    assert_eq!((board.is_idle(0), board.standing(0, 1)), (Ok(true), Ok(Standing::NotBegun)));
    assert_eq!(board.submit_next(0, &[0; 8], &TICKET), Ok(1));
    assert_eq!(board.submit(0, 1, &[0; 8], &wrong), Err(Refusal(Cause::Busy)));
}

// ---- any lengths

/// An acquire, so many sums, a release and a finish: 3 to 64 steps pass, and no other number.
#[test]
fn any_length() {
    for steps in (0..=70).chain([127, 128, 255, 256, 259, 320, 512, 700, 65_540]) {
        let mut section = vec![acquire(3)];
        section.resize(steps.max(2) - 2, add(24, 24, 512));
        section.extend([release(3), finish()]);
        let section = &section[section.len() - steps..];
        let verdict = zilpanud::check(section).map_err(Refusal::from);
        let right = (3..=64).contains(&steps);
        assert_eq!(verdict, if right { Ok(()) } else { Err(Refusal(Cause::Length)) }, "{steps} steps");
        let mut world = World::formatted(1);
        match right {
            true => assert_eq!(world.submit(0, 1, section), Ok(())),
            false => not_taken(&mut world, 0, 1, section, Cause::Length),
        }
    }
}

/// One word all over, at every length: what is wrong is the length, or the first step.
#[test]
fn any_words() {
    let rows = [
        (0, Why::NoKind { kind: 0 }),
        (u64::MAX, Why::NoKind { kind: 65_535 }),
        (finish(), Why::FinishNotLast),
        (acquire(64), Why::NoLock { lock: 64 }),
        (instruction(2, 0, 0, 1), Why::NotZero { kind: Kind::Release, field: Field::C, value: 1 }),
        (set(520, 0), Why::NoWord { word: 520 }),
        (jump_if_zero(0, 0), Why::NotLater { target: 0 }),
    ];
    for (word, why) in rows {
        for count in (0..=70).chain([300, 700]) {
            let fault = zilpanud::check(&vec![word; count]).unwrap_err();
            let expected = match count {
                3..=64 => (Cause::Malformed { step: 0 }, why),
                _ => (Cause::Length, Why::Length { count }),
            };
            assert_eq!((fault.cause(), fault.why()), expected, "{count} of {word:#x}");
        }
    }
}

// ---- the fault as an error

/// `?` in functions that return a refusal, a fault or any error.
#[test]
fn faults_go_up() {
    fn refusal(section: &[u64]) -> Result<u64, Refusal> {
        zilpanud::check(section)?;
        Ok(1)
    }
    fn fault(section: &[u64]) -> Result<u64, Fault> {
        zilpanud::check(section)?;
        Ok(1)
    }
    fn any(section: &[u64]) -> Result<u64, Box<dyn Error + Send + Sync>> {
        zilpanud::check(section)?;
        Ok(1)
    }
    let wrong = [acquire(3), set(32, 5), release(3), finish()];
    let sentence = "word 32 is in bay 4, which is not held at step 1";
    assert_eq!(refusal(&wrong), Err(Refusal(Cause::Unguarded { step: 1 })));
    assert_eq!(fault(&wrong).unwrap_err().to_string(), sentence);
    assert_eq!(any(&wrong).unwrap_err().to_string(), sentence);
    assert_eq!((refusal(&TICKET), fault(&TICKET), any(&TICKET).unwrap()), (Ok(1), Ok(1), 1));
}

#[test]
fn faults_are_plain_values() {
    fn plain<T: Copy + Eq + Hash + Send + Sync + std::fmt::Debug + 'static>(_: T) {}
    let faults: Vec<Fault> =
        wrong().iter().map(|(section, _)| zilpanud::check(section).unwrap_err()).collect();
    faults.iter().for_each(|fault| (plain(*fault), plain(fault.why())).1);
    // the sections have 17 faults, no two the same
    assert_eq!(faults.iter().collect::<HashSet<_>>().len(), 17);
    let again = zilpanud::check(&[acquire(3), set(32, 9), release(3), finish()]).unwrap_err();
    assert_eq!(again, faults[14]);
}
