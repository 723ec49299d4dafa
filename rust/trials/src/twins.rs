//! The twin, which was written from the papers alone.

use crate::engine::{Engine, No, Section};
use twin::turns::{self, AtStep};
use twin::{Answer, Left, Refusal, Working};
use zilpanud::{Cursors, End, Needs, Passing, Standing, Tally, Turn};

#[derive(Clone, Copy)]
pub struct Twin;

fn no(refusal: Refusal) -> No {
    No { cause: refusal.number as u64, at: refusal.at as u64 }
}

fn no_at(refusal: AtStep) -> No {
    No { cause: refusal.number as u64, at: refusal.step }
}

fn working(cursors: &Cursors) -> Working {
    Working { step: cursors.step, turn: cursors.turn, held: cursors.held }
}

fn cursors_of(places: Working) -> Cursors {
    Cursors { step: places.step, turn: places.turn, held: places.held }
}

fn needs((fewest, most): (u64, u64)) -> Needs {
    Needs { fewest, most }
}

fn turned(answer: Answer) -> Turn {
    match answer {
        Answer::Stored(index) => Turn::Stored(index),
        Answer::Passed(twin::Passing::Jump) => Turn::Passed(Passing::Jump),
        Answer::Passed(twin::Passing::AlreadyFree) => Turn::Passed(Passing::AlreadyFree),
        Answer::Passed(twin::Passing::Others) => Turn::Passed(Passing::Others),
        Answer::Waiting(bay) => Turn::Waiting(bay as usize),
        Answer::Idle => Turn::Idle,
    }
}

/// Takes off what is left the stores of a call; the twin's are lent the number alone.
fn take(left: &mut u64, stores: u64) {
    *left = left.saturating_sub(stores);
}

impl Engine for Twin {
    fn format(
        self,
        image: &mut [u64],
        workers: u64,
        cursors: &mut Cursors,
        left: &mut u64,
    ) -> Result<(), No> {
        let (done, places) = twin::format(image, workers, *left);
        *cursors = cursors_of(places);
        done.map_err(no)?;
        take(left, image.len() as u64 + 1);
        Ok(())
    }

    fn submit(
        self,
        image: &mut [u64],
        cursors: &mut Cursors,
        section: &Section,
        left: &mut u64,
    ) -> Result<(), No> {
        let Section { worker, number, args, words } = *section;
        let (done, places) = twin::hand_in(image, working(cursors), worker, number, args, words, *left);
        *cursors = cursors_of(places);
        done.map_err(no)?;
        take(left, 10 + words.len() as u64);
        Ok(())
    }

    fn turn(self, image: &mut [u64], cursors: &mut Cursors, worker: u64, left: &mut u64) -> Result<Turn, No> {
        let (answer, places) = twin::turn(image, working(cursors), worker, *left);
        *cursors = cursors_of(places);
        take(left, matches!(answer, Ok(Answer::Stored(_))) as u64);
        answer.map(turned).map_err(no)
    }

    fn run(
        self,
        image: &mut [u64],
        cursors: &mut Cursors,
        rounds: u16,
        left: &mut u64,
    ) -> (Result<End, No>, Tally) {
        let mut tally = twin::Tally::default();
        let (end, places) = twin::run(image, working(cursors), rounds, *left, &mut tally);
        *cursors = cursors_of(places);
        take(left, tally.stores);
        let end = end.map_err(no).map(|end| match end {
            twin::End::Idle => End::AllIdle,
            twin::End::Spent => End::Spent,
        });
        let twin::Tally { turns, waits, stores, already_free, others } = tally;
        (end, Tally { turns, waits, stores, already_free, others })
    }

    fn recover(self, image: &mut [u64], cursors: &mut Cursors, left: &mut u64) -> Result<(), No> {
        let mut meter = Left(*left);
        let (done, places) = twin::recover_with(image, &mut meter);
        (*cursors, *left) = (cursors_of(places), meter.0);
        done.map_err(no)
    }

    fn locks_held(self, cursors: &Cursors) -> u64 {
        working(cursors).bays_held() as u64
    }

    fn standing(self, image: &[u64], worker: u64, number: u64) -> Result<Standing, No> {
        let standing = twin::standing(&mut image.to_vec(), worker, number).map_err(no)?;
        Ok(match standing {
            twin::Standing::NotBegun => Standing::NotBegun,
            twin::Standing::Begun => Standing::Begun,
            twin::Standing::Finished => Standing::Finished,
        })
    }

    fn check(self, words: &[u64]) -> Result<(), No> {
        twin::check(words).map_err(no)
    }

    fn held_sets(self, words: &[u64], sets: &mut [u64; 64]) -> Result<(), No> {
        let given = twin::held_sets(words);
        *sets = given.unwrap_or([0; 64]);
        given.map(|_| ()).map_err(no)
    }

    fn turns_of_path(self, words: &[u64], path: &[u64]) -> Result<u64, No> {
        turns::turns_of_path(words, path).map_err(no_at)
    }

    fn turns_from(self, words: &[u64], step: u64) -> Result<Needs, No> {
        turns::turns_from(words, step).map(needs).map_err(no_at)
    }

    fn turns_left(self, image: &[u64], worker: u64) -> Result<Needs, No> {
        turns::turns_left(&mut image.to_vec(), worker).map(needs).map_err(no)
    }
}
