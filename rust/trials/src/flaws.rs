//! Engines with a flaw, each the twin but for one thing: what they print is not what is stored.

use crate::engine::{Engine, No, Section};
use crate::stored::compare;
use crate::twins::Twin;
use zilpanud::{Cursors, End, Needs, Standing, Tally, Turn};

#[derive(Clone, Copy, PartialEq, Debug)]
enum Flaw {
    /// A format leaves its last word.
    Formatted,
    /// A submit leaves the worker idle.
    Placed,
    /// A turn takes no store off what is left.
    Left,
    /// A run forgets a lock that is held.
    Held,
    /// A run counts no wait.
    Waits,
    /// A recovery makes all its stores but one.
    Recovered,
    /// A recovery is refused for lock 13 in place of another.
    Lock,
    /// Of the locks held, those below 32 are counted.
    Counted,
    /// What is finished is told to be begun.
    Standing,
    /// A check is refused with the step behind.
    Checked,
    /// One of the lent words of held sets is left.
    Sets,
    /// A path takes a turn more.
    Path,
    /// The most turns are the fewest.
    Needs,
    /// The same of turns left.
    Remaining,
}

const FLAWS: [Flaw; 14] = {
    use Flaw::*;
    [
        Formatted, Placed, Left, Held, Waits, Recovered, Lock, Counted, Standing, Checked, Sets, Path, Needs,
        Remaining,
    ]
};

/// The twin with a flaw, or with none.
#[derive(Clone, Copy)]
struct Flawed(Option<Flaw>);

impl Flawed {
    fn has(self, flaw: Flaw) -> bool {
        self.0 == Some(flaw)
    }

    fn fewest(self, flaw: Flaw, needs: Needs) -> Needs {
        let most = if self.has(flaw) { needs.fewest } else { needs.most };
        Needs { most, ..needs }
    }
}

impl Engine for Flawed {
    fn format(
        self,
        image: &mut [u64],
        workers: u64,
        cursors: &mut Cursors,
        left: &mut u64,
    ) -> Result<(), No> {
        let last = image.last().copied();
        let done = Twin.format(image, workers, cursors, left);
        if let (true, Some(word), Some(last)) = (self.has(Flaw::Formatted), image.last_mut(), last) {
            *word = last;
        }
        done
    }

    fn submit(
        self,
        image: &mut [u64],
        cursors: &mut Cursors,
        section: &Section,
        left: &mut u64,
    ) -> Result<(), No> {
        let before = *cursors;
        let done = Twin.submit(image, cursors, section, left);
        if self.has(Flaw::Placed) {
            *cursors = before;
        }
        done
    }

    fn turn(self, image: &mut [u64], cursors: &mut Cursors, worker: u64, left: &mut u64) -> Result<Turn, No> {
        let before = *left;
        let turn = Twin.turn(image, cursors, worker, left);
        if self.has(Flaw::Left) {
            *left = before;
        }
        turn
    }

    fn run(
        self,
        image: &mut [u64],
        cursors: &mut Cursors,
        rounds: u16,
        left: &mut u64,
    ) -> (Result<End, No>, Tally) {
        let (end, mut tally) = Twin.run(image, cursors, rounds, left);
        if self.has(Flaw::Held) {
            cursors.held &= cursors.held.wrapping_sub(1);
        }
        if self.has(Flaw::Waits) {
            tally.waits = 0;
        }
        (end, tally)
    }

    fn recover(self, image: &mut [u64], cursors: &mut Cursors, left: &mut u64) -> Result<(), No> {
        if self.has(Flaw::Recovered) {
            let (mut uncut, mut others) = (u64::MAX, *cursors);
            let _ = Twin.recover(&mut image.to_vec(), &mut others, &mut uncut);
            let stores = u64::MAX - uncut;
            let mut fewer = (*left).min(stores.saturating_sub(1));
            *left -= stores.min(*left);
            return Twin.recover(image, cursors, &mut fewer);
        }
        let done = Twin.recover(image, cursors, left);
        match done {
            Err(No { cause: 13, .. }) if self.has(Flaw::Lock) => Err(No { cause: 13, at: 13 }),
            _ => done,
        }
    }

    fn locks_held(self, cursors: &Cursors) -> u64 {
        let counted = if self.has(Flaw::Counted) { cursors.held as u32 as u64 } else { cursors.held };
        Twin.locks_held(&Cursors { held: counted, ..*cursors })
    }

    fn standing(self, image: &[u64], worker: u64, number: u64) -> Result<Standing, No> {
        match Twin.standing(image, worker, number) {
            Ok(Standing::Finished) if self.has(Flaw::Standing) => Ok(Standing::Begun),
            standing => standing,
        }
    }

    fn check(self, words: &[u64]) -> Result<(), No> {
        Twin.check(words).map_err(|no| No { at: no.at + self.has(Flaw::Checked) as u64, ..no })
    }

    fn held_sets(self, words: &[u64], sets: &mut [u64; 64]) -> Result<(), No> {
        let lent = sets[63];
        let given = Twin.held_sets(words, sets);
        if self.has(Flaw::Sets) {
            sets[63] = lent;
        }
        given
    }

    fn turns_of_path(self, words: &[u64], path: &[u64]) -> Result<u64, No> {
        Twin.turns_of_path(words, path).map(|turns| turns + self.has(Flaw::Path) as u64)
    }

    fn turns_from(self, words: &[u64], step: u64) -> Result<Needs, No> {
        Twin.turns_from(words, step).map(|needs| self.fewest(Flaw::Needs, needs))
    }

    fn turns_left(self, image: &[u64], worker: u64) -> Result<Needs, No> {
        Twin.turns_left(image, worker).map(|needs| self.fewest(Flaw::Remaining, needs))
    }
}

#[test]
fn a_flaw_is_found() {
    assert_eq!(compare(Flawed(None)), Ok(Ok(26)));
    for flaw in FLAWS {
        let compared = compare(Flawed(Some(flaw))).unwrap();
        assert!(compared.is_err(), "{flaw:?} is not found");
    }
}
