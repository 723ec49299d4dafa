//! The questions about turns that go with the calls of a list, and the sections that are followed in it.

use crate::call::{self, Call, Given, Lent};
use crate::counts::Counts;
use crate::follow::Follow;
use crate::rest;
use crate::rng::Rng;
use crate::turns::{self, Told};
use twin::{HEAD, REC};

/// What differs, in words.
pub type Difference = String;

pub struct Asking {
    /// Numbers of its own, so that the questions do not change the list.
    r: Rng,
    workers: usize,
    /// Whether a section of the list was asked from all its steps.
    all_steps: bool,
    /// As long as the list is one of demand 3.
    follow: Option<Follow>,
    /// The image before a run that is followed, and the turns left before a recovery.
    before: Vec<u64>,
    left: Vec<Told>,
    counts: Counts,
}

impl Asking {
    /// A list for so many workers, which is not yet followed; what is counted goes on from these counts.
    pub fn new(r: Rng, workers: usize, counts: Counts) -> Asking {
        Asking { r, workers, all_steps: false, follow: None, before: vec![], left: vec![], counts }
    }

    /// The list starts with this image, which is at rest: fresh from formatting, or changed over.
    pub fn start(&mut self, mine: &[u64]) {
        self.unfollow();
        self.follow = Some(Follow::from(mine));
    }

    /// The list is over.
    pub fn counted(mut self) -> Counts {
        self.unfollow();
        self.counts
    }

    /// A section of the list: the turns of paths of it, and what it needs from a step on; once a list, from each step.
    pub fn section(&mut self, section: &[u64]) -> Result<(), Difference> {
        for _ in 0..2 {
            let words = turns::words(&mut self.r, section);
            let path = turns::path(&mut self.r, &words);
            self.counts.path(&turns::of_path(&words, &path)?);
        }
        let step = turns::step(&mut self.r, section);
        let mut told = turns::from(section, step)?;
        self.counts.from(&told, section.len());
        if told.answer == 0 && !self.all_steps {
            self.all_steps = true;
            for step in 0..section.len() as u64 + 1 {
                told = turns::from(section, step)?;
                self.counts.from(&told, section.len());
            }
        }
        Ok(())
    }

    /// A worker of the image, or sometimes one that it has not.
    fn worker(&mut self) -> usize {
        match self.r.chance(95) {
            true => self.r.below(self.workers as u64) as usize,
            false => self.r.pick(&[self.workers, 8, 9, 256, 1 << 32, usize::MAX]),
        }
    }

    /// The turns left of one worker, in an image that both have.
    pub fn one(&mut self, mine: &[u64], other: &mut [u64]) -> Result<(), Difference> {
        let worker = self.worker();
        self.counts.left(&turns::left(mine, other, worker)?);
        Ok(())
    }

    /// The turns left of every worker.
    pub fn all(&mut self, mine: &[u64], other: &mut [u64]) -> Result<(), Difference> {
        for worker in 0..self.workers {
            self.counts.left(&turns::left(mine, other, worker)?);
        }
        Ok(())
    }

    /// The turns left of a worker with one bit of its record changed, in copies of an image; they are then as before.
    pub fn flipped(&mut self, mine: &mut [u64], other: &mut [u64]) -> Result<(), Difference> {
        let worker = self.r.below(self.workers as u64) as usize;
        let offset = if self.r.chance(70) { self.r.below(10) } else { self.r.below(REC as u64) };
        let (index, bit) = (HEAD + REC * worker + offset as usize, 1 << self.r.below(64));
        mine[index] ^= bit;
        other[index] ^= bit;
        let told = turns::left(mine, other, worker)?;
        self.counts.flipped(&told);
        mine[index] ^= bit;
        other[index] ^= bit;
        Ok(())
    }

    /// The list is none of demand 3 any more.
    pub fn unfollow(&mut self) {
        if let Some(follow) = self.follow.take() {
            self.counts.followed(&follow);
        }
    }

    /// A call is about to be made.
    pub fn before(&mut self, call: &Call, was_cut: bool, mine: &[u64]) {
        if was_cut && !matches!(call, Call::Recover) {
            self.unfollow();
        }
        if self.follow.is_some() && matches!(call, Call::Run { .. }) {
            self.before.clear();
            self.before.extend_from_slice(mine);
        }
        if matches!(call, Call::Recover) {
            self.left.clear();
            self.left.extend((0..self.workers).map(|worker| turns::left_by_library(mine, worker)));
        }
    }

    /// The call was made: it was lent this, and gave that.
    pub fn after(
        &mut self,
        call: &Call,
        (lent, given): (Lent, &Given),
        was_cut: bool,
        (mine, other): (&[u64], &mut [u64]),
    ) -> Result<(), Difference> {
        match call {
            Call::Recover => {
                self.all(mine, other)?;
                self.recovered(given, mine)?;
            }
            _ if was_cut => self.all(mine, other)?,
            _ => self.one(mine, other)?,
        }
        self.follow(call, (lent, given), was_cut, mine)
    }

    /// Behind a list that is followed: a recovery, which is due if it was cut, and the rounds that bring every section
    /// to its end. The board could then change over: it is at rest.
    pub fn settle(&mut self, mine: &mut [u64], lent: Lent, was_cut: bool) -> Result<(), Difference> {
        let mut lent = Lent { left: u64::MAX, ..lent };
        let recovers = was_cut || self.r.chance(50);
        let calls = [Call::Recover, Call::Run { rounds: 384 * self.workers as u16 }];
        for call in &calls[!recovers as usize..] {
            if self.follow.is_some() {
                self.before(call, false, mine);
                let given = call::ours(call, mine, lent);
                self.follow(call, (lent, &given), false, mine)?;
                if given.answer != 0 {
                    return Err(format!("{call:?} behind the list answers {}", given.answer));
                }
                lent = given.lent;
            }
        }
        if self.follow.is_some() {
            let before = mine.to_vec();
            let given = call::ours(&Call::Recover, mine, lent);
            rest::stays(&before, &given, mine)?;
            self.counts.rested += 1;
        }
        Ok(())
    }

    /// An accepted recovery, cut or not, leaves as many turns as there were before it.
    fn recovered(&mut self, given: &Given, mine: &[u64]) -> Result<(), Difference> {
        if given.answer != 0 {
            return Ok(());
        }
        for (worker, was) in self.left.iter().enumerate() {
            let is = turns::left_by_library(mine, worker);
            if is != *was {
                return Err(format!(
                    "turns left of worker {worker} before a recovery: {was:?}, after it: {is:?}"
                ));
            }
        }
        self.counts.recovered += self.left.len() as u64;
        Ok(())
    }

    fn follow(
        &mut self,
        call: &Call,
        (lent, given): (Lent, &Given),
        was_cut: bool,
        mine: &[u64],
    ) -> Result<(), Difference> {
        let accepted = given.answer == 0 && !was_cut;
        if matches!(call, Call::Format { .. }) {
            // refused, it leaves no cursors
            self.unfollow();
            self.follow = accepted.then(|| Follow::from(mine));
        }
        let Some(follow) = &mut self.follow else {
            return Ok(());
        };
        match call {
            Call::Submit { worker, number, args, section } if accepted => {
                follow.taken(*worker, *number, *args, section);
            }
            Call::Turn { worker } if given.answer >= call::STORED => {
                follow.turn(*worker, (given.answer, given.detail), lent.left > 0, mine)?;
            }
            Call::Run { rounds } => {
                let same = follow.run(&mut self.before, lent, *rounds, given)?;
                if !same || self.before != mine {
                    return Err("a run leaves something else than its turns".to_string());
                }
            }
            Call::Recover if accepted => follow.recovered(mine)?,
            Call::Recover if given.answer != 0 => return Err("a recovery is refused".to_string()),
            _ => {}
        }
        match was_cut {
            true => Ok(()),
            false => follow.rested(mine),
        }
    }
}
