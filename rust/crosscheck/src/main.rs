//! Random lists of calls on the library and on the twin, compared after every call: the image word for word, the
//! answer, the cursors, the locks held, the stores left and the tally; of every section its check, with the sentence
//! that says what is wrong, its held sets and its turns, of images the turns left; of every submit what it has to do
//! with the check; and sections are followed to their end, their totals compared and their turns counted. Many lists
//! start from a board that changes over. With each list comes a recorded day, whose sums are compared. See usage().

mod asking;
mod call;
mod checked;
mod counts;
mod damage;
mod day_calls;
mod day_counts;
mod day_lines;
mod days;
mod draw;
mod follow;
mod found;
mod met;
mod passes;
mod rest;
mod rng;
mod sections;
mod totals;
mod turns;
mod verdicts;
mod wrong;

use asking::Asking;
use call::{Call, Given, Lent};
use checked::{Beside, Submit};
use found::{Difference, Found};
use met::Met;
use rng::Rng;
use std::env;
use std::mem::take;
use std::process::exit;
use verdicts::Verdicts;

const LISTS: u64 = 100_000;
const SEED: u64 = 20_260_714;

fn usage() -> ! {
    eprintln!(
        "usage: crosscheck [lists [seed [first]]]
  {LISTS} lists, seed {SEED} and first list 0 by default. Exits with 1 at the first difference, which it prints, and
  with 2 if there was none but some answer was never met (as may be with few lists)."
    );
    exit(2)
}

/// The same call on both, each with its own image of the same words. A submit is compared with the check besides.
fn both(
    call: &Call,
    (mine, other): (&mut [u64], &mut [u64]),
    lent: Lent,
    verdicts: &mut Verdicts,
) -> Result<Given, Found> {
    let submit = Submit::before(call, mine, lent)?;
    let given = the_same(call, (mine, other), lent)?;
    if let Some(submit) = submit {
        submit.after(&given, mine)?;
        verdicts.submit(&submit);
    }
    Ok(given)
}

fn the_same(
    call: &Call,
    (mine, other): (&mut [u64], &mut [u64]),
    lent: Lent,
) -> Result<Given, Box<Difference>> {
    let ours = call::ours(call, mine, lent);
    let twins = call::twins(call, other, lent);
    if ours == twins && mine == other {
        return Ok(ours);
    }
    let word = (0..mine.len()).find(|&i| mine[i] != other[i]).map(|i| (i, mine[i], other[i]));
    Err(Box::new(Difference { call: call.clone(), lent, ours, twins, word, owned: None }))
}

/// The owner words' mask: the locks whose owner words are not 0.
fn owned(image: &[u64]) -> u64 {
    let owners = &image[twin::LOCKS..twin::HEAD];
    owners.iter().rev().fold(0, |mask, &owner| mask << 1 | (owner != 0) as u64)
}

/// Whether an uncut call must leave the owner words' mask; `was_theirs`: it was given that. Document 02 asks it of
/// lists as in demand 3. More than that holds: on any image a finished formatting and an accepted recovery leave it,
/// and a submit, a turn and a run keep it, refused or not.
fn must_be_theirs(call: &Call, given: &Given, was_theirs: bool) -> bool {
    match call {
        Call::Format { .. } | Call::Recover => given.answer == 0,
        Call::Submit { .. } | Call::Turn { .. } | Call::Run { .. } => was_theirs,
        _ => false,
    }
}

/// How a list is played.
#[derive(Clone, Copy)]
struct Manner {
    /// Damaged words, and odd cursors or masks, in 100 calls.
    damages: u64,
    odd_cursors: u64,
    /// Only owner words are damaged: the records stay sound, and two workers may come to be owed one lock.
    only_owners: bool,
    /// Sections have many sums and differences, and arguments near the ends.
    totals: bool,
}

struct Play<'a> {
    r: Rng,
    met: &'a mut Met,
    mine: Vec<u64>,
    other: Vec<u64>,
    lent: Lent,
    workers: u64,
    /// Whether the call before was cut and the next one is to be a recovery.
    was_cut: bool,
    /// The finished numbers with which the board changed over; none if it did not.
    kept: Vec<u64>,
    asking: Asking,
    beside: Beside,
}

impl Play<'_> {
    /// The stores that a call makes of the present image when it is not cut.
    fn stores(&self, call: &Call) -> u64 {
        let lent = Lent { left: u64::MAX, ..self.lent };
        u64::MAX - call::twins(call, &mut self.other.clone(), lent).lent.left
    }

    /// The call with every number of stores from 0 to all, each on copies of the image.
    fn sweep(&mut self, call: &Call) -> Result<(), Found> {
        let stores = self.stores(call);
        if stores == 0 || stores > 150 && self.r.chance(97) {
            return Ok(());
        }
        let (mut mine, mut other) = (self.mine.clone(), self.other.clone());
        for left in 0..=stores {
            mine.copy_from_slice(&self.mine);
            other.copy_from_slice(&self.other);
            let lent = Lent { left, ..self.lent };
            both(call, (&mut mine, &mut other), lent, &mut self.met.verdicts)?;
            self.asking.one(&mine, &mut other)?;
            self.asking.flipped(&mut mine, &mut other)?;
        }
        self.met.swept += 1;
        self.met.sweeps += stores + 1;
        Ok(())
    }

    /// The call on an image that is some words shorter or longer, which then goes away.
    fn another_length(&mut self, call: &Call) -> Result<(), Found> {
        let len = self.mine.len();
        let lens = [len - 1, len + 1, len - 82, len + 82, 0, 1, 7, 8, 583, 584];
        let len = self.r.pick(&lens);
        let (mut mine, mut other) = (self.mine.clone(), self.other.clone());
        mine.resize(len, 0);
        other.resize(len, 0);
        let given = both(call, (&mut mine, &mut other), self.lent, &mut self.met.verdicts)?;
        self.asking.one(&mine, &mut other)?;
        self.met.odd_lengths += 1;
        self.met.call(call, &given, false, 9);
        Ok(())
    }

    /// Damage, odd cursors and odd masks before a call.
    fn disturb(&mut self, manner: Manner) -> Result<(), Found> {
        while self.r.chance(manner.damages) {
            if let Some((sort, (index, word))) = damage::drawn(&mut self.r, &self.mine, manner.only_owners) {
                self.mine[index] = word;
                self.other[index] = word;
                self.met.damages[sort] += 1;
                self.asking.unfollow();
                self.asking.all(&self.mine, &mut self.other)?;
            }
        }
        if self.r.chance(manner.odd_cursors) {
            draw::odd_cursors(&mut self.r, &mut self.lent);
            self.met.odd_cursors += 1;
            self.asking.unfollow();
        }
        if self.r.chance(manner.odd_cursors) {
            draw::odd_mask(&mut self.r, &mut self.lent);
            self.met.odd_masks += 1;
            self.asking.unfollow();
        }
        Ok(())
    }

    /// Compares the mask that a call left with the owner words, where it must be theirs. With no store left, the call
    /// may have been cut.
    fn compare(&mut self, call: &Call, given: &Given, was_theirs: bool) -> Result<(), Box<Difference>> {
        if given.lent.left == 0 || !must_be_theirs(call, given, was_theirs) {
            return Ok(());
        }
        let owned = owned(&self.mine);
        if given.lent.held == owned && given.locks_held == owned.count_ones() as u64 {
            self.met.mask(owned);
            return Ok(());
        }
        let (call, lent) = (call.clone(), self.lent);
        Err(Box::new(Difference { call, lent, ours: *given, twins: *given, word: None, owned: Some(owned) }))
    }

    /// The stores that a call is lent: enough, or a number up to one more than it makes.
    fn left(&mut self, call: &Call) -> u64 {
        match self.r.below(10) {
            0..=6 => u64::MAX,
            7 => self.r.below(4000),
            _ => {
                let stores = self.stores(call);
                self.r.below(stores + 2)
            }
        }
    }

    /// The kind of the instruction that a turn is at; 9 where there is none.
    fn kind(&self, call: &Call) -> u64 {
        let Call::Turn { worker } = call else {
            return 9;
        };
        let step = self.lent.step.get(*worker).copied().unwrap_or(0) as usize;
        let index = worker.checked_mul(82).map(|n| 584 + 18 + n + step);
        index.and_then(|i| self.mine.get(i)).map_or(9, |word| word >> 48)
    }

    fn next(&mut self, manner: Manner) -> Result<(), Found> {
        self.disturb(manner)?;
        let again = self.was_cut && self.r.chance(90);
        let call = match again {
            true => Call::Recover,
            false => draw::call(&mut self.r, &self.mine, self.workers, &self.lent, manner.totals),
        };
        if let Call::Check { section } | Call::Submit { section, .. } = &call {
            self.met.pass(&passes::compared(section)?);
            self.check(section)?;
            self.asking.section(section)?;
            self.beside(&call)?;
        }
        if self.r.chance(1) {
            self.another_length(&call)?;
        }
        if self.r.chance(8) {
            self.sweep(&call)?;
        }
        self.lent.left = self.left(&call);
        self.asking.before(&call, self.was_cut, &self.mine);
        let given = self.made(&call)?;
        let images = (&self.mine[..], &mut self.other[..]);
        self.asking.after(&call, (self.lent, &given), self.was_cut, images)?;
        self.lent = given.lent;
        Ok(())
    }

    /// The check of a section alone.
    fn check(&mut self, section: &[u64]) -> Result<(), Found> {
        let verdict = checked::compared(section)?;
        Ok(self.met.verdicts.alone(section, &verdict)?)
    }

    /// Sections beside the list's: one of an odd length, and with a submit a wrong one, submitted on copies of the
    /// images.
    fn beside(&mut self, call: &Call) -> Result<(), Found> {
        let odd = self.beside.odd_length();
        self.check(&odd)?;
        if let Some(submit) = self.beside.submit(call, &self.mine, self.workers) {
            if let Call::Submit { section, .. } = &submit {
                self.check(section)?;
            }
            let (mut mine, mut other) = (self.mine.clone(), self.other.clone());
            both(&submit, (&mut mine, &mut other), self.lent, &mut self.met.verdicts)?;
        }
        Ok(())
    }

    /// Makes the call on both.
    fn made(&mut self, call: &Call) -> Result<Given, Found> {
        let (before, kind) = (self.lent.left, self.kind(call));
        let was_theirs = self.lent.held == owned(&self.mine);
        let images = (&mut self.mine[..], &mut self.other[..]);
        let given = both(call, images, self.lent, &mut self.met.verdicts)?;
        // with none left one cannot tell whether a store was wanted: taken for a cut where the call stores at all
        let stores =
            matches!(given.answer, 0 | call::STORED | call::SPENT) && call.sort() < 6 && call.sort() != 1;
        self.was_cut = stores && before != u64::MAX && given.lent.left == 0;
        self.met.call(call, &given, self.was_cut, kind);
        self.met.kept_numbers += (given.answer == 3 && self.by_a_kept_number(call)) as u64;
        self.compare(call, &given, was_theirs)?;
        Ok(given)
    }

    /// Whether a submit's number is refused by a finished number from before the board changed over.
    fn by_a_kept_number(&self, call: &Call) -> bool {
        let Call::Submit { worker, number, .. } = call else {
            return false;
        };
        let is = rest::finished_numbers(&self.mine);
        let kept = self.kept.get(*worker).is_some_and(|kept| is.get(*worker) == Some(kept));
        kept && *number > 0
    }

    /// Formats the image; then the board may change over, from words that an earlier version may have left.
    fn start(&mut self, changes_over: bool) -> Result<(), Found> {
        let format = Call::Format { workers: self.workers };
        self.lent = the_same(&format, (&mut self.mine, &mut self.other), self.lent)?.lent;
        if changes_over {
            rest::put(&mut self.r, &mut self.mine);
            self.other.copy_from_slice(&self.mine);
            let before = self.mine.clone();
            let given = the_same(&Call::Recover, (&mut self.mine, &mut self.other), self.lent)?;
            rest::stays(&before, &given, &self.mine)?;
            self.lent = given.lent;
            self.kept = rest::finished_numbers(&self.mine);
            self.met.changed_over += 1;
        }
        self.asking.start(&self.mine);
        Ok(())
    }
}

/// How a list is played, and whether it starts from a board that changes over.
fn manner(r: &mut Rng) -> (Manner, bool) {
    let changes_over = r.chance(40);
    let totals = changes_over || r.chance(15);
    let manner = match r.below(10) {
        0..=4 => Manner { damages: 0, odd_cursors: 0, only_owners: false, totals },
        5..=6 => Manner { damages: 6, odd_cursors: 2, only_owners: false, totals },
        7 => Manner { damages: 40, odd_cursors: 0, only_owners: true, totals },
        _ => Manner { damages: 25, odd_cursors: 15, only_owners: false, totals },
    };
    (manner, changes_over)
}

/// Plays one list; gives the number of the call that differed.
fn list(seed: u64, number: u64, met: &mut Met) -> Result<(), (u64, Found)> {
    let mut r = Rng::of_list(seed, number);
    let workers = if r.chance(50) { 1 + r.below(3) } else { 1 + r.below(8) };
    let (manner, changes_over) = manner(&mut r);
    let (fill, calls) = (r.word(), 10 + r.below(60));
    let image = vec![fill; twin::HEAD + twin::REC * workers as usize];
    let lent = Lent { step: [fill as u8; 8], turn: [!fill as u8; 8], held: !fill, left: u64::MAX };
    let (mine, other) = (image.clone(), image);
    let asking = Asking::new(Rng::of_list(!seed, number), workers as usize, take(&mut met.turns));
    let beside = Beside(Rng::of_list(seed ^ 6, number));
    let mut play = Play { r, met, mine, other, lent, workers, was_cut: false, kept: vec![], asking, beside };
    play.start(changes_over).map_err(|d| (0, d))?;
    let mut played = (1..=calls).try_for_each(|n| play.next(manner).map_err(|d| (n, d)));
    if played.is_ok() {
        let settled = play.asking.settle(&mut play.mine, play.lent, play.was_cut);
        played = settled.map_err(|d| (calls + 1, d.into()));
    }
    met.turns = play.asking.counted();
    played?;
    recorded(seed, number, met).map_err(|d| (calls + 2, d.into()))?;
    met.lists += 1;
    Ok(())
}

/// The recorded day of a list, one with a byte changed, and bytes that are none.
fn recorded(seed: u64, number: u64, met: &mut Met) -> Result<(), String> {
    let mut r = Rng::of_list(seed ^ 7, number);
    days::day(&mut r, &mut met.days)?;
    days::damaged(&mut r, &mut met.days)?;
    days::bytes(&mut r, &mut met.days)
}

fn main() {
    let args: Vec<u64> = env::args().skip(1).map(|word| word.parse().unwrap_or_else(|_| usage())).collect();
    let (lists, seed, first) = match args[..] {
        [] => (LISTS, SEED, 0),
        [lists] => (lists, SEED, 0),
        [lists, seed] => (lists, seed, 0),
        [lists, seed, first] => (lists, seed, first),
        _ => usage(),
    };
    let mut met = Met::default();
    for number in first..first + lists {
        if let Err((call, found)) = list(seed, number, &mut met) {
            met.report();
            found::tell(seed, number, call, &found);
            exit(1);
        }
    }
    met.report();
    let missing = met.missing();
    missing.iter().for_each(|line| println!("not met: {line}"));
    println!("seed {seed}: no difference");
    exit(if missing.is_empty() { 0 } else { 2 })
}
