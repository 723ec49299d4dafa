//! Turns to the end (4/14), none of them waiting: the turn table summed along a path, what a section needs from a step on, and
//! what a begun one needs after a recovery. Document 01's ticket is a section here, its desk a worker, its place a pc, its drop
//! a release and its skip a jump.
use crate::answers::{no, Refusal};
use crate::check::check;
use crate::layout::{Image, COUNT, STEPS};
use crate::recovery::sound;
use crate::step::{Step, TABLE};

/// A cause's number and the step that goes with it; a step that was only asked for may be any number.
#[derive(Clone, Copy, PartialEq, Eq, Debug)]
pub struct AtStep {
    pub number: u8,
    pub step: u64,
}

impl From<Refusal> for AtStep {
    fn from(r: Refusal) -> AtStep {
        AtStep { number: r.number, step: r.at as u64 }
    }
}

/// A step's turns; 5 if it is not one of these words, or fails that cause at its place in them.
fn turns_at(words: &[u64], step: u64) -> Result<u64, AtStep> {
    let word = usize::try_from(step).ok().and_then(|s| words.get(s));
    let turns = word.and_then(|&w| Step::of(w).turns(step as usize, words.len()));
    turns.map(u64::from).ok_or(AtStep { number: 5, step })
}

/// The sum of the turn table over the steps of a path, in any order and however often, or the refusal of the first that has no
/// turns. No cause but 5 is asked, and that of these steps alone: there may be any number of words.
pub fn turns_of_path(words: &[u64], path: &[u64]) -> Result<u64, AtStep> {
    path.iter().map(|&step| turns_at(words, step)).sum()
}

/// The fewest and the most turns that a section which passes the check needs from a step on, over both ways of each jump; the
/// check's causes, then 5 for a step that it doesn't have.
pub fn turns_from(words: &[u64], step: u64) -> Result<(u64, u64), AtStep> {
    check(words)?;
    turns_at(words, step)?;
    let step = step as usize;
    // of each step and those behind it; behind the last there is nothing
    let (mut fewest, mut most) = ([0; 65], [0; 65]);
    for s in (step..words.len()).rev() {
        let instruction = Step::of(words[s]);
        let turns = TABLE[instruction.kind as usize - 1][3] as u64;
        let other = if instruction.kind == 7 { instruction.b as usize } else { s + 1 };
        fewest[s] = turns + u64::min(fewest[s + 1], fewest[other]);
        most[s] = turns + u64::max(most[s + 1], most[other]);
    }
    Ok((fewest[step], most[step]))
}

/// The fewest and the most turns that a worker's begun section needs after a recovery, 0 and 0 where nothing is begun; causes 10,
/// 1, and 12 for this worker's record. The other records and the locks aren't looked at. Nothing is stored; `&mut` is what opening
/// an image takes.
pub fn turns_left(image: &mut [u64], worker: u64) -> Result<(u64, u64), Refusal> {
    let img = Image::open(image)?;
    if worker >= img.recs.len() as u64 {
        return Err(no(1, 0));
    }
    let rec = &img.recs[worker as usize];
    let Some((named, _)) = sound(rec, worker as usize).ok_or(no(12, 0))?.begun else {
        return Ok((0, 0));
    };
    let section = &rec[STEPS..STEPS + rec[COUNT] as usize];
    // from the target store on: of a release the owner word and the intent follow
    let here = if Step::of(section[named]).kind == 2 { 3 } else { 1 };
    // a sound pc names no finish, so there is a step behind it
    let (fewest, most) = turns_from(section, named as u64 + 1).unwrap();
    Ok((here + fewest, here + most))
}
