//! The check of a section alone: the library's call, the wrapper with its sentence, and the twin with its own. And what
//! it has to do with a submit: whether that refuses with 10, 1, 2 or 3 is asked apart, by a section that surely passes;
//! behind those its answer must be the check's, whatever the section is.

use crate::call::{self, Call, Given, Lent};
use crate::rng::Rng;
use crate::wrong;
use twin::{HEAD, LAST, REC};
use zilpanud::code::{acquire, finish, release, set};
use zilpanud::Why;

unsafe extern "C" {
    /// As `include/zilpanud.h` declares it. The wrapper lends a detail of its own that is 0, in which one does not see
    /// whether it is written.
    fn zilpanud_check(words: *const u64, words_len: usize, detail: *mut u64) -> u64;
}

/// What stands in the word lent.
const JUNK: u64 = 0x96a5_c3f0_5a69_0f3d;

/// Document 01's ticket, which passes.
const TICKET: [u64; 4] = [acquire(3), set(24, 5), release(3), finish()];

/// An answer's number and what goes with it.
pub type Told = (u64, u64);

/// What the check says of a section.
#[derive(Clone, PartialEq, Eq, Debug)]
pub struct Verdict {
    pub told: Told,
    /// In a sentence, where it is refused.
    pub sentence: Option<String>,
    /// The wrapper's numbers of it.
    pub why: Option<Why>,
}

fn library(section: &[u64]) -> Told {
    let mut detail = JUNK;
    // SAFETY: the pointers come from live references, and the length is its slice's.
    let answer = unsafe { zilpanud_check(section.as_ptr(), section.len(), &mut detail) };
    (answer, detail)
}

fn wrapper(section: &[u64]) -> Verdict {
    let Err(fault) = zilpanud::check(section) else {
        return Verdict { told: (0, 0), sentence: None, why: None };
    };
    let step = fault.step().map_or(0, |step| step as u64);
    let (told, sentence) = ((fault.cause().number(), step), fault.to_string());
    Verdict { told, sentence: Some(sentence), why: Some(fault.why()) }
}

/// The check of a section, the same by all three.
pub fn compared(section: &[u64]) -> Result<Verdict, String> {
    let twins = twin::check(section).map_or_else(|no| (no.number as u64, no.at as u64), |()| (0, 0));
    let (library, ours, sentence) = (library(section), wrapper(section), twin::sentence::of(section));
    if library == twins && ours.told == twins && ours.sentence == sentence {
        return Ok(ours);
    }
    let (steps, lines) = (section.len(), [&ours.sentence, &sentence]);
    let [ours_says, twin_says] = lines.map(|line| line.as_deref().unwrap_or("passes"));
    Err(format!(
        "check of {steps} steps: {section:x?}\nlibrary: {library:?}\nwrapper: {:?}: {ours_says}\ntwin:    {twins:?}: \
         {twin_says}",
        ours.told
    ))
}

/// A submit that is about to be made.
pub struct Submit {
    /// What is refused before the section is looked at: 10, 1, 2 or 3; 0 if a worker is free for it.
    pub door: u64,
    pub verdict: Verdict,
    lent: Lent,
    before: Vec<u64>,
}

impl Submit {
    /// None if the call is another one.
    pub fn before(call: &Call, image: &[u64], lent: Lent) -> Result<Option<Submit>, String> {
        let Call::Submit { worker, number, args, section } = call else {
            return Ok(None);
        };
        let (worker, number, args) = (*worker, *number, *args);
        let surely_passes = Call::Submit { worker, number, args, section: TICKET.to_vec() };
        let uncut = Lent { left: u64::MAX, ..lent };
        let asked = call::ours(&surely_passes, &mut image.to_vec(), uncut);
        match (asked.answer, asked.detail) {
            (door @ (0..=3 | 10), 0) => {
                let verdict = compared(section)?;
                Ok(Some(Submit { door, verdict, lent, before: image.to_vec() }))
            }
            told => Err(format!("a submit of document 01's ticket answers {told:?}")),
        }
    }

    /// It was made, gave this and left that image.
    pub fn after(&self, given: &Given, image: &[u64]) -> Result<(), String> {
        let expected = if self.door == 0 { self.verdict.told } else { (self.door, 0) };
        let told = (given.answer, given.detail);
        if told != expected {
            return Err(format!(
                "a submit answers {told:?}; asked apart and by the check it is {expected:?}"
            ));
        }
        let kept = given.lent == self.lent && image == self.before;
        match kept || given.answer == 0 {
            true => Ok(()),
            false => Err(format!("a submit refused with {told:?} changes something: {given:?}")),
        }
    }
}

/// Sections beside those of a list, with numbers of their own, so that they do not change it.
pub struct Beside(pub Rng);

impl Beside {
    /// A section of a length that the list seldom has.
    pub fn odd_length(&mut self) -> Vec<u64> {
        wrong::odd_length(&mut self.0)
    }

    /// A submit of a wrong section: most often as this one of the list, at times to another worker or under another
    /// number. It is for copies of the image.
    pub fn submit(&mut self, call: &Call, image: &[u64], workers: u64) -> Option<Call> {
        let Call::Submit { worker, number, args, .. } = call else {
            return None;
        };
        let r = &mut self.0;
        let worker = if r.chance(40) { r.below(workers) as usize } else { *worker };
        let index = worker.checked_mul(REC).map(|n| HEAD + LAST + n);
        let finished = index.and_then(|i| image.get(i)).copied().unwrap_or(0);
        let number = match r.below(10) {
            0..=1 => finished.saturating_sub(r.below(3)),
            2..=4 => finished.saturating_add(1),
            _ => *number,
        };
        Some(Call::Submit { worker, number, args: *args, section: wrong::section(r) })
    }
}
