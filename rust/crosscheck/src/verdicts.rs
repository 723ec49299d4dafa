//! What the check said of sections, alone and in submits: counts, so that one sees that nothing is missing.

use crate::checked::{Submit, Verdict};
use zilpanud::Why;

/// What a submit is refused with before its section is looked at, as columns; 0 is a free worker.
const DOORS: [(u64, &str); 5] =
    [(0, "free worker"), (2, "busy (2)"), (3, "number (3)"), (1, "no worker (1)"), (10, "image (10)")];

/// The check's answers.
const ANSWERS: [usize; 7] = [0, 4, 5, 6, 7, 8, 9];

/// Lengths that are counted by themselves, and the length from which on there are several hundred words.
const LENGTHS: [usize; 6] = [0, 1, 2, 3, 64, 65];
const LONG: usize = 100;

/// The rows of the table of sentences.
const ROWS: [&str; 16] = [
    "length",
    "no kind",
    "no lock",
    "no word",
    "no later step",
    "not 0",
    "finish not last",
    "last no finish",
    "first no acquire",
    "held at finish",
    "nothing held",
    "held already",
    "not above",
    "not held",
    "unguarded",
    "unlevel",
];

fn row(why: Why) -> Option<usize> {
    Some(match why {
        Why::Length { .. } => 0,
        Why::NoKind { .. } => 1,
        Why::NoLock { .. } => 2,
        Why::NoWord { .. } => 3,
        Why::NotLater { .. } => 4,
        Why::NotZero { .. } => 5,
        Why::FinishNotLast => 6,
        Why::LastNoFinish => 7,
        Why::FirstNoAcquire => 8,
        Why::HeldAtFinish { .. } => 9,
        Why::NothingHeld => 10,
        Why::HeldAlready { .. } => 11,
        Why::NotAbove { .. } => 12,
        Why::NotHeld { .. } => 13,
        Why::Unguarded { .. } => 14,
        Why::Unlevel { .. } => 15,
        _ => return None,
    })
}

#[derive(Default)]
pub struct Verdicts {
    /// Sections checked alone, by the answer, by `ROWS`, and by `LENGTHS` and longer ones.
    alone: [u64; 10],
    rows: [u64; ROWS.len()],
    lengths: [u64; LENGTHS.len() + 1],
    /// Submits by `DOORS` and by the check's answer.
    submits: [[u64; 10]; DOORS.len()],
}

impl Verdicts {
    /// A section that was checked alone; a fault that the wrapper does not explain is a difference.
    pub fn alone(&mut self, section: &[u64], verdict: &Verdict) -> Result<(), String> {
        self.alone[verdict.told.0 as usize] += 1;
        let steps = section.len();
        if let Some(i) = LENGTHS.iter().position(|&length| length == steps) {
            self.lengths[i] += 1;
        }
        self.lengths[LENGTHS.len()] += (steps >= LONG) as u64;
        if let Some(why) = verdict.why {
            let row = row(why).ok_or_else(|| format!("the wrapper says {why:?} of {section:x?}"))?;
            self.rows[row] += 1;
        }
        Ok(())
    }

    /// A submit that was compared with the check.
    pub fn submit(&mut self, submit: &Submit) {
        if let Some(i) = DOORS.iter().position(|(door, _)| *door == submit.door) {
            self.submits[i][submit.verdict.told.0 as usize] += 1;
        }
    }

    /// What was not met, as lines.
    pub fn missing(&self) -> Vec<String> {
        let mut lines = vec![];
        for answer in ANSWERS {
            if self.alone[answer] == 0 {
                lines.push(format!("the check alone never answered {answer}"));
            }
            for ((_, door), submits) in DOORS.iter().zip(self.submits) {
                if submits[answer] == 0 {
                    lines
                        .push(format!("{door}: no submit of a section that the check answers with {answer}"));
                }
            }
        }
        let rows = ROWS.iter().zip(self.rows).filter(|(_, n)| *n == 0);
        lines.extend(rows.map(|(row, _)| format!("no sentence: {row}")));
        let lengths = LENGTHS.iter().zip(self.lengths).filter(|(_, n)| *n == 0);
        lines.extend(lengths.map(|(steps, _)| format!("no check of {steps} words")));
        if self.lengths[LENGTHS.len()] == 0 {
            lines.push(format!("no check of {LONG} words or more"));
        }
        lines
    }

    pub fn report(&self) {
        println!("sections checked alone, and submits compared with that, by the check's answer (0 passes):");
        print!("{:>9} {:>13}", "check", "alone");
        DOORS.iter().for_each(|(_, door)| print!(" {door:>13}"));
        println!();
        for answer in ANSWERS {
            print!("{answer:>9} {:>13}", self.alone[answer]);
            self.submits.iter().for_each(|submits| print!(" {:>13}", submits[answer]));
            println!();
        }
        print!("sentences compared:");
        ROWS.iter().zip(self.rows).for_each(|(row, n)| print!(" {row} {n};"));
        print!("\nsections checked alone by their words:");
        LENGTHS.iter().zip(self.lengths).for_each(|(steps, n)| print!(" {steps}: {n};"));
        println!(" {LONG} and more: {}", self.lengths[LENGTHS.len()]);
    }
}
