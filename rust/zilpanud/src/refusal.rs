//! Why a call is refused.

use crate::Tally;
use std::error::Error;
use std::fmt;

/// Why a call is refused: document 01's causes 1 to 13, each with the step, worker or lock that goes with it.
#[derive(Clone, Copy, PartialEq, Eq, Hash, Debug)]
#[non_exhaustive]
pub enum Cause {
    /// 1: the worker (document 01's desk) is not one of the image's.
    Worker,
    /// 2: the worker is not idle, or its record still has a section.
    Busy,
    /// 3: the section's number is not above the last finished one.
    Number,
    /// 4: a section has 3 to 64 instructions.
    Length,
    /// 5: an instruction of unknown kind, or a field outside its range or position; of
    /// [`turns_of_path`](crate::turns_of_path) and [`turns_from`](crate::turns_from) also a number that is no step's.
    Malformed {
        /// Which instruction of the section, from 0.
        step: usize,
    },
    /// 6: the first instruction does not acquire, a later one holds nothing, or a finish holds something.
    Unbracketed {
        /// Which instruction of the section, from 0.
        step: usize,
    },
    /// 7: an acquire is not above all locks held, or a release's lock is not held.
    Unordered {
        /// Which instruction of the section, from 0.
        step: usize,
    },
    /// 8: a cell is named whose lock is not held.
    Unguarded {
        /// Which instruction of the section, from 0.
        step: usize,
    },
    /// 9: a jump goes to a step with another held set.
    Unlevel {
        /// Which instruction of the section, from 0.
        step: usize,
    },
    /// 10: the image's length, its words 0 to 7 or the number of workers is wrong.
    Image,
    /// 11: the worker's cursor is on no turn of its section.
    Cursor {
        /// Whose cursor.
        worker: usize,
    },
    /// 12: the worker's record is not sound.
    Record {
        /// Whose record.
        worker: usize,
    },
    /// 13: two workers are owed the lock, or its owner word names no worker that intends it.
    Lock {
        /// Which lock; the lowest, if there are several.
        lock: usize,
    },
    /// No cause of document 01: a number that the call does not have. The library is proved to give none, so another
    /// version of it is linked ([`version`](crate::version)) than the one that this crate was written for
    /// ([`VERSION`](crate::VERSION)), and what the call did is not known.
    Unknown {
        /// The number that the library gave; 33 of a turn that passed for none of the reasons of
        /// [`Passing`](crate::Passing).
        answer: u64,
    },
}

impl Cause {
    /// Document 01's number.
    pub const fn number(self) -> u64 {
        match self {
            Cause::Worker => 1,
            Cause::Busy => 2,
            Cause::Number => 3,
            Cause::Length => 4,
            Cause::Malformed { .. } => 5,
            Cause::Unbracketed { .. } => 6,
            Cause::Unordered { .. } => 7,
            Cause::Unguarded { .. } => 8,
            Cause::Unlevel { .. } => 9,
            Cause::Image => 10,
            Cause::Cursor { .. } => 11,
            Cause::Record { .. } => 12,
            Cause::Lock { .. } => 13,
            Cause::Unknown { answer } => answer,
        }
    }

    /// The step, worker or lock that goes with the cause, for those that have one.
    pub const fn detail(self) -> Option<u64> {
        match self {
            Cause::Malformed { step }
            | Cause::Unbracketed { step }
            | Cause::Unordered { step }
            | Cause::Unguarded { step }
            | Cause::Unlevel { step } => Some(step as u64),
            Cause::Cursor { worker } | Cause::Record { worker } => Some(worker as u64),
            Cause::Lock { lock } => Some(lock as u64),
            _ => None,
        }
    }

    /// The cause of a number from 1 to 13.
    pub const fn of(number: u64, detail: u64) -> Option<Cause> {
        let at = detail as usize;
        Some(match number {
            1 => Cause::Worker,
            2 => Cause::Busy,
            3 => Cause::Number,
            4 => Cause::Length,
            5 => Cause::Malformed { step: at },
            6 => Cause::Unbracketed { step: at },
            7 => Cause::Unordered { step: at },
            8 => Cause::Unguarded { step: at },
            9 => Cause::Unlevel { step: at },
            10 => Cause::Image,
            11 => Cause::Cursor { worker: at },
            12 => Cause::Record { worker: at },
            13 => Cause::Lock { lock: at },
            _ => return None,
        })
    }

    /// What a caller can do about it, in a few words.
    pub const fn advice(self) -> &'static str {
        match self {
            Cause::Worker => "give one below the image's number of workers",
            Cause::Busy => "make turns or a run until it is idle",
            Cause::Number => "give one above it",
            Cause::Length => "give 3 to 64",
            Cause::Malformed { .. } => "name one that is there, built with the functions of `code`",
            Cause::Unbracketed { .. } => "acquire first, hold a lock up to the finish and none at it",
            Cause::Unordered { .. } => "acquire in rising order, and release what is held",
            Cause::Unguarded { .. } => "acquire lock cell / 8 before it",
            Cause::Unlevel { .. } => "jump to where the same locks are held",
            Cause::Image => "one of 1 to 8 workers has `image_len` words, and is formatted when it is new",
            Cause::Cursor { .. } => "recover: that sets all cursors",
            Cause::Record { .. } | Cause::Lock { .. } => {
                "something else changed the image: keep it for those who can mend it, and do not format it"
            }
            Cause::Unknown { .. } => "link the library that this crate was written for",
        }
    }
}

impl fmt::Display for Cause {
    fn fmt(&self, f: &mut fmt::Formatter<'_>) -> fmt::Result {
        match self {
            Cause::Worker => write!(f, "the image has no such worker"),
            Cause::Busy => write!(f, "the worker is not idle, or its record still has a section"),
            Cause::Number => write!(f, "the number is not above the last one that the worker finished"),
            Cause::Length => write!(f, "the number of instructions is wrong"),
            Cause::Malformed { step } => {
                write!(f, "step {step} is not there, is of unknown kind, or has a field outside its range or position")
            }
            Cause::Unbracketed { step } => {
                write!(f, "step {step} stands where no lock is held, or finishes with one held")
            }
            Cause::Unordered { step } => {
                write!(f, "step {step} acquires a lock not above all held, or releases one that is not held")
            }
            Cause::Unguarded { step } => write!(f, "step {step} names a cell whose lock is not held"),
            Cause::Unlevel { step } => write!(f, "step {step} jumps to one with other locks held"),
            Cause::Image => {
                write!(f, "the image's length, its first eight words or its number of workers is wrong")
            }
            Cause::Cursor { worker } => write!(f, "worker {worker}'s cursor is on no turn of its section"),
            Cause::Record { worker } => write!(f, "worker {worker}'s record is not sound"),
            Cause::Lock { lock } => {
                write!(f, "two workers are owed lock {lock}, or its owner does not intend it")
            }
            Cause::Unknown { answer } => write!(f, "the library has no answer {answer} in this version"),
        }
    }
}

/// A refused call. What it left as it was stands at each function.
#[derive(Clone, Copy, PartialEq, Eq, Hash, Debug)]
pub struct Refusal(pub Cause);

impl Refusal {
    /// The refusal of an answer that is no other answer of its call.
    #[cold]
    pub(crate) fn of(answer: u64, detail: u64) -> Refusal {
        Refusal(Cause::of(answer, detail).unwrap_or(Cause::Unknown { answer }))
    }
}

impl fmt::Display for Refusal {
    fn fmt(&self, f: &mut fmt::Formatter<'_>) -> fmt::Result {
        let Refusal(cause) = self;
        write!(f, "refused with {}: {cause}; {}", cause.number(), cause.advice())
    }
}

impl Error for Refusal {}

/// A refused run. The turns before the refused one stand, and so does their tally.
#[derive(Clone, Copy, PartialEq, Eq, Hash, Debug)]
pub struct RefusedRun {
    /// Why it was refused: with cause 10 before any turn, or with cause 11 at a worker's turn.
    pub refusal: Refusal,
    /// What was counted before it.
    pub tally: Tally,
}

impl fmt::Display for RefusedRun {
    fn fmt(&self, f: &mut fmt::Formatter<'_>) -> fmt::Result {
        write!(f, "{} ({} turns were made before it)", self.refusal, self.tally.turns)
    }
}

impl Error for RefusedRun {
    fn source(&self) -> Option<&(dyn Error + 'static)> {
        Some(&self.refusal)
    }
}

/// Leaves the tally out, so that `?` does in a function that returns a [`Refusal`].
impl From<RefusedRun> for Refusal {
    fn from(run: RefusedRun) -> Refusal {
        run.refusal
    }
}

#[cfg(test)]
mod tests {
    use super::*;

    #[test]
    fn a_number_of_no_cause_is_unknown() {
        for answer in [0, 14, 15, 19, 32, 33, 36, u64::MAX] {
            let Refusal(cause) = Refusal::of(answer, 3);
            assert_eq!((cause, cause.number(), cause.detail()), (Cause::Unknown { answer }, answer, None));
        }
    }
}
