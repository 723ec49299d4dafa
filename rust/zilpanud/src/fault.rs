//! What the check finds wrong with a section, and the sentence that says it to a planner.

use crate::{Cause, Refusal, Why};
use std::error::Error;
use std::fmt;

/// What the [check](crate::check) of a section finds wrong with it: the first of document 01's causes 4 to 9 in that
/// paper's order, the step at which it is so, and what is wrong there.
///
/// [`cause`](Fault::cause) and [`step`](Fault::step) are the library's answer, and what a submit to an idle worker is
/// refused with; [`why`](Fault::why) has the numbers beside it, for a program. As text it is one sentence in the words
/// of the papers, for the planner who wrote the section as a ticket:
///
/// ```
/// use zilpanud::code::{acquire, finish, release, set};
/// use zilpanud::{Cause, Why};
///
/// // Cell 32 is guarded by lock 4 (document 01's word 32, in bay 4), and lock 3 alone is held.
/// let section = [acquire(3), set(32, 5), release(3), finish()];
/// let fault = zilpanud::check(&section).unwrap_err();
/// assert_eq!((fault.cause(), fault.step()), (Cause::Unguarded { step: 1 }, Some(1)));
/// assert_eq!(fault.why(), Why::Unguarded { word: 32, lock: 4, held: 1 << 3 });
/// assert_eq!(fault.to_string(), "word 32 is in bay 4, which is not held at step 1");
/// ```
///
/// `?` turns it into a [`Refusal`], which keeps the cause with its step:
///
/// ```
/// use zilpanud::code::{acquire, finish};
/// use zilpanud::{Cause, Refusal};
///
/// fn passes(section: &[u64]) -> Result<(), Refusal> {
///     Ok(zilpanud::check(section)?)
/// }
/// assert_eq!(passes(&[acquire(3), finish()]), Err(Refusal(Cause::Length)));
/// ```
#[derive(Clone, Copy, PartialEq, Eq, Hash, Debug)]
pub struct Fault {
    cause: Cause,
    why: Why,
}

impl Fault {
    /// The fault of an answer of the check that is not 'passes', with its detail.
    #[cold]
    pub(crate) fn of(answer: u64, detail: u64, section: &[u64]) -> Fault {
        let Refusal(cause) = Refusal::of(answer, detail);
        Fault { cause, why: Why::of(cause, section) }
    }

    /// The cause, 4 to 9, as the library gave it. (Another library's answer may be [another](Why::Unexplained).)
    pub const fn cause(self) -> Cause {
        self.cause
    }

    /// The step of causes 5 to 9, from 0, as the library gave it; cause 4 has none.
    pub const fn step(self) -> Option<usize> {
        match self.cause {
            Cause::Malformed { step }
            | Cause::Unbracketed { step }
            | Cause::Unordered { step }
            | Cause::Unguarded { step }
            | Cause::Unlevel { step } => Some(step),
            _ => None,
        }
    }

    /// What is wrong there, with its numbers.
    pub const fn why(self) -> Why {
        self.why
    }
}

impl Error for Fault {}

/// Keeps the cause with its step, so that `?` does in a function that returns a [`Refusal`].
impl From<Fault> for Refusal {
    fn from(fault: Fault) -> Refusal {
        Refusal(fault.cause)
    }
}

/// One sentence in the words of the papers (bay, word, ticket, take, drop, skip, end), without a full stop. Where
/// [`why`](Fault::why) is [`Unexplained`](Why::Unexplained), it is the cause's own text.
impl fmt::Display for Fault {
    fn fmt(&self, f: &mut fmt::Formatter<'_>) -> fmt::Result {
        match (self.why, self.step()) {
            (Why::Length { count }, _) => write!(f, "a ticket has 3 to 64 steps, and this one has {count}"),
            (Why::Unexplained, _) | (_, None) => self.cause.fmt(f),
            (why, Some(step)) => said(f, why, step),
        }
    }
}

/// The sentence of a fault that has a step.
fn said(f: &mut fmt::Formatter<'_>, why: Why, s: usize) -> fmt::Result {
    match why {
        Why::NoKind { kind } => write!(f, "step {s} has kind {kind}, and the kinds are 1 to 8"),
        Why::NoLock { lock } => write!(f, "step {s} names bay {lock}, and the bays are 0 to 63"),
        Why::NoWord { word } => write!(f, "step {s} names word {word}, and the words are 0 to 519"),
        Why::NotLater { target } => {
            write!(f, "step {s} skips to step {target}, and a skip goes to a later step of its ticket")
        }
        Why::NotZero { kind, field, value } => {
            write!(f, "step {s} has {value} in field {field}, which is 0 for kind {}", kind as u16)
        }
        Why::FinishNotLast => write!(f, "step {s} ends the ticket, and is not its last step"),
        Why::LastNoFinish => write!(f, "step {s} is the last, and does not end the ticket"),
        Why::FirstNoAcquire => write!(f, "step {s} takes no bay, and a ticket starts by taking one"),
        Why::HeldAtFinish { held } => write!(f, "step {s} ends the ticket with {} held", Bays(held)),
        Why::NothingHeld => write!(f, "no bay is held at step {s}, which is not the end"),
        Why::HeldAlready { lock, .. } => write!(f, "bay {lock} is held already at step {s}, which takes it"),
        Why::NotAbove { lock, highest, .. } => {
            write!(f, "bay {lock} is below bay {highest}, which is held at step {s}")
        }
        Why::NotHeld { lock, .. } => write!(f, "bay {lock} is not held at step {s}, which drops it"),
        Why::Unguarded { word, lock, .. } => {
            write!(f, "word {word} is in bay {lock}, which is not held at step {s}")
        }
        Why::Unlevel { held, target, held_there } => {
            let (here, there) = (Bays(held), Bays(held_there));
            write!(f, "step {s} has {here} held and skips to step {target}, which has {there} held")
        }
        // told by `fmt`
        Why::Length { .. } | Why::Unexplained => Ok(()),
    }
}

/// The locks of a mask as a planner reads them: `no bay`, `bay 3`, `bays 3 and 5`, `bays 3, 5 and 9`.
struct Bays(u64);

impl fmt::Display for Bays {
    fn fmt(&self, f: &mut fmt::Formatter<'_>) -> fmt::Result {
        let Bays(mut rest) = *self;
        f.write_str(match rest.count_ones() {
            0 => "no bay",
            1 => "bay",
            _ => "bays",
        })?;
        let mut before = " ";
        while rest != 0 {
            write!(f, "{before}{}", rest.trailing_zeros())?;
            rest &= rest - 1; // without its lowest
            before = if rest.is_power_of_two() { " and " } else { ", " };
        }
        Ok(())
    }
}

#[cfg(test)]
mod tests {
    use super::*;
    use crate::code::{acquire, finish, jump_if_zero, release, set};

    const PASSING: [u64; 5] = [acquire(3), set(24, 5), jump_if_zero(24, 3), release(3), finish()];

    /// What the library is proved not to answer: the words do not bear it out, and the cause speaks for itself.
    fn unexplained(answer: u64, detail: u64, section: &[u64]) {
        let fault = Fault::of(answer, detail, section);
        let Refusal(cause) = Refusal::of(answer, detail);
        assert_eq!((fault.cause(), fault.why()), (cause, Why::Unexplained), "{section:x?}");
        assert_eq!(fault.to_string(), cause.to_string());
        let step = (5..=9).contains(&answer).then_some(detail as usize);
        assert_eq!(fault.step(), step);
    }

    #[test]
    fn a_section_that_passes_bears_no_cause_out() {
        for answer in 4..=9 {
            for step in [0, 1, 2, 3, 4, 5, 63, 64, 65, 1 << 32, u64::MAX] {
                unexplained(answer, step, &PASSING);
            }
        }
    }

    #[test]
    fn other_answers_are_unexplained() {
        for answer in (1..=3).chain(10..=36).chain([u64::MAX]) {
            unexplained(answer, 1, &PASSING);
            unexplained(answer, 0, &[]);
        }
    }

    /// Causes 6 to 9 need held sets, and a malformed section has none; a wrong step there is another's fault.
    #[test]
    fn a_malformed_section_bears_out_5_alone() {
        let section = [acquire(64), set(32, 5), jump_if_zero(24, 3), release(63), finish()];
        for answer in 6..=9 {
            for step in 0..6 {
                unexplained(answer, step, &section);
            }
        }
        for step in 1..6 {
            unexplained(5, step, &section);
        }
        assert_eq!(Fault::of(5, 0, &section).why(), Why::NoLock { lock: 64 });
    }

    #[test]
    fn bays_of_a_mask() {
        let texts = [
            (0, "no bay"),
            (1, "bay 0"),
            (1 << 63, "bay 63"),
            (1 << 3 | 1 << 5, "bays 3 and 5"),
            (1 | 1 << 63, "bays 0 and 63"),
            (1 << 3 | 1 << 5 | 1 << 9, "bays 3, 5 and 9"),
            (0xf, "bays 0, 1, 2 and 3"),
        ];
        for (mask, text) in texts {
            assert_eq!(Bays(mask).to_string(), text);
        }
        let all = Bays(u64::MAX).to_string();
        assert!(all.starts_with("bays 0, 1, 2, ") && all.ends_with(", 61, 62 and 63"), "{all}");
    }
}
