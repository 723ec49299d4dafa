//! What is wrong with a section, as data: worked out from its words and from its held sets, at the step and by the
//! cause that the check answered.

use crate::calls::held_sets;
use crate::code::{fields_of, lock_of, own, Kind};
use crate::{Cause, CELLS, LOCKS, STEPS};
use std::fmt;

/// What is wrong with a section, with the numbers that a program needs: at the [step](crate::Fault::step) of the
/// [`Fault`](crate::Fault) that gives it. Locks, word numbers and targets are the instruction's fields, as the
/// functions of [`code`](crate::code) take them. A `held` set is the one before the step, as [`held_sets`] gives it: a
/// mask, in which bit b is set if lock b is held.
#[derive(Clone, Copy, PartialEq, Eq, Hash, Debug)]
#[non_exhaustive]
pub enum Why {
    /// 4: a section has 3 to 64 steps.
    Length {
        /// How many this one has.
        count: usize,
    },
    /// 5: an instruction of no [`Kind`].
    NoKind {
        /// The number in its place.
        kind: u16,
    },
    /// 5: an acquire or a release names no lock, 0 to 63.
    NoLock {
        /// The number that it names.
        lock: u16,
    },
    /// 5: an instruction names no word, 0 to 519.
    NoWord {
        /// The first number of its fields, in the order a, b, c, that is no word's.
        word: u16,
    },
    /// 5: a jump goes to no later step of its section.
    NotLater {
        /// Where it goes.
        target: u16,
    },
    /// 5: a field is not 0, and is 0 for its kind.
    NotZero {
        /// The instruction's kind.
        kind: Kind,
        /// The first such field, in the order a, b, c.
        field: Field,
        /// What it has.
        value: u16,
    },
    /// 5: a finish is not the last step.
    FinishNotLast,
    /// 5: the last step is no finish.
    LastNoFinish,
    /// 6: the first step is no acquire.
    FirstNoAcquire,
    /// 6: a finish with locks held.
    HeldAtFinish {
        /// Those locks.
        held: u64,
    },
    /// 6: a step behind the first that is no finish, with no lock held.
    NothingHeld,
    /// 7: an acquire of a lock that is held.
    HeldAlready {
        /// The lock.
        lock: u16,
        /// The held set.
        held: u64,
    },
    /// 7: an acquire of a lock that is not held, and not above all that are.
    NotAbove {
        /// The lock.
        lock: u16,
        /// The highest that is held.
        highest: u16,
        /// The held set.
        held: u64,
    },
    /// 7: a release of a lock that is not held.
    NotHeld {
        /// The lock.
        lock: u16,
        /// The held set.
        held: u64,
    },
    /// 8: a cell whose lock is not held.
    Unguarded {
        /// The cell: the first such word number of the fields, in the order a, b, c.
        word: u16,
        /// The lock that guards it.
        lock: u16,
        /// The held set.
        held: u64,
    },
    /// 9: a jump to a step with another held set.
    Unlevel {
        /// The held set before the jump.
        held: u64,
        /// Where it goes.
        target: u16,
        /// The held set there.
        held_there: u64,
    },
    /// The words do not bear out what the library answered, or it answered none of 4 to 9. It is proved that they do,
    /// so another library is linked ([`version`](crate::version)) than the one that this crate was written for
    /// ([`VERSION`](crate::VERSION)).
    Unexplained,
}

/// A field of an instruction word.
#[derive(Clone, Copy, PartialEq, Eq, Hash, Debug)]
pub enum Field {
    /// The highest, behind the kind.
    A,
    /// The middle one.
    B,
    /// The lowest.
    C,
}

impl fmt::Display for Field {
    fn fmt(&self, f: &mut fmt::Formatter<'_>) -> fmt::Result {
        f.write_str(match self {
            Field::A => "a",
            Field::B => "b",
            Field::C => "c",
        })
    }
}

impl Why {
    /// What bears out a cause in a section.
    pub(crate) fn of(cause: Cause, section: &[u64]) -> Why {
        let borne_out = match cause {
            Cause::Length => length(section.len()),
            Cause::Malformed { step } => malformed(section, step),
            Cause::Unbracketed { step } => At::of(section, step).and_then(|at| at.unbracketed()),
            Cause::Unordered { step } => At::of(section, step).and_then(|at| at.unordered()),
            Cause::Unguarded { step } => At::of(section, step).and_then(|at| at.unguarded()),
            Cause::Unlevel { step } => At::of(section, step).and_then(|at| at.unlevel()),
            _ => None,
        };
        borne_out.unwrap_or(Why::Unexplained)
    }
}

fn length(count: usize) -> Option<Why> {
    (!(3..=STEPS).contains(&count)).then_some(Why::Length { count })
}

/// What a field of a kind may be.
#[derive(Clone, Copy)]
enum Range {
    Lock,
    Word,
    Later,
    Zero,
    Any,
}

/// The ranges of a kind's fields a, b, c, as in document 01's table.
const fn ranges(kind: Kind) -> [Range; 3] {
    use Range::*;
    match kind {
        Kind::Acquire | Kind::Release => [Lock, Zero, Zero],
        Kind::Set => [Word, Any, Any],
        Kind::Add | Kind::Subtract | Kind::Less => [Word, Word, Word],
        Kind::Jump => [Word, Later, Zero],
        Kind::Finish => [Zero, Zero, Zero],
    }
}

fn malformed(section: &[u64], step: usize) -> Option<Why> {
    let (number, fields) = fields_of(*section.get(step)?);
    let Some(kind) = Kind::of(number) else {
        return Some(Why::NoKind { kind: number });
    };
    let count = section.len();
    let field_wrong = [Field::A, Field::B, Field::C].into_iter().zip(fields).zip(ranges(kind)).find_map(
        |((field, value), range)| match range {
            Range::Lock if value as usize >= LOCKS => Some(Why::NoLock { lock: value }),
            Range::Word if value > LAST_WORD => Some(Why::NoWord { word: value }),
            Range::Later if value as usize <= step || value as usize >= count => {
                Some(Why::NotLater { target: value })
            }
            Range::Zero if value != 0 => Some(Why::NotZero { kind, field, value }),
            _ => None,
        },
    );
    let (finishes, is_last) = (kind == Kind::Finish, step + 1 == count);
    let place_wrong = match (finishes, is_last) {
        (true, false) => Some(Why::FinishNotLast),
        (false, true) => Some(Why::LastNoFinish),
        _ => None,
    };
    field_wrong.or(place_wrong)
}

/// The last of the worker's own words.
const LAST_WORD: u16 = own(7);

/// Whether a held set has a lock.
const fn has(held: u64, lock: u16) -> bool {
    lock < LOCKS as u16 && held >> lock & 1 == 1
}

/// A step of a section that has held sets.
struct At {
    step: usize,
    kind: Kind,
    fields: [u16; 3],
    sets: [u64; STEPS],
    /// The set before the step.
    held: u64,
}

impl At {
    fn of(section: &[u64], step: usize) -> Option<At> {
        let (number, fields) = fields_of(*section.get(step)?);
        let sets = held_sets(section).ok()?;
        Some(At { step, kind: Kind::of(number)?, fields, sets, held: *sets.get(step)? })
    }

    fn unbracketed(&self) -> Option<Why> {
        let held = self.held;
        match self.kind {
            _ if self.step == 0 => (self.kind != Kind::Acquire).then_some(Why::FirstNoAcquire),
            Kind::Finish => (held != 0).then_some(Why::HeldAtFinish { held }),
            _ => (held == 0).then_some(Why::NothingHeld),
        }
    }

    fn unordered(&self) -> Option<Why> {
        let (held, lock) = (self.held, self.fields[0]);
        match self.kind {
            Kind::Acquire if has(held, lock) => Some(Why::HeldAlready { lock, held }),
            Kind::Acquire => {
                let highest = held.checked_ilog2()? as u16;
                (lock < highest).then_some(Why::NotAbove { lock, highest, held })
            }
            Kind::Release => (!has(held, lock)).then_some(Why::NotHeld { lock, held }),
            _ => None,
        }
    }

    fn unguarded(&self) -> Option<Why> {
        let held = self.held;
        let words = match self.kind {
            Kind::Add | Kind::Subtract | Kind::Less => &self.fields[..],
            Kind::Set | Kind::Jump => &self.fields[..1],
            Kind::Acquire | Kind::Release | Kind::Finish => &[],
        };
        let unguarded = |word: &u16| (*word as usize) < CELLS && !has(held, lock_of(*word));
        let word = words.iter().copied().find(unguarded)?;
        Some(Why::Unguarded { word, lock: lock_of(word), held })
    }

    fn unlevel(&self) -> Option<Why> {
        let (held, target) = (self.held, self.fields[1]);
        let held_there = *self.sets.get(target as usize)?;
        (self.kind == Kind::Jump && held != held_there).then_some(Why::Unlevel { held, target, held_there })
    }
}
