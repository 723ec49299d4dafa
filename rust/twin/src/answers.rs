//! What calls answer, and what a run counts.

/// A cause's number and the step, desk or bay returned with it (0 where none is).
#[derive(Clone, Copy, PartialEq, Eq, Debug)]
pub struct Refusal {
    pub number: u8,
    pub at: u8,
}

pub(crate) const fn no(number: u8, at: usize) -> Refusal {
    Refusal { number, at: at as u8 }
}

#[derive(Clone, Copy, PartialEq, Eq, Debug)]
pub enum Answer {
    Stored(usize),
    Passed(Passing),
    Waiting(u8),
    Idle,
}

/// Why a turn passed; the numbers are the detail that the answer has outside of Rust.
#[derive(Clone, Copy, PartialEq, Eq, Debug)]
pub enum Passing {
    /// A skip, which has no report.
    Jump = 0,
    /// A drop found its bay's lock word 0.
    AlreadyFree = 1,
    /// A drop found a lock word that is neither 0 nor its own desk's.
    Others = 2,
}

/// What freeing a lock word in a drop says of it.
#[derive(Clone, Copy, PartialEq, Eq, Debug)]
pub enum Report {
    Freed,
    AlreadyFree,
    Others,
}

/// The report of a lock word to desk d. A word that names no desk at all is another's too.
#[inline(always)]
pub fn report(lock: u64, d: usize) -> Report {
    match lock {
        0 => Report::AlreadyFree,
        _ if lock == d as u64 + 1 => Report::Freed,
        _ => Report::Others,
    }
}

impl Report {
    /// How the drop's turn passes; freed is told by the stored answer instead.
    #[inline(always)]
    pub(crate) fn passing(self) -> Option<Passing> {
        match self {
            Report::Freed => None,
            Report::AlreadyFree => Some(Passing::AlreadyFree),
            Report::Others => Some(Passing::Others),
        }
    }
}

#[derive(Clone, Copy, PartialEq, Eq, Debug)]
pub enum End {
    Idle,
    Spent,
}

#[derive(Clone, Copy, PartialEq, Eq, Debug, Default)]
pub struct Tally {
    pub turns: u64,
    pub waits: u64,
    pub stores: u64,
    /// Drops' turns that passed with the report already free; like all passed turns they count in `turns`.
    pub already_free: u64,
    /// Those with another's.
    pub others: u64,
}

/// How a desk stands to the ticket of a number.
#[derive(Clone, Copy, PartialEq, Eq, Debug)]
pub enum Standing {
    NotBegun,
    Begun,
    Finished,
}
