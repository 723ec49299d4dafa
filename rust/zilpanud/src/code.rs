//! Instruction words, by kind.
//!
//! A section is a slice of them. It starts with an [`acquire`] and ends with its only [`finish`]; locks are acquired in
//! rising order, at least one is held before each step in between, and none at the finish. Steps count from 0.
//!
//! A *word number* names what an instruction works on: 0 to 511 a cell, whose lock ([`lock_of`]) must be held, and 512
//! to 519 the worker's own words ([`own`]), which are the section's arguments when it starts. Words are unsigned; a sum
//! stops at 2^64 − 1 and a difference at 0 ([`add`], [`sub`]).
//!
//! Nothing is tested here: a field that its kind does not have is put into the word as it is, and the check of a
//! section ([`check`](crate::check), or a submit, which does it too) refuses the step with
//! [`Cause::Malformed`](crate::Cause::Malformed).
//!
//! ```
//! use zilpanud::code::{acquire, add, finish, jump_if_zero, less, lock_of, own, release, sub};
//!
//! // Moves own word 0 from cell 24 to cell 40, if cell 24 has more than that.
//! let (from, to, amount) = (24, 40, own(0));
//! let section = [
//!     acquire(lock_of(from)),
//!     acquire(lock_of(to)),
//!     less(own(1), amount, from),
//!     jump_if_zero(own(1), 6),
//!     sub(from, from, amount),
//!     add(to, to, amount),
//!     release(lock_of(to)), // step 6
//!     release(lock_of(from)),
//!     finish(),
//! ];
//! zilpanud::check(&section)?;
//! # Ok::<(), zilpanud::Refusal>(())
//! ```

/// The kinds of instructions, with document 01's numbers.
#[derive(Clone, Copy, PartialEq, Eq, Hash, Debug)]
#[repr(u16)]
pub enum Kind {
    /// A lock is acquired (document 01's take). 6 turns, and those that wait.
    Acquire = 1,
    /// A lock is released (its drop). 6 turns.
    Release = 2,
    /// A word is set to a number. 4 turns.
    Set = 3,
    /// A word becomes the sum of two. 4 turns.
    Add = 4,
    /// A word becomes the difference of two. 4 turns.
    Subtract = 5,
    /// A word becomes 1 or 0: whether one is below another. 4 turns.
    Less = 6,
    /// The section goes on at a later step if a word is 0 (its skip). 1 turn.
    Jump = 7,
    /// The section ends (its end). 3 turns.
    Finish = 8,
}

impl Kind {
    /// The kind of a number, 1 to 8; another number is no kind's.
    pub const fn of(number: u16) -> Option<Kind> {
        Some(match number {
            1 => Kind::Acquire,
            2 => Kind::Release,
            3 => Kind::Set,
            4 => Kind::Add,
            5 => Kind::Subtract,
            6 => Kind::Less,
            7 => Kind::Jump,
            8 => Kind::Finish,
            _ => return None,
        })
    }
}

/// An instruction word of a kind's number, with its three fields.
pub const fn instruction(kind: u16, a: u16, b: u16, c: u16) -> u64 {
    (kind as u64) << 48 | (a as u64) << 32 | (b as u64) << 16 | c as u64
}

/// The number of an instruction word's kind, and its fields a, b, c.
pub const fn fields_of(word: u64) -> (u16, [u16; 3]) {
    ((word >> 48) as u16, [(word >> 32) as u16, (word >> 16) as u16, word as u16])
}

/// Acquires a lock, 0 to 63, that is above all locks held; the worker waits while another has it.
pub const fn acquire(lock: u16) -> u64 {
    instruction(Kind::Acquire as u16, lock, 0, 0)
}

/// Releases a lock that is held.
pub const fn release(lock: u16) -> u64 {
    instruction(Kind::Release as u16, lock, 0, 0)
}

/// `word := value`.
pub const fn set(word: u16, value: u32) -> u64 {
    instruction(Kind::Set as u16, word, (value >> 16) as u16, value as u16)
}

/// `word := a + b`. It stops at the largest word, 2^64 − 1, as `saturating_add` does. That it has stopped is kept
/// nowhere: what is subtracted then is subtracted from there.
pub const fn add(word: u16, a: u16, b: u16) -> u64 {
    instruction(Kind::Add as u16, word, a, b)
}

/// `word := a − b`. It stops at 0, as `saturating_sub` does; so a move whose subtraction stops gives more than it takes.
/// Compare first ([`less`]) where that matters, as the section [above](self) does.
pub const fn sub(word: u16, a: u16, b: u16) -> u64 {
    instruction(Kind::Subtract as u16, word, a, b)
}

/// `word := 1` if `a` is below `b`, else 0.
pub const fn less(word: u16, a: u16, b: u16) -> u64 {
    instruction(Kind::Less as u16, word, a, b)
}

/// If `word` is 0 the section goes on at `step`, a later one before which the same locks are held; else at the next.
pub const fn jump_if_zero(word: u16, step: u16) -> u64 {
    instruction(Kind::Jump as u16, word, step, 0)
}

/// Ends the section: its last step, and no other.
pub const fn finish() -> u64 {
    instruction(Kind::Finish as u16, 0, 0, 0)
}

/// The word number of own word i, 0 to 7: 512 + i. For a larger i it names no word, and the check refuses the step.
pub const fn own(i: u16) -> u16 {
    512u16.saturating_add(i)
}

/// The lock that guards a cell: each lock guards eight.
pub const fn lock_of(cell: u16) -> u16 {
    cell / 8
}
