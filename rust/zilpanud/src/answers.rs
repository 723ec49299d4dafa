//! Answers, and the records that calls are lent.

use crate::{raw, LOCKS};

/// What a turn answers.
#[derive(Clone, Copy, PartialEq, Eq, Hash, Debug)]
pub enum Turn {
    /// One word was stored, at this index of the image.
    Stored(usize),
    /// The turn went on and had nothing to store.
    Passed(Passing),
    /// This lock is not free: its owner word is not 0. The worker stays where it is.
    Waiting(usize),
    /// The worker has no section to go on with.
    Idle,
}

/// Why a turn passed.
///
/// A release (document 01's drop) that frees its lock stores, and does not pass. Where only this engine changes the
/// image, one passes only where a recovery resumed it: its lock was freed before that or by it, and another worker may
/// have it by now.
#[derive(Clone, Copy, PartialEq, Eq, Hash, Debug)]
pub enum Passing {
    /// It was the turn of a jump (document 01's skip), which never stores.
    Jump,
    /// A release found its lock already free: the owner word is 0.
    AlreadyFree,
    /// A release found its lock another's: the owner word is neither 0 nor its own worker + 1. It may name no worker at
    /// all, in an image that something else changed.
    Others,
}

/// How a run ends.
#[derive(Clone, Copy, PartialEq, Eq, Hash, Debug)]
pub enum End {
    /// No worker has a section any more.
    AllIdle,
    /// All rounds are made and a worker is not idle.
    Spent,
}

/// What a run counts.
#[derive(Clone, Copy, PartialEq, Eq, Hash, Debug, Default)]
pub struct Tally {
    /// The turns of workers that were not idle.
    pub turns: u64,
    /// The turns that waited; they are in `turns` too.
    pub waits: u64,
    /// The words stored.
    pub stores: u64,
    /// The turns that passed with [`Passing::AlreadyFree`]; they are in `turns` too.
    pub already_free: u64,
    /// The turns that passed with [`Passing::Others`]; they are in `turns` too.
    pub others: u64,
}

/// A run that was not refused.
#[derive(Clone, Copy, PartialEq, Eq, Hash, Debug)]
pub struct Run {
    /// How it ended.
    pub end: End,
    /// What it counted.
    pub tally: Tally,
}

/// How a worker stands to the section of a number.
#[derive(Clone, Copy, PartialEq, Eq, Hash, Debug)]
pub enum Standing {
    /// Not submitted, or submitted and not begun: a recovery withdraws it.
    NotBegun,
    /// It will reach its end, whatever is cut.
    Begun,
    /// The worker's last finished number is this one or above it.
    Finished,
}

/// How many turns a section needs up to its end, the last turn of its finish included. Turns that wait come on top.
///
/// Which way a jump (document 01's skip) goes is not known before it is made, so there are two numbers, over both ways
/// of each. Where no jump lies ahead, they are the same.
#[derive(Clone, Copy, PartialEq, Eq, Hash, Debug)]
pub struct Needs {
    /// With the jumps that go the shortest way.
    pub fewest: u64,
    /// With those that go the longest.
    pub most: u64,
}

/// Where all workers stand (document 01's working record): a step and a turn for each, and beside them the locks held.
/// It is not in the image, and a cut loses it.
#[derive(Clone, Copy, PartialEq, Eq, Hash, Debug)]
pub struct Cursors {
    /// The step of each worker's section.
    pub step: [u8; 8],
    /// The turn of that step; 255 is idle.
    pub turn: [u8; 8],
    /// The locks held, by whichever worker: bit b is set while lock b is. An acquire's store of its lock's owner word
    /// sets the bit, and a release's store of 0 there clears it. No call goes by it.
    pub held: u64,
}

impl Cursors {
    /// All workers are idle, and no lock is held.
    pub const IDLE: Cursors = Cursors { step: [0; 8], turn: [255; 8], held: 0 };

    /// How many locks are held (document 02's question): the number of ones of [`held`](Cursors::held).
    ///
    /// In a list of submits, turns, runs and recoveries from one formatting on, each given the image and the cursors
    /// that the last one left, and a recovery next after each cut, it is after every uncut call the number of owner
    /// words that are not 0; the image need not be looked at.
    pub fn locks_held(&self) -> usize {
        raw::zilpanud_locks_held(self.held) as usize
    }

    /// Whether a lock, 0 to 63, is held; another number is no lock's.
    pub const fn holds(&self, lock: usize) -> bool {
        lock < LOCKS && self.held >> lock & 1 == 1
    }
}

impl Default for Cursors {
    fn default() -> Cursors {
        Cursors::IDLE
    }
}
