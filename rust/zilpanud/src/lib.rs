//! Safe calls of the Zilpanud engine, which is proved: cells that up to eight workers change in battery-kept memory,
//! where every section that was begun reaches its end exactly once, however often the power is cut.
//!
//! - A *board* has 512 *cells*, words of 64 bits. A *lock* guards eight of them.
//! - A *worker* is submitted a *section*: up to 64 instructions ([`code`]), under a number that rises from section to
//!   section. It carries the section out in *turns*, each of at most one store.
//! - After a cut, a *recovery* lets each begun section go on from its last store, and withdraws those not begun.
//!
//! [`Board`] keeps all of it in a file; a program of its own starts there:
//!
//! ```
//! use zilpanud::code::{acquire, finish, release, set};
//! use zilpanud::Board;
//!
//! # let path = std::env::temp_dir().join(format!("zilpanud-front-page-{}", std::process::id()));
//! # let _ = std::fs::remove_file(&path);
//! // Document 01's ticket: acquire lock 3; cell 24 := 5; release lock 3; finish.
//! let section = [acquire(3), set(24, 5), release(3), finish()];
//!
//! // SAFETY: nobody else writes to this file or shortens it.
//! let mut board = unsafe { Board::open_or_create(&path, 1) }?;
//! let number = board.submit_next(0, &[0; 8], &section)?;
//! board.run_to_idle()?;
//! assert_eq!((number, board.cell(24)), (1, Some(5)));
//! # drop(board);
//! # std::fs::remove_file(&path)?;
//! # Ok::<(), Box<dyn std::error::Error>>(())
//! ```
//!
//! To make and to open a board are the crate's only `unsafe` calls, since its file is mapped: what their caller owes stands
//! [there](Board#safety).
//!
//! The functions of this page are the engine's calls themselves, on an *image* that the caller keeps: a slice of
//! [`image_len`] words, with the [`Cursors`] of its workers beside it. They allocate nothing. Any arguments will do:
//! what is wrong with them is refused with a [`Cause`] of document 01.
//!
//! ```
//! use zilpanud::code::{acquire, finish, release, set};
//! use zilpanud::{End, Turn};
//!
//! let section = [acquire(3), set(24, 5), release(3), finish()];
//! let mut image = vec![0; zilpanud::image_len(1)];
//! let mut cursors = zilpanud::format(&mut image, 1)?;
//! zilpanud::submit(&mut image, &mut cursors, 0, 1, &[0; 8], &section)?;
//!
//! // Five turns: the acquire's intent, its lock, and the log entry that makes the section begun.
//! for index in [0x24e, 0x20b, 0x24c, 0x24d, 0x249] {
//!     let answer = zilpanud::turn(&mut image, &mut cursors, 0)?;
//!     assert_eq!(answer, Turn::Stored(index));
//! }
//! assert_eq!(cursors.locks_held(), 1);
//!
//! // The power goes and the cursors are lost. Recovery frees lock 3, takes it again and goes on at the logged store.
//! let mut cursors = zilpanud::recover(&mut image)?;
//! assert!(cursors.holds(3));
//! let run = zilpanud::run(&mut image, &mut cursors, 384)?;
//! assert_eq!((run.end, run.tally.turns, cursors.locks_held()), (End::AllIdle, 14, 0));
//! assert_eq!(image[zilpanud::cell_index(24)], 5);
//! assert_eq!(zilpanud::finished(&image, 0)?, 1);
//! # Ok::<(), zilpanud::Refusal>(())
//! ```
//!
//! A section is tested by two operations:
//!
//! - [`check`], without an image, before a worker is free: the first of causes 4 to 9 that the section fails, or that
//!   it passes. Its [`Fault`] says in a sentence what is wrong, and at which step.
//! - [`submit`], which tests causes 10, 1, 2 and 3, then does that very check, and then stores the section. A refusal
//!   with 4 to 9 is explained by `check` of the same section.
//!
//! [`held_sets`] says which locks are held before each step of a section. For a timetable, [`turns_from`] says how many
//! turns it needs from a step on, [`turns_left`] how many after a recovery, and [`turns_of_path`] how many it takes
//! where the steps that it goes through are known.
//!
//! For those who watch a board, [`day_sums`] says of a recorded day of frame lines how often each lock was waited for, and
//! of each worker how many turns waited and how many did not.
//!
//! For programs that show a board to people, [`Place`] says what stands at an index of an image, and [`Record`] has the
//! words of a worker's record.
//!
//! [`cut`] has the calls that store once more, with the number of stores that they may still make: so tests cut them.
//!
//! Document 01 is the paper that the engine follows; all that a user needs of it is in the repository's `docs/MANUAL.md`.
//! Its desk is a worker here, its ticket a section, its step an instruction, its bay a lock, its board word a cell; its
//! hand-in is a submit, and its working places are cursors.

#![deny(missing_docs, unsafe_op_in_unsafe_fn)]
#![warn(clippy::all, clippy::undocumented_unsafe_blocks)]

mod answers;
#[cfg(all(unix, target_pointer_width = "64"))]
mod board;
mod calls;
pub mod code;
pub mod cut;
mod day;
mod fault;
mod look;
mod raw;
mod refusal;
mod turns;
mod why;

pub use answers::{Cursors, End, Needs, Passing, Run, Standing, Tally, Turn};
#[cfg(all(unix, target_pointer_width = "64"))]
pub use board::{Board, BoardError};
pub use calls::{check, finished, format, held_sets, is_idle, recover, run, standing, submit, turn};
pub use code::instruction;
pub use day::{day_sums, DayEnd, DaySums};
pub use fault::Fault;
pub use look::{Entry, Place, Record, RecordWord};
pub use refusal::{Cause, Refusal, RefusedRun};
pub use turns::{turns_from, turns_left, turns_of_path};
pub use why::{Field, Why};

/// An image has 1 to 8 workers.
pub const WORKERS: usize = 8;

/// The cells of an image.
pub const CELLS: usize = 512;

/// The locks of an image. Lock l guards cells 8l to 8l + 7.
pub const LOCKS: usize = 64;

/// The most steps of a section; it has 3 at least.
pub const STEPS: usize = 64;

/// The version of the library that this crate was written for, as [`version`] says it.
pub const VERSION: u64 = 9_000;

/// The version of the library that is linked: 1,000,000 × major + 1,000 × minor + patch.
pub fn version() -> u64 {
    raw::zilpanud_version()
}

/// The words of an image of so many workers. (It has 1 to 8; for another number there is a length too, which ends at
/// the largest `usize`, and [`format()`] refuses it.)
pub const fn image_len(workers: usize) -> usize {
    workers.saturating_mul(82).saturating_add(584)
}

/// The index of a cell (document 01's board word), 0 to 511. (Another number is no cell's; the sum ends at the largest
/// `usize`.)
pub const fn cell_index(cell: usize) -> usize {
    cell.saturating_add(8)
}

/// The index of the owner word of a lock (document 01's bay), 0 to 63: 0 if it is free, w + 1 if worker w has it.
/// (Another number is no lock's; the sum ends at the largest `usize`.)
pub const fn owner_index(lock: usize) -> usize {
    lock.saturating_add(520)
}
