//! The board of the trial: opened by the child and by the parent in turn, and its locks held, as the board counts them
//! along and as the image has them.

use std::error::Error;
use std::path::Path;
use zilpanud::{Board, BoardError, LOCKS};

/// The board in a file, recovered, or a new one.
pub fn opened(path: &Path, workers: usize) -> Result<Board, BoardError> {
    // SAFETY: the folder is the trial's own. A child is the only one to have its board until it is killed; the parent opens
    // it after that, and otherwise only reads the file.
    unsafe { Board::open_or_create(path, workers) }
}

/// How many locks are held; an error if the board's count is not that of its locks with an owner.
pub fn locks_held(board: &Board) -> Result<usize, Box<dyn Error>> {
    let (held, owned) = (board.locks_held(), (0..LOCKS).filter(|&lock| board.owner(lock).is_some()).count());
    match held == owned {
        true => Ok(held),
        false => Err(format!("{held} locks are counted as held, and {owned} have an owner").into()),
    }
}
