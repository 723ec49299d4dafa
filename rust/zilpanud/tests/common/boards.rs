//! Boards of a test: each file is in a folder of its own, and is written by no other way while its board is open.

use std::path::Path;
use zilpanud::{Board, BoardError};

pub fn create(path: impl AsRef<Path>, workers: usize) -> Result<Board, BoardError> {
    // SAFETY: here and below, by what is said above.
    unsafe { Board::create(path, workers) }
}

pub fn open(path: impl AsRef<Path>) -> Result<Board, BoardError> {
    // SAFETY: as above.
    unsafe { Board::open(path) }
}

pub fn open_or_create(path: impl AsRef<Path>, workers: usize) -> Result<Board, BoardError> {
    // SAFETY: as above.
    unsafe { Board::open_or_create(path, workers) }
}

/// With what is looked at before the board is recovered.
pub fn looking<T>(
    path: impl AsRef<Path>,
    workers: usize,
    look: impl FnOnce(&[u64]) -> Result<T, BoardError>,
) -> Result<(Board, T), BoardError> {
    // SAFETY: as above.
    unsafe { Board::open_or_create_looking(path, workers, look) }
}
