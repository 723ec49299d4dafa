//! The day that is under way on a board: kept beside it, as `BOARD.day`, from its first store to its last. It has the
//! board as the day found it and the day itself, so that a day that was cut can be played on.

use crate::trouble::Trouble;
use std::ffi::OsString;
use std::fs::{self, File};
use std::io::{self, ErrorKind, Write};
use std::path::{Path, PathBuf};

const MARK: &[u8; 8] = b"stowday1";

/// A day that was begun on a board.
#[derive(Clone, PartialEq, Eq, Debug)]
pub struct Underway {
    /// The board as the day found it.
    pub start: Vec<u64>,
    pub day: Vec<u8>,
}

/// `harbour.board.day`
pub fn path(board: &Path) -> PathBuf {
    let mut name: OsString = board.as_os_str().to_os_string();
    name.push(".day");
    name.into()
}

impl Underway {
    fn bytes(&self) -> Vec<u8> {
        let mut bytes = MARK.to_vec();
        bytes.extend((self.start.len() as u64).to_ne_bytes());
        bytes.extend(self.start.iter().flat_map(|word| word.to_ne_bytes()));
        bytes.extend(&self.day);
        bytes
    }

    fn of(bytes: &[u8]) -> Option<Underway> {
        let (len, rest) = bytes.strip_prefix(MARK)?.split_first_chunk()?;
        let len = usize::try_from(u64::from_ne_bytes(*len)).ok()?;
        let (words, day) = rest.split_at_checked(len.checked_mul(8)?)?;
        let start = words.as_chunks().0.iter().map(|word| u64::from_ne_bytes(*word)).collect();
        Some(Underway { start, day: day.to_vec() })
    }

    /// The day under way on a board; none if there is none.
    pub fn read(board: &Path) -> Result<Option<Underway>, Trouble> {
        let path = path(board);
        match fs::read(&path) {
            Err(error) if error.kind() == ErrorKind::NotFound => Ok(None),
            Err(error) => Err(Trouble::file(&path, &error)),
            Ok(bytes) => match Underway::of(&bytes) {
                Some(begun) => Ok(Some(begun)),
                None => {
                    let what = format!("{}: this is no day under way, or a damaged one", path.display());
                    let remedy = "  look at the board, and remove that file when it is right".to_string();
                    Err(Trouble::Wrong(vec![what, remedy]))
                }
            },
        }
    }

    /// Keeps it: whole or not at all, and on the disk before the day's first store.
    pub fn keep(&self, board: &Path) -> Result<(), Trouble> {
        let path = path(board);
        let mut other = path.clone().into_os_string();
        other.push(".new");
        let kept = written(Path::new(&other), &self.bytes()).and_then(|()| fs::rename(&other, &path));
        kept.map_err(|error| Trouble::file(&path, &error))
    }
}

fn written(path: &Path, bytes: &[u8]) -> io::Result<()> {
    let mut file = File::create(path)?;
    file.write_all(bytes)?;
    file.sync_all()
}

/// The day is over.
pub fn remove(board: &Path) -> Result<(), Trouble> {
    let path = path(board);
    fs::remove_file(&path).map_err(|error| Trouble::file(&path, &error))
}

#[cfg(test)]
mod tests {
    use super::*;

    #[test]
    fn bytes_there_and_back() {
        for begun in [
            Underway { start: vec![], day: vec![] },
            Underway { start: vec![1, u64::MAX], day: b"01\n03\n".to_vec() },
        ] {
            let bytes = begun.bytes();
            assert_eq!(Underway::of(&bytes), Some(begun.clone()));
            for short in 0..16 + 8 * begun.start.len() {
                assert_eq!(Underway::of(&bytes[..short]), None);
            }
        }
        let huge = [&MARK[..], &[0xff; 8], &[0; 64]].concat();
        assert_eq!(Underway::of(&huge), None);
    }
}
