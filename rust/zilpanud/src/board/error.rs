//! Why there is no board.

use crate::{image_len, Refusal, VERSION, WORKERS};
use std::error::Error;
use std::fmt;
use std::io;
use std::path::{Path, PathBuf};

/// Why a board was not made or opened. Each says which file; one that was there is as it was, and none is there that was
/// not, but where the text says that it could not be removed.
#[derive(Debug)]
#[non_exhaustive]
pub enum BoardError {
    /// The system refused something.
    Io {
        /// What was to be done with the file: "opened", "locked" and the like.
        action: &'static str,
        /// The file.
        path: PathBuf,
        /// What the system says.
        source: io::Error,
    },
    /// A board is to be made where there is a file already.
    Exists {
        /// The file.
        path: PathBuf,
    },
    /// Another process has the board open, or this one has it open already.
    InUse {
        /// The file.
        path: PathBuf,
    },
    /// The file is not as long as a board of 1 to 8 workers: 4,672 bytes, and 656 for each.
    Length {
        /// The file.
        path: PathBuf,
        /// Its length.
        bytes: u64,
    },
    /// The board was made for another number of workers than is asked for.
    Workers {
        /// The file.
        path: PathBuf,
        /// The workers that it has.
        found: usize,
        /// The workers asked for.
        asked: usize,
    },
    /// Another version of the library is linked than the one that this crate was written for
    /// ([`VERSION`]).
    Version {
        /// The file.
        path: PathBuf,
        /// The version of the library, as [`version`](crate::version) says it.
        linked: u64,
    },
    /// The engine refused: the recovery of a file with causes 10, 12 or 13, the formatting of a new one with 10.
    Refused {
        /// The file.
        path: PathBuf,
        /// Why.
        refusal: Refusal,
    },
}

impl BoardError {
    /// What was to be done with a file, for `map_err`.
    pub(super) fn io(action: &'static str, path: &Path) -> impl FnOnce(io::Error) -> BoardError {
        let path = path.to_path_buf();
        move |source| BoardError::Io { action, path, source }
    }

    /// The refusal of a call on a file's image, for `map_err`.
    pub(super) fn refused(path: &Path) -> impl FnOnce(Refusal) -> BoardError {
        let path = path.to_path_buf();
        move |refusal| BoardError::Refused { path, refusal }
    }

    /// Whether there was no file to open.
    pub(super) fn is_not_found(&self) -> bool {
        matches!(self, BoardError::Io { source, .. } if source.kind() == io::ErrorKind::NotFound)
    }

    /// The file.
    pub fn path(&self) -> &Path {
        match self {
            BoardError::Io { path, .. }
            | BoardError::Exists { path }
            | BoardError::InUse { path }
            | BoardError::Length { path, .. }
            | BoardError::Workers { path, .. }
            | BoardError::Version { path, .. }
            | BoardError::Refused { path, .. } => path,
        }
    }
}

/// Whether this is the version that the crate was written for; else the error of a board that is not made or opened.
pub(super) fn same_version(linked: u64, path: &Path) -> Result<(), BoardError> {
    match linked == VERSION {
        true => Ok(()),
        false => Err(BoardError::Version { path: path.to_path_buf(), linked }),
    }
}

/// A version as it is written: major, minor and patch.
fn dotted(version: u64) -> String {
    format!("{}.{}.{}", version / 1_000_000, version / 1_000 % 1_000, version % 1_000)
}

/// The lengths that a board can have, in bytes.
fn lengths() -> String {
    let bytes: Vec<String> = (1..=WORKERS).map(|n| (8 * image_len(n)).to_string()).collect();
    bytes.join(", ")
}

impl fmt::Display for BoardError {
    fn fmt(&self, f: &mut fmt::Formatter<'_>) -> fmt::Result {
        write!(f, "{}: ", self.path().display())?;
        match self {
            BoardError::Io { action, source, .. } => write!(f, "cannot be {action}: {source}"),
            BoardError::Exists { .. } => {
                write!(f, "there is a file already; open it, or make the board elsewhere")
            }
            BoardError::InUse { .. } => {
                write!(f, "another process has this board open, or this one has it open already")
            }
            BoardError::Length { bytes, .. } => {
                write!(f, "{bytes} bytes are no board; one of 1 to {WORKERS} workers has {}", lengths())
            }
            BoardError::Workers { found, asked, .. } => {
                write!(f, "the board has {found} workers, and {asked} are asked for")
            }
            BoardError::Version { linked, .. } => write!(
                f,
                "the library that is linked is {}, and this wrapper was written for {}; link that one",
                dotted(*linked),
                dotted(VERSION)
            ),
            BoardError::Refused { refusal, .. } => write!(f, "{refusal}"),
        }
    }
}

impl Error for BoardError {
    fn source(&self) -> Option<&(dyn Error + 'static)> {
        match self {
            BoardError::Io { source, .. } => Some(source),
            BoardError::Refused { refusal, .. } => Some(refusal),
            _ => None,
        }
    }
}

#[cfg(test)]
mod tests {
    use super::*;

    #[test]
    fn another_version_has_no_board() {
        let path = Path::new("harbour.board");
        assert!(same_version(crate::version(), path).is_ok());
        for linked in [0, 7_000, VERSION - 1, VERSION + 1, 1_002_003, u64::MAX] {
            let error = same_version(linked, path).unwrap_err();
            assert!(matches!(error, BoardError::Version { linked: found, .. } if found == linked));
            assert_eq!(error.path(), path);
        }
        let error = same_version(1_002_003, path).unwrap_err().to_string();
        assert!(error.starts_with("harbour.board: the library that is linked is 1.2.3, and"), "{error}");
    }

    #[test]
    fn the_version_is_the_package_s() {
        assert_eq!(dotted(VERSION), env!("CARGO_PKG_VERSION"));
    }
}
