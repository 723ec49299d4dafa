//! A board's file: made whole or not at all, and locked before it is looked at.

use super::BoardError;
use crate::{image_len, WORKERS};
use std::ffi::OsString;
use std::fs::{self, File, TryLockError};
use std::io::{self, ErrorKind, Write};
use std::os::unix::fs::FileExt;
use std::path::{Path, PathBuf};
use std::process;

/// Locks a file for this process, for as long as it is open. A killed process's lock goes with it.
fn lock(file: &File, path: &Path) -> Result<(), BoardError> {
    match file.try_lock() {
        Ok(()) => Ok(()),
        Err(TryLockError::WouldBlock) => Err(BoardError::InUse { path: path.to_path_buf() }),
        Err(TryLockError::Error(source)) => Err(BoardError::io("locked", path)(source)),
    }
}

/// Opens and locks a file that is there.
pub fn open(path: &Path) -> Result<File, BoardError> {
    let opened = File::options().read(true).write(true).open(path);
    let file = opened.map_err(BoardError::io("opened", path))?;
    lock(&file, path)?;
    Ok(file)
}

/// The number of workers of a file that is locked: its length says it.
pub fn workers(file: &File, path: &Path) -> Result<usize, BoardError> {
    let bytes = file.metadata().map_err(BoardError::io("measured", path))?.len();
    let found = (1..=WORKERS).find(|&workers| 8 * image_len(workers) as u64 == bytes);
    found.ok_or_else(|| BoardError::Length { path: path.to_path_buf(), bytes })
}

/// Writes the bytes of a board's file once more where they stand. So a hole gets its room on the disk here, or the error
/// says that there is none; a store into a mapped hole would end the process there.
pub fn fill_holes(file: &File, path: &Path, workers: usize) -> Result<(), BoardError> {
    let mut bytes = vec![0; 8 * image_len(workers)];
    let read = file.read_exact_at(&mut bytes, 0);
    let written = read.and_then(|()| file.write_all_at(&bytes, 0));
    written.map_err(BoardError::io("given its room on the disk", path))
}

/// A file under a name of its own beside the path, which goes away with this value; if the process is killed, it stays.
struct Temporary(PathBuf);

impl Temporary {
    /// The names are the path's with the process's number, and a further one since a process of that number may have
    /// been killed here.
    fn beside(path: &Path) -> io::Result<(Temporary, File)> {
        let name = path.file_name().ok_or_else(|| io::Error::from(ErrorKind::InvalidFilename))?;
        let mut further = 0u64;
        loop {
            let mut own: OsString = name.to_os_string();
            own.push(format!(".{}-{further}.new", process::id()));
            let own = path.with_file_name(own);
            match File::options().read(true).write(true).create_new(true).open(&own) {
                Ok(file) => return Ok((Temporary(own), file)),
                Err(error) if error.kind() == ErrorKind::AlreadyExists => further += 1,
                Err(error) => return Err(error),
            }
        }
    }
}

impl Drop for Temporary {
    fn drop(&mut self) {
        let _ = fs::remove_file(&self.0); // a name that stays is in nobody's way
    }
}

/// Gives the file its name, unless there is one already.
fn name(temporary: &Temporary, path: &Path) -> Result<(), BoardError> {
    fs::hard_link(&temporary.0, path).map_err(|source| match source.kind() {
        ErrorKind::AlreadyExists => BoardError::Exists { path: path.to_path_buf() },
        _ => BoardError::io("given its name", path)(source),
    })
}

/// Keeps the name of a new file on the disk.
pub fn sync_folder(path: &Path) -> io::Result<()> {
    let folder = match path.parent() {
        Some(folder) if folder != Path::new("") => folder,
        _ => Path::new("."),
    };
    File::open(folder)?.sync_all()
}

/// Makes a file of these words, and gives what `open` makes of it, locked. It gets its name when its words are on the disk
/// and it is open, and the lock before that: whoever finds it there finds all of it, and locked. Where any of it fails, or
/// `keep` does, which is given the name, there is no file; or the error says that it could not be removed.
pub fn make<T>(
    path: &Path,
    words: &[u64],
    open: impl FnOnce(File) -> Result<T, BoardError>,
    keep: impl FnOnce(&Path) -> io::Result<()>,
) -> Result<T, BoardError> {
    let bytes: Vec<u8> = words.iter().flat_map(|word| word.to_ne_bytes()).collect();
    let (temporary, mut file) = Temporary::beside(path).map_err(BoardError::io("made", path))?;
    lock(&file, path)?;
    file.write_all(&bytes).map_err(BoardError::io("written", path))?;
    file.sync_all().map_err(BoardError::io("written", path))?;
    let opened = open(file)?;
    name(&temporary, path)?;
    drop(temporary);
    keep(path).map_err(|source| match fs::remove_file(path) {
        Ok(()) => BoardError::io("kept in its folder", path)(source),
        Err(_) => BoardError::io("kept in its folder, nor removed from it", path)(source),
    })?;
    Ok(opened)
}

#[cfg(test)]
mod tests {
    use super::*;
    use std::env;

    /// The error of a making in a folder of its own, and the names that are left there.
    fn unmade(
        test: &str,
        open: fn(File) -> Result<(), BoardError>,
        keep: fn(&Path) -> io::Result<()>,
    ) -> (String, Vec<OsString>) {
        let folder = env::temp_dir().join(format!("zilpanud-unmade-{}-{test}", process::id()));
        let _ = fs::remove_dir_all(&folder); // a process of this number may have been killed
        fs::create_dir(&folder).unwrap();
        let error = make(&folder.join("board"), &[1, 2, 3], open, keep).unwrap_err();
        let names = fs::read_dir(&folder).unwrap().map(|entry| entry.unwrap().file_name()).collect();
        fs::remove_dir_all(&folder).unwrap();
        (error.to_string(), names)
    }

    #[test]
    fn a_file_that_cannot_be_opened_is_not_left() {
        let no_room = |_| Err(BoardError::io("mapped", Path::new("it"))(ErrorKind::OutOfMemory.into()));
        let (error, names) = unmade("opened", no_room, |_| Ok(()));
        assert!(error.starts_with("it: cannot be mapped: "), "{error}");
        assert!(names.is_empty(), "{names:?}");
    }

    #[test]
    fn a_name_that_is_not_kept_is_not_left() {
        let (error, names) = unmade("kept", |_| Ok(()), |_| Err(ErrorKind::StorageFull.into()));
        assert!(error.contains("/board: cannot be kept in its folder: "), "{error}");
        assert!(names.is_empty(), "{names:?}");
    }

    #[test]
    fn a_file_that_is_left_is_told() {
        let to_folder = |path: &Path| {
            fs::remove_file(path)?;
            fs::create_dir(path)?; // which is not removed as a file is
            Err(ErrorKind::StorageFull.into())
        };
        let (error, names) = unmade("left", |_| Ok(()), to_folder);
        assert!(error.contains("/board: cannot be kept in its folder, nor removed from it: "), "{error}");
        assert_eq!(names, ["board"]);
    }
}
