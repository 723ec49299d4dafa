//! Boards in files.

mod error;
mod file;
mod mapping;

pub use error::BoardError;

use crate::{cell_index, image_len, owner_index, CELLS, LOCKS, WORKERS};
use crate::{Cursors, Needs, Record, Refusal, RefusedRun, Run, Standing, Turn};
use error::same_version;
use mapping::Mapping;
use std::fs::File;
use std::path::Path;

/// A board in a file that is mapped into memory, with the cursors of its workers: one process has it at a time.
///
/// Opening it recovers it. A section that was begun goes on with the turns and runs that follow; one that was submitted
/// and not begun is withdrawn, as if it had not been.
///
/// ```
/// use zilpanud::code::{acquire, add, finish, lock_of, own, release, sub};
/// use zilpanud::{Board, End, Standing};
///
/// # let path = std::env::temp_dir().join(format!("zilpanud-board-page-{}", std::process::id()));
/// # let _ = std::fs::remove_file(&path);
/// // Stows own word 1 in cell 24, and moves own word 0 from there to cell 40.
/// let (from, to) = (24, 40);
/// let section = [
///     acquire(lock_of(from)),
///     acquire(lock_of(to)),
///     add(from, from, own(1)),
///     sub(from, from, own(0)),
///     add(to, to, own(0)),
///     release(lock_of(to)),
///     release(lock_of(from)),
///     finish(),
/// ];
/// let args = [7, 20, 0, 0, 0, 0, 0, 0];
///
/// // SAFETY: nobody else writes to this file or shortens it.
/// let mut board = unsafe { Board::create(&path, 2) }?;
/// let number = board.finished(1)? + 1;
/// board.submit(1, number, &args, &section)?;
/// board.run(20)?;
/// assert_eq!(board.locks_held(), 2);
/// drop(board); // or the process is killed, here or anywhere
///
/// // SAFETY: as above.
/// let mut board = unsafe { Board::open(&path) }?;
/// match board.standing(1, number)? {
///     Standing::NotBegun => board.submit(1, number, &args, &section)?,
///     Standing::Begun | Standing::Finished => {} // it is not submitted again
/// }
/// let run = board.run_to_idle()?;
/// assert_eq!(run.end, End::AllIdle);
/// assert_eq!((board.cell(24), board.cell(40)), (Some(13), Some(7)));
/// # drop(board);
/// # std::fs::remove_file(&path)?;
/// # Ok::<(), Box<dyn std::error::Error>>(())
/// ```
///
/// # What the file must be kept in
///
/// Nothing is flushed: a store is done when it is made in memory. What is proved holds where memory keeps every store
/// in the order made when the power goes: battery-kept memory, or persistent memory mapped directly (a DAX file system)
/// on a machine that keeps or flushes its caches then. On an ordinary file a killed process loses nothing, since the
/// system has every store that it made; a real cut of the power may lose some and keep later ones, since the system's
/// page cache is not battery-kept.
///
/// # The file
///
/// It is the image and nothing else, in the machine's own order of bytes: 8 × [`image_len`] of them. A board is made
/// under another name, `NAME.PROCESS-NUMBER.new` in the same folder, and gets its own when it is formatted and on the
/// disk. So a file under its name is a finished formatting, and one that a recovery refuses was changed by something
/// else: it is left as it is, and never formatted. A process that is killed while it makes a board may leave a file of
/// the other name; nobody reads it, and it may be removed. The folder's file system must have hard links.
///
/// The lock is the system's advisory one on the file. It goes when the board is dropped and when its process ends, and
/// it binds those who ask for it.
///
/// # Safety
///
/// The file is mapped, and no lock of the system keeps others from a plain write to it, which would change words under a
/// call, or from shortening it, which ends the process at the next load or store. So [`create`](Board::create),
/// [`open`](Board::open) and [`open_or_create`](Board::open_or_create) with its second form are `unsafe`, and their caller
/// owes this: from the call on, until the board is dropped, nobody else writes to the file or shortens it, neither
/// another process nor this one by another way. (Those who open a board by this crate or lock the file are kept away by the lock, and to read the
/// file does no harm.) All else is safe to call: what is asked of a board is copied out, and nothing borrows from the
/// mapping beyond a call.
///
/// ```compile_fail,E0133
/// # #[allow(unused_variables)]
/// let board = zilpanud::Board::open("harbour.board"); // not without `unsafe`
/// ```
///
/// # A board that an earlier version kept
///
/// Before 0.6.0 sums and differences were modulo 2^64. The file is the same, so opening does not see it, and a section
/// that the earlier version has begun would go on by the new rule: let that version run until all workers are idle
/// first. Opening then changes no word, and all that is promised from formatting counts from there, with the cells and
/// the finished numbers that the board has. The manual has the steps.
#[derive(Debug)]
pub struct Board {
    /// Dropped first: the file is unmapped, then closed and with that unlocked.
    image: Mapping,
    cursors: Cursors,
    workers: usize,
    _locked: File,
}

/// Making and opening. All compare the linked library's version with the crate's first.
impl Board {
    /// Makes a board of 1 to 8 workers, all cells 0. Refuses a path where there is a file already.
    ///
    /// # Safety
    ///
    /// Until the board is dropped, nobody else writes to its file or shortens it: see [`Board`](Board#safety).
    pub unsafe fn create(path: impl AsRef<Path>, workers: usize) -> Result<Board, BoardError> {
        let path = path.as_ref();
        same_version(crate::version(), path)?;
        let mut words = vec![0; image_len(workers.min(WORKERS))];
        crate::format(&mut words, workers).map_err(BoardError::refused(path))?;
        // SAFETY: what the caller owes; the file was written with so many words.
        let open = |file| unsafe { Board::mapped(file, path, workers) }?.recovered(path);
        file::make(path, &words, open, file::sync_folder)
    }

    /// Opens and recovers the board in a file. One that is no board, or whose recovery is refused, is left as it was. Holes
    /// of the file are filled first, or the error says that the disk has no room for them.
    ///
    /// # Safety
    ///
    /// Until the board is dropped, nobody else writes to its file or shortens it: see [`Board`](Board#safety).
    pub unsafe fn open(path: impl AsRef<Path>) -> Result<Board, BoardError> {
        let path = path.as_ref();
        same_version(crate::version(), path)?;
        let file = file::open(path)?;
        let workers = file::workers(&file, path)?;
        file::fill_holes(&file, path, workers)?;
        // SAFETY: what the caller owes; the file's length is that of so many workers.
        unsafe { Board::mapped(file, path, workers) }?.recovered(path)
    }

    /// Opens and recovers the board in a file, or makes it if there is no file. A board that is there must have this
    /// number of workers.
    ///
    /// # Safety
    ///
    /// Until the board is dropped, nobody else writes to its file or shortens it: see [`Board`](Board#safety).
    pub unsafe fn open_or_create(path: impl AsRef<Path>, workers: usize) -> Result<Board, BoardError> {
        // SAFETY: what the caller owes.
        let opened = unsafe { Board::open_or_create_looking(path, workers, |_| Ok::<(), BoardError>(())) };
        opened.map(|(board, ())| board)
    }

    /// The same, and lends `look` the image as it was left, before it is recovered: the file is locked then, and nobody
    /// else has the board. A new board is lent as it was formatted. What `look` gives comes back with the board; if that
    /// is an error, a board that was there is left as it was, and a new one stays.
    ///
    /// Opening withdraws a section that was submitted and not begun. Whoever has to say so, also if it is killed in
    /// between, notes here what it finds.
    ///
    /// # Safety
    ///
    /// Until the board is dropped, nobody else writes to its file or shortens it: see [`Board`](Board#safety).
    pub unsafe fn open_or_create_looking<T, E: From<BoardError>>(
        path: impl AsRef<Path>,
        workers: usize,
        look: impl FnOnce(&[u64]) -> Result<T, E>,
    ) -> Result<(Board, T), E> {
        let path = path.as_ref();
        same_version(crate::version(), path)?;
        let file = match file::open(path) {
            // SAFETY: what the caller owes.
            Err(error) if error.is_not_found() => match unsafe { Board::create(path, workers) } {
                // another process was quicker
                Err(BoardError::Exists { .. }) => file::open(path)?,
                made => {
                    let board = made?;
                    let looked = look(board.image.words())?;
                    return Ok((board, looked));
                }
            },
            opened => opened?,
        };
        let found = file::workers(&file, path)?;
        if found != workers {
            return Err(BoardError::Workers { path: path.to_path_buf(), found, asked: workers }.into());
        }
        file::fill_holes(&file, path, workers)?;
        // SAFETY: as in `open`.
        let mapped = unsafe { Board::mapped(file, path, workers) }?;
        let looked = look(mapped.image.words())?;
        Ok((mapped.recovered(path)?, looked))
    }

    /// The board of a file that is locked, as it was left: all workers are idle until it is recovered.
    ///
    /// # Safety
    ///
    /// The file is as long as one of so many workers, and nobody else writes to it or shortens it until the board is
    /// dropped.
    unsafe fn mapped(file: File, path: &Path, workers: usize) -> Result<Board, BoardError> {
        // SAFETY: what the caller owes.
        let mapped = unsafe { Mapping::of(&file, image_len(workers)) };
        let image = mapped.map_err(BoardError::io("mapped", path))?;
        Ok(Board { image, cursors: Cursors::IDLE, workers, _locked: file })
    }

    fn recovered(mut self, path: &Path) -> Result<Board, BoardError> {
        self.recover().map_err(BoardError::refused(path))?;
        Ok(self)
    }
}

/// Calls that change the board.
impl Board {
    /// Submits a section to a worker under a number above the last that it finished, with its arguments, which become
    /// the worker's own words. It tests causes 1, 2 and 3, and then does the very [`check`](crate::check) of the
    /// section. Refused, it changes nothing; with 4 to 9, the check of the same section says what is wrong with it, and
    /// could have said so before the worker was free, or without the board.
    pub fn submit(
        &mut self,
        worker: usize,
        number: u64,
        args: &[u64; 8],
        section: &[u64],
    ) -> Result<(), Refusal> {
        crate::submit(self.image.words_mut(), &mut self.cursors, worker, number, args, section)
    }

    /// Submits a section under the worker's next number, one above the last finished, and gives the number; tested and
    /// refused as [`submit`](Board::submit) is. A caller that must know after a crash which number it used notes it
    /// first, from [`finished`](Board::finished), and calls [`submit`](Board::submit): here a crash can come before the
    /// number is told.
    pub fn submit_next(&mut self, worker: usize, args: &[u64; 8], section: &[u64]) -> Result<u64, Refusal> {
        let number = self.finished(worker)?.saturating_add(1);
        self.submit(worker, number, args, section)?;
        Ok(number)
    }

    /// One turn of a worker, with at most one store. Refuses with causes 1 and 11, and changes nothing.
    pub fn turn(&mut self, worker: usize) -> Result<Turn, Refusal> {
        crate::turn(self.image.words_mut(), &mut self.cursors, worker)
    }

    /// Rounds of turns, each worker that is not idle one turn a round by rising number, until all are idle or the
    /// rounds are spent. If it is refused, with cause 11, the turns before that stand, and so does their tally.
    pub fn run(&mut self, rounds: u16) -> Result<Run, RefusedRun> {
        crate::run(self.image.words_mut(), &mut self.cursors, rounds)
    }

    /// Recovers once more, as opening does: a section that was begun goes on from its last store, one that was not begun
    /// is withdrawn. It is what a cut at this moment would lead to. Refuses with causes 12 and 13, which it has only
    /// where something else changes the file; the image is then left as it was, and all workers are idle.
    pub fn recover(&mut self) -> Result<(), Refusal> {
        self.cursors = Cursors::IDLE;
        self.cursors = crate::recover(self.image.words_mut())?;
        Ok(())
    }

    /// A run of as many rounds as there can be. On a board that only this engine changed it ends with
    /// [`End::AllIdle`](crate::End::AllIdle): every section that was submitted is finished, and every lock is free.
    pub fn run_to_idle(&mut self) -> Result<Run, RefusedRun> {
        self.run(u16::MAX)
    }
}

/// Questions. Those about a worker refuse with cause 1 one that the board has not.
impl Board {
    /// The number of workers.
    pub fn workers(&self) -> usize {
        self.workers
    }

    /// Whether a worker is idle: it has no section to go on with.
    pub fn is_idle(&self, worker: usize) -> Result<bool, Refusal> {
        crate::is_idle(self.image.words(), &self.cursors, worker)
    }

    /// The number of the last section that a worker finished; 0 before its first.
    pub fn finished(&self, worker: usize) -> Result<u64, Refusal> {
        crate::finished(self.image.words(), worker)
    }

    /// How a worker stands to the section of this number: what to ask after a crash. One that is not begun is submitted
    /// again, under the same number; one that is begun is left to its turns; one that is finished is done. With numbers
    /// that follow one another, each one above the last finished, every section is carried out once.
    pub fn standing(&self, worker: usize, number: u64) -> Result<Standing, Refusal> {
        crate::standing(self.image.words(), worker, number)
    }

    /// How many turns a worker's begun section needs after a recovery: asked right after [`open`](Board::open), which
    /// recovers, what is left to be done. See [`turns_left`](crate::turns_left), also for what it says at another
    /// moment. Refuses with cause 1, then 12, which it has only where something else changes the file.
    pub fn turns_left(&self, worker: usize) -> Result<Needs, Refusal> {
        crate::turns_left(self.image.words(), worker)
    }

    /// A copy of the image, to look at: [`Place`](crate::Place) says what its words are for.
    pub fn image(&self) -> Vec<u64> {
        self.image.words().to_vec()
    }

    /// A copy of a worker's record, as the image has it.
    pub fn record(&self, worker: usize) -> Result<Record, Refusal> {
        Record::of(self.image.words(), worker)
    }

    /// Where all workers stand.
    pub fn cursors(&self) -> &Cursors {
        &self.cursors
    }

    /// A copy of the 512 cells.
    pub fn cells(&self) -> [u64; CELLS] {
        std::array::from_fn(|cell| self.image.words()[cell_index(cell)])
    }

    /// The value of a cell, 0 to 511; none for another number.
    pub fn cell(&self, cell: usize) -> Option<u64> {
        (cell < CELLS).then(|| self.image.words()[cell_index(cell)])
    }

    /// How many locks are held, by all workers together: for a screen that shows it after each turn. The cursors have
    /// it, so that the owner words are not looked at.
    pub fn locks_held(&self) -> usize {
        self.cursors.locks_held()
    }

    /// The worker that has a lock, 0 to 63; none if it is free, and for another number.
    pub fn owner(&self, lock: usize) -> Option<usize> {
        let word = (lock < LOCKS).then(|| self.image.words()[owner_index(lock)])?;
        word.checked_sub(1).map(|worker| worker as usize)
    }
}
