//! The process that kills: a child at work, a kill, a recovery, a check.

use crate::board::{locks_held, opened};
use crate::child::{Work, STARTED};
use crate::image::Image;
use crate::moves::{count_cell, Move, MOVED};
use crate::rng::Rng;
use std::error::Error;
use std::io::Read;
use std::os::unix::process::ExitStatusExt;
use std::path::{Path, PathBuf};
use std::process::{Child, Command, Stdio};
use std::thread;
use std::time::Duration;
use std::{env, fs};
use zilpanud::{Board, End, CELLS};

/// A new board is made after so many kills.
const KILLS_A_BOARD: u64 = 10;

/// A kill falls up to so many microseconds after its child was started, or after it started to work.
const LATEST: u64 = 3_000;

const SIGKILL: i32 = 9;

/// Where the kills fell.
#[derive(Default)]
pub struct Met {
    pub kills: u64,
    pub sections: u64,
    /// Of the sections, those in which a total stopped at an end.
    pub stopped: u64,
    /// With a section begun, or submitted and not begun: a recovery had to let it go on or to withdraw it.
    pub amid_sections: u64,
    pub begun: u64,
    pub submitted: u64,
    pub amid_recoveries: u64,
    /// Recoveries that gave locks back.
    pub holding: u64,
    /// While the file was made: it has not got its name, or has another one beside it.
    pub amid_makings: u64,
    pub before_the_file: u64,
}

/// A board, and what must be on it.
struct Expected {
    path: PathBuf,
    cells: Vec<u64>,
    /// All that was stowed in the moved cells.
    stowed: u64,
    finished: Vec<u64>,
}

impl Expected {
    fn new(path: PathBuf, workers: usize) -> Expected {
        Expected { path, cells: vec![0; CELLS], stowed: 0, finished: vec![0; workers] }
    }

    fn workers(&self) -> usize {
        self.finished.len()
    }
}

pub struct Trial {
    seed: u64,
    r: Rng,
    folder: PathBuf,
    board: Expected,
    pub met: Met,
}

impl Trial {
    pub fn new(seed: u64, folder: &Path) -> Trial {
        let (folder, board) = (folder.to_path_buf(), Expected::new(PathBuf::new(), 0));
        Trial { seed, r: Rng::of(&[seed]), folder, board, met: Met::default() }
    }

    /// One kill, with all that comes before and after it.
    pub fn kill(&mut self) -> Result<(), Box<dyn Error>> {
        let new = self.met.kills.is_multiple_of(KILLS_A_BOARD);
        if new {
            let path = self.folder.join(format!("board-{}", self.met.kills / KILLS_A_BOARD));
            self.board = Expected::new(path, 2 + self.r.below(7) as usize);
        }
        self.met.kills += 1;
        let others = self.other_names()?;
        let child = self.start()?;
        let at_work = !new && self.r.below(3) > 0;
        self.end(child, at_work)?;
        let left = Image::read(&self.board.path, self.board.workers())?;
        self.met.amid_makings += (self.other_names()? > others) as u64;
        self.met.count(left.as_ref());
        self.check(left)
    }

    /// How many files have a name that a board has while it is made.
    fn other_names(&self) -> Result<usize, Box<dyn Error>> {
        let entries = fs::read_dir(&self.folder)?;
        let names: Vec<_> =
            entries.map(|entry| entry.map(|entry| entry.file_name())).collect::<Result<_, _>>()?;
        Ok(names.iter().filter(|name| name.as_encoded_bytes().ends_with(b".new")).count())
    }

    fn start(&self) -> Result<Child, Box<dyn Error>> {
        let (path, workers) = (self.board.path.clone(), self.board.workers());
        let work = Work { path, workers, seed: self.seed, manner: self.met.kills };
        let mut child = Command::new(env::current_exe()?);
        child.arg("child").args(work.arguments());
        Ok(child.stdin(Stdio::null()).stdout(Stdio::piped()).stderr(Stdio::piped()).spawn()?)
    }

    /// Kills a child at some moment of its start, in which it makes the board if there is none, or of its work.
    fn end(&mut self, mut child: Child, at_work: bool) -> Result<(), Box<dyn Error>> {
        if at_work {
            if let Some(output) = &mut child.stdout {
                // where it ended by itself, its status tells
                let _ = output.read_exact(&mut [0; STARTED.len()]);
            }
        }
        thread::sleep(Duration::from_micros(self.r.below(LATEST)));
        child.kill()?;
        let output = child.wait_with_output()?;
        match output.status.signal() {
            Some(SIGKILL) => Ok(()),
            _ => {
                let told = String::from_utf8_lossy(&output.stderr).into_owned();
                Err(format!("the child was not killed but ended by itself, {}: {told}", output.status).into())
            }
        }
    }

    /// Recovers the board, runs it until all workers are idle, and compares it with what must be on it.
    fn check(&mut self, left: Option<Image>) -> Result<(), Box<dyn Error>> {
        let workers = self.board.workers();
        let mut board = opened(&self.board.path, workers)?;
        self.met.holding += (locks_held(&board)? > 0) as u64;
        let run = board.run_to_idle()?;
        if run.end != End::AllIdle {
            return Err("the run did not end with all workers idle".into());
        }
        locks_held(&board)?;
        for worker in 0..workers {
            let due = left.as_ref().map_or(0, |image| image.due(worker));
            self.carry_on(&board, worker, due)?;
        }
        self.compare(&board.cells())?;
        drop(board);
        let after = Image::read(&self.board.path, workers)?.ok_or("the file is gone")?;
        match after.under_way() {
            Some(what) => Err(format!("all workers are idle, but {what}").into()),
            None => Ok(()),
        }
    }

    /// Brings what must be on the board up to the number that a worker has finished, which must be the one due.
    fn carry_on(&mut self, board: &Board, worker: usize, due: u64) -> Result<(), Box<dyn Error>> {
        let (before, finished) = (self.board.finished[worker], board.finished(worker)?);
        let counted = board.cell(count_cell(worker)).ok_or("there is no such cell")?;
        if finished != due || finished < before || finished != counted {
            return Err(format!(
                "worker {worker} has finished {finished} and must have {due}; it had {before} before this kill, and \
                 its count is {counted}"
            )
            .into());
        }
        for number in before + 1..=finished {
            let one = Move::of(self.seed, worker, number);
            self.met.stopped += one.make(&mut self.board.cells) as u64;
            self.board.stowed += one.stowed();
        }
        self.board.finished[worker] = finished;
        self.met.sections += finished - before;
        Ok(())
    }

    /// All cells are what the finished moves leave, and the moved ones add up to what was stowed.
    fn compare(&self, cells: &[u64]) -> Result<(), Box<dyn Error>> {
        let sum: u128 = cells[..MOVED].iter().map(|&cell| cell as u128).sum();
        let stowed = self.board.stowed as u128;
        let differs = |&cell: &usize| cells[cell] != self.board.cells[cell];
        let differing: Vec<usize> = (0..CELLS).filter(differs).collect();
        if let [first, ..] = differing[..] {
            let (is, must) = (cells[first], self.board.cells[first]);
            return Err(format!(
                "{} cells differ, sum {sum:#x}; the first is cell {first}: it is {is:#x} and must be {must:#x}",
                differing.len()
            )
            .into());
        }
        match sum == stowed {
            true => Ok(()),
            false => Err(format!("the moved cells add up to {sum:#x}, and {stowed:#x} was stowed").into()),
        }
    }
}

impl Met {
    fn count(&mut self, left: Option<&Image>) {
        let Some(image) = left else {
            self.before_the_file += 1;
            return;
        };
        let (begun, submitted) = (image.any_begun(), image.any_submitted());
        self.begun += begun as u64;
        self.submitted += submitted as u64;
        self.amid_sections += (begun || submitted) as u64;
        self.amid_recoveries += image.amid_recovery() as u64;
    }
}
