//! The process that is killed.

use crate::board::{locks_held, opened};
use crate::moves::Move;
use crate::rng::Rng;
use std::convert::Infallible;
use std::error::Error;
use std::ffi::OsString;
use std::io::{self, Write};
use std::os::unix::process::parent_id;
use std::path::PathBuf;
use std::process::exit;
use zilpanud::Board;

/// What a child says when it has its board.
pub const STARTED: &[u8; 8] = b"started\n";

/// What the parent tells its child.
pub struct Work {
    pub path: PathBuf,
    pub workers: usize,
    /// Gives the moves.
    pub seed: u64,
    /// Gives how they are made: it is another one for each child.
    pub manner: u64,
}

impl Work {
    pub fn arguments(&self) -> [OsString; 4] {
        let numbers = [self.workers as u64, self.seed, self.manner];
        let [workers, seed, manner] = numbers.map(|number| number.to_string().into());
        [self.path.clone().into(), workers, seed, manner]
    }

    pub fn of_arguments(arguments: &[OsString]) -> Option<Work> {
        let [path, numbers @ ..] = arguments else {
            return None;
        };
        let numbers: Option<Vec<u64>> = numbers.iter().map(|word| word.to_str()?.parse().ok()).collect();
        let [workers, seed, manner] = numbers?[..] else {
            return None;
        };
        Some(Work { path: path.into(), workers: workers as usize, seed, manner })
    }

    /// Makes moves until it is killed, and says so when it starts. Now and then it lets the board go, mostly amid
    /// sections, and opens it again, so that kills fall into openings and recoveries too.
    pub fn forever(&self) -> Result<Infallible, Box<dyn Error>> {
        let mut r = Rng::of(&[self.seed, self.manner]);
        let parent = parent_id();
        let longest = 1 + r.below(60);
        let mut board = opened(&self.path, self.workers)?;
        io::stdout().write_all(STARTED)?;
        io::stdout().flush()?;
        loop {
            for _ in 0..r.below(longest) {
                self.submit(&mut board)?;
                self.go_on(&mut board, &mut r)?;
            }
            drop(board);
            if parent_id() != parent {
                exit(1); // nobody is left who would kill it
            }
            board = opened(&self.path, self.workers)?;
        }
    }

    /// Gives each idle worker its next move.
    fn submit(&self, board: &mut Board) -> Result<(), Box<dyn Error>> {
        for worker in 0..self.workers {
            if board.is_idle(worker)? {
                let number = board.finished(worker)? + 1;
                let next = Move::of(self.seed, worker, number);
                board.submit(worker, number, &next.args(), &next.section())?;
            }
        }
        Ok(())
    }

    /// A run of a few rounds, or a few turns of any workers; then the locks held are compared.
    fn go_on(&self, board: &mut Board, r: &mut Rng) -> Result<(), Box<dyn Error>> {
        if r.below(2) == 0 {
            board.run(r.below(30) as u16)?;
        } else {
            for _ in 0..r.below(50) {
                board.turn(r.below(self.workers as u64) as usize)?;
            }
        }
        locks_held(board)?;
        Ok(())
    }
}
