//! Document 01's ticket: acquire lock 3; cell 24 := 5; release lock 3; finish.

#![allow(dead_code)]

pub mod boards;
pub mod frames;
pub mod held;
pub mod says;
pub mod totals;

use std::path::PathBuf;
use std::{env, fs, process};
use zilpanud::code::{acquire, finish, release, set};
use zilpanud::cut::{self, ENOUGH};
use zilpanud::{cell_index, image_len, Cursors, Refusal, RefusedRun, Run, Turn};

pub const TICKET: [u64; 4] = [acquire(3), set(24, 5), release(3), finish()];

pub const CELL_24: usize = cell_index(24);

/// Lock 3's owner word: 520 + 3.
pub const LOCK_3: usize = 523;

/// Lock 3 alone, as a mask.
pub const ONLY_3: u64 = 1 << 3;

/// Cursors that no call leaves: what a recovery and a formatting must not read.
pub const ODD: Cursors = Cursors { step: [9; 8], turn: [3; 8], held: 0x8000_0100_0000_0bad };

/// The record of worker 0, and the offsets that document 01 gives.
pub const RECORD: usize = 584;
pub const COUNT: usize = RECORD;
pub const PC: usize = RECORD + 1;
pub const VALUE_1: usize = RECORD + 5;
pub const INTENT: usize = RECORD + 6;
pub const OWNED: usize = RECORD + 7;
pub const NUMBER: usize = RECORD + 8;
pub const FINISHED: usize = RECORD + 9;
pub const OWN: usize = RECORD + 10;
pub const STEPS: usize = RECORD + 18;

/// An image with what its calls are lent.
pub struct World {
    pub image: Vec<u64>,
    pub at: Cursors,
    pub left: u64,
}

impl World {
    pub fn formatted(workers: usize) -> World {
        let mut image = vec![7; image_len(workers)];
        let at = zilpanud::format(&mut image, workers).unwrap();
        World { image, at, left: ENOUGH }
    }

    /// One worker with the ticket submitted and so many turns made, each of which stores.
    pub fn after_turns(turns: usize) -> World {
        let mut world = World::formatted(1);
        world.submit(0, 1, &TICKET).unwrap();
        for _ in 0..turns {
            assert!(matches!(world.turn(0).unwrap(), Turn::Stored(_)));
        }
        world
    }

    pub fn submit(&mut self, worker: usize, number: u64, section: &[u64]) -> Result<(), Refusal> {
        self.submit_with(worker, number, &[0; 8], section)
    }

    pub fn submit_with(
        &mut self,
        worker: usize,
        number: u64,
        args: &[u64; 8],
        section: &[u64],
    ) -> Result<(), Refusal> {
        let World { image, at, left } = self;
        cut::submit(image, at, worker, number, args, section, left)
    }

    pub fn turn(&mut self, worker: usize) -> Result<Turn, Refusal> {
        cut::turn(&mut self.image, &mut self.at, worker, &mut self.left)
    }

    pub fn run(&mut self, rounds: u16) -> Result<Run, RefusedRun> {
        cut::run(&mut self.image, &mut self.at, rounds, &mut self.left)
    }

    pub fn recover(&mut self) -> Result<(), Refusal> {
        cut::recover(&mut self.image, &mut self.at, &mut self.left)
    }
}

/// A folder of a test's own, which goes away with it.
pub struct Folder(PathBuf);

impl Folder {
    pub fn new(test: &str) -> Folder {
        let folder = env::temp_dir().join(format!("zilpanud-test-{}-{test}", process::id()));
        let _ = fs::remove_dir_all(&folder); // a process of this number may have been killed
        fs::create_dir(&folder).unwrap();
        Folder(folder)
    }

    pub fn path(&self, name: &str) -> PathBuf {
        self.0.join(name)
    }

    /// The names of the files in it, in order.
    pub fn names(&self) -> Vec<String> {
        let entries = fs::read_dir(&self.0).unwrap();
        let mut names: Vec<String> =
            entries.map(|entry| entry.unwrap().file_name().into_string().unwrap()).collect();
        names.sort();
        names
    }
}

impl Drop for Folder {
    fn drop(&mut self) {
        let _ = fs::remove_dir_all(&self.0);
    }
}
