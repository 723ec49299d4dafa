//! A board's file as a kill left it, read by document 01's layout and without the engine.

use std::fs;
use std::io::{self, ErrorKind};
use std::path::Path;
use zilpanud::{owner_index, LOCKS};

// The first record, the words of a record, and where it has what.
const RECORDS: usize = 584;
const RECORD: usize = 82;
const COUNT: usize = 0;
const PC: usize = 1;
const INTENT: usize = 6;
const OWNED: usize = 7;
const NUMBER: usize = 8;
const FINISHED: usize = 9;

pub struct Image {
    words: Vec<u64>,
    workers: usize,
}

impl Image {
    /// None if there is no file.
    pub fn read(path: &Path, workers: usize) -> io::Result<Option<Image>> {
        let bytes = match fs::read(path) {
            Err(error) if error.kind() == ErrorKind::NotFound => return Ok(None),
            read => read?,
        };
        let words: Vec<u64> = bytes.as_chunks().0.iter().map(|bytes| u64::from_ne_bytes(*bytes)).collect();
        let expected = RECORDS + RECORD * workers;
        match words.len() == expected && bytes.len() == 8 * expected {
            true => Ok(Some(Image { words, workers })),
            false => Err(io::Error::other(format!("{} has {} bytes", path.display(), bytes.len()))),
        }
    }

    fn of(&self, worker: usize, offset: usize) -> u64 {
        self.words[RECORDS + RECORD * worker + offset]
    }

    fn owner(&self, lock: usize) -> u64 {
        self.words[owner_index(lock)]
    }

    /// Whether the worker's section is begun and not at its end.
    fn begun(&self, worker: usize) -> bool {
        self.of(worker, PC) != 0
    }

    /// Whether a section was submitted to the worker and is not begun.
    fn submitted(&self, worker: usize) -> bool {
        let fresh = self.of(worker, NUMBER) > self.of(worker, FINISHED);
        fresh && self.of(worker, COUNT) != 0 && !self.begun(worker)
    }

    /// The number that the worker must have finished when all begun sections are at their end.
    pub fn due(&self, worker: usize) -> u64 {
        let offset = if self.begun(worker) { NUMBER } else { FINISHED };
        self.of(worker, offset)
    }

    pub fn any_begun(&self) -> bool {
        (0..self.workers).any(|worker| self.begun(worker))
    }

    pub fn any_submitted(&self) -> bool {
        (0..self.workers).any(|worker| self.submitted(worker))
    }

    /// Whether a recovery was cut after a store that frees a lock and before the one that takes it again. A turn never
    /// leaves an owned lock free: it records a lock as owned after it has it, and as not owned before it frees it.
    pub fn amid_recovery(&self) -> bool {
        let lost = |worker: usize, lock: usize| {
            self.of(worker, OWNED) >> lock & 1 == 1 && self.owner(lock) != worker as u64 + 1
        };
        (0..self.workers).any(|worker| (0..LOCKS).any(|lock| lost(worker, lock)))
    }

    /// What is still under way, or nothing.
    pub fn under_way(&self) -> Option<String> {
        for worker in 0..self.workers {
            for (name, offset) in [("count", COUNT), ("pc", PC), ("intent", INTENT), ("owned", OWNED)] {
                if self.of(worker, offset) != 0 {
                    return Some(format!("worker {worker} has {name} {:#x}", self.of(worker, offset)));
                }
            }
        }
        let taken = (0..LOCKS).find(|&lock| self.owner(lock) != 0)?;
        Some(format!("lock {taken} has owner word {:#x}", self.owner(taken)))
    }
}
