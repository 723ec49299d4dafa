//! A drawn day played by the library's calls: submits, single turns and recoveries, the turns counted one by one. The
//! rounds of an 04 line are made by single turns too, and by a run on a copy of the image: its tally must be the count.

use crate::day_lines::{Day, Line};
use zilpanud::{Cursors, Turn, LOCKS, WORKERS};

/// What the turns came to.
#[derive(Clone, Debug)]
pub struct Played {
    pub locks: [u64; LOCKS],
    pub waited: [u64; WORKERS],
    pub moved: [u64; WORKERS],
    /// Submits taken, and refused.
    pub submits: [u64; 2],
    /// 02 lines that a refused turn ended.
    pub left: u64,
    /// 04 lines compared with a run: all, those that waited, and those that were spent.
    pub runs: [u64; 3],
    image: Vec<u64>,
    cursors: Cursors,
}

impl Played {
    fn new(workers: usize) -> Played {
        let mut image = vec![0; zilpanud::image_len(workers)];
        let cursors = zilpanud::format(&mut image, workers).unwrap_or_default();
        Played {
            locks: [0; LOCKS],
            waited: [0; WORKERS],
            moved: [0; WORKERS],
            submits: [0; 2],
            left: 0,
            runs: [0; 3],
            image,
            cursors,
        }
    }

    /// One turn; whether it was not refused.
    fn turn(&mut self, worker: usize) -> bool {
        match zilpanud::turn(&mut self.image, &mut self.cursors, worker) {
            Ok(Turn::Stored(_) | Turn::Passed(_)) => self.moved[worker] += 1,
            Ok(Turn::Waiting(lock)) => {
                self.waited[worker] += 1;
                self.locks[lock] += 1;
            }
            Ok(Turn::Idle) => {}
            Err(_) => return false,
        }
        true
    }

    fn turns(&mut self, worker: usize, turns: u16) {
        let refused = (0..turns).any(|_| !self.turn(worker));
        self.left += refused as u64;
    }

    /// The turns that were counted, and those of them that waited.
    fn tally(&self) -> (u64, u64) {
        let waits = self.waited.iter().sum::<u64>();
        (waits + self.moved.iter().sum::<u64>(), waits)
    }

    /// Rounds by single turns, and by a run on copies.
    fn rounds(&mut self, workers: usize, rounds: u16) -> Result<(), String> {
        let (mut image, mut cursors) = (self.image.clone(), self.cursors);
        let run = zilpanud::run(&mut image, &mut cursors, rounds).map_err(|no| no.to_string())?;
        let (turns, waits) = self.tally();
        let open = |cursors: &Cursors| (0..workers).any(|worker| cursors.turn[worker] != 255);
        let mut left = rounds;
        while left > 0 && open(&self.cursors) {
            left -= 1;
            if (0..workers).any(|worker| !self.turn(worker)) {
                return Err("a turn of an 04 line is refused".to_string());
            }
        }
        let (all, waited) = self.tally();
        let made = (all - turns, waited - waits);
        if (run.tally.turns, run.tally.waits) != made || image != self.image || cursors != self.cursors {
            return Err(format!("a run of {rounds} rounds: {run:?}\nby single turns: {made:?}"));
        }
        let spent = run.end == zilpanud::End::Spent;
        let met = [true, made.1 > 0, spent];
        self.runs.iter_mut().zip(met).for_each(|(count, met)| *count += met as u64);
        Ok(())
    }

    fn line(&mut self, workers: usize, line: &Line) -> Result<(), String> {
        match line {
            Line::Submit { worker, number, args, section } => {
                let (image, cursors) = (&mut self.image, &mut self.cursors);
                let taken = zilpanud::submit(image, cursors, *worker as usize, *number, args, section);
                self.submits[taken.is_err() as usize] += 1;
            }
            Line::Turns { worker, turns } => self.turns(*worker as usize, *turns),
            Line::Rounds { rounds } => self.rounds(workers, *rounds)?,
            Line::Cut => self.cursors = zilpanud::recover(&mut self.image).map_err(|no| no.to_string())?,
            Line::Wrong { .. } => {}
        }
        Ok(())
    }
}

/// Plays the lines of a day that are read.
pub fn play(day: &Day) -> Result<Played, String> {
    let workers = day.workers();
    let mut played = Played::new(workers);
    day.read().iter().try_for_each(|line| played.line(workers, line))?;
    Ok(played)
}
