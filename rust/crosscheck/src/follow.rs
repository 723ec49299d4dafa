//! Sections followed through a list to their end: document 02's 4/14 on the library's turns. The reference machine
//! (document 01's plain machine) is fed the sections begun and goes through them step by step, as their pcs are stored;
//! a jump, which is stored nowhere, with the next step that is. What it goes through is a section's path. When the
//! section's last turn is made, the turns that did not wait must be those of the path.
//!
//! 5/14 with it: where the pc is stored that names a sum or a difference, its log entry must have what totals.rs says of
//! the words that the image has then. With no section under way the cells must be the machine's, and each worker's
//! finished number that of its last section begun.
//!
//! A list is followed from a finished formatting on, or from the change-over of a board, as long as each call is given
//! what the last one left and a cut is followed by a recovery. The machine starts with the cells that there are then.
//! Runs are made once more by single turns of the library, since their tally does not say whose they are.

use crate::call::{told_turn, Given, Lent, PASSED, STORED, WAITING};
use crate::rest::finished_numbers;
use crate::totals::{self, ENDS};
use crate::turns::left_by_library;
use twin::plain::{Plain, Ticket};
use twin::{BOARD, COUNT, ENTRY, HEAD, LOCKS, OWN, PLACE, REC, TOP};
use zilpanud::{cut, Cursors, Needs};

/// What was not so, in words.
pub type Failure = String;

/// From where a section's turns are counted.
enum Since {
    Taken,
    /// A recovery, with `gone` steps gone through, and what was left by `turns_left`.
    Recovered {
        gone: usize,
        left: Needs,
    },
}

/// A worker's section: taken, and maybe begun.
struct Section {
    number: u64,
    ticket: Ticket,
    since: Since,
    /// The turns since then that did not wait, and those that did.
    moved: u64,
    waited: u64,
    /// The steps that the reference machine has gone through.
    path: Vec<u64>,
    /// Whether the instruction that the pc names is a total that stopped.
    stopped: bool,
}

/// Totals that were recorded.
#[derive(Default)]
pub struct Recorded {
    pub all: u64,
    pub ends: [u64; ENDS.len()],
    /// Those that stopped in a section that a recovery had resumed.
    pub in_resumed: u64,
    /// Recoveries that resumed a section at the store of one that stopped.
    pub resumed_there: u64,
}

/// Sections that came to their end.
#[derive(Default)]
pub struct Ended {
    pub uncut: u64,
    pub resumed: u64,
    /// Of the resumed, those whose pc named a release.
    pub releases: u64,
    /// Of all, those that waited, and those that left steps out.
    pub waited: u64,
    pub jumped: u64,
}

pub struct Follow {
    machine: Plain,
    sections: Vec<Option<Section>>,
    /// The finished numbers that the workers must have when their sections have ended.
    finished: Vec<u64>,
    pub ended: Ended,
    pub totals: Recorded,
}

/// The turn table, written out once more.
fn turns_of(word: u64) -> u64 {
    match word >> 48 {
        1 | 2 => 6,
        3..=6 => 4,
        7 => 1,
        8 => 3,
        _ => 0,
    }
}

impl Section {
    fn taken(number: u64, ticket: Ticket) -> Section {
        Section { number, ticket, since: Since::Taken, moved: 0, waited: 0, path: vec![], stopped: false }
    }

    /// The pc of its worker names a step. If that is a total, the entry that is active has its value.
    fn records(
        &mut self,
        worker: usize,
        pc: u64,
        image: &[u64],
        totals: &mut Recorded,
    ) -> Result<(), Failure> {
        let record = HEAD + REC * worker;
        let load = |word| image[if word < 512 { BOARD + word } else { record + OWN + word - 512 }];
        let instruction = self.ticket.steps[((pc & !TOP) - 1) as usize];
        let total = totals::of(instruction, load);
        self.stopped = total.as_ref().is_some_and(|total| total.stopped());
        let Some(total) = total else {
            return Ok(());
        };
        let logged = image[record + ENTRY + 2 * (pc >> 63) as usize + 1];
        if logged != total.value {
            let must = total.value;
            return Err(format!("{instruction:#x} logs {logged:#x}, and by its words it must be {must:#x}"));
        }
        totals.all += 1;
        total.meets.into_iter().for_each(|end| totals.ends[end] += 1);
        let resumed = matches!(self.since, Since::Recovered { .. });
        totals.in_resumed += (self.stopped && resumed) as u64;
        Ok(())
    }

    /// The sum over the steps gone through from `gone` on, by hand and by the library.
    fn sum(&self, gone: usize) -> Result<u64, Failure> {
        let (words, path) = (&self.ticket.steps, &self.path[gone..]);
        let sum = path.iter().map(|&step| turns_of(words[step as usize])).sum();
        match zilpanud::turns_of_path(words, path) {
            Ok(turns) if turns == sum => Ok(sum),
            other => Err(format!("the path {path:?} takes {sum} turns, and by the library {other:?}")),
        }
    }

    fn names_release(&self, gone: usize) -> bool {
        self.ticket.steps[self.path[gone - 1] as usize] >> 48 == 2
    }

    /// The last turn of its finish was made.
    fn ends(&self, ended: &mut Ended) -> Result<(), Failure> {
        let (expected, needs) = match &self.since {
            Since::Taken => {
                ended.uncut += 1;
                let needs = zilpanud::turns_from(&self.ticket.steps, 0);
                (self.sum(0)?, needs.map_err(|no| format!("turns from step 0: {no}"))?)
            }
            Since::Recovered { gone, left } => {
                let release = self.names_release(*gone);
                ended.resumed += 1;
                ended.releases += release as u64;
                (if release { 3 } else { 1 } + self.sum(*gone)?, *left)
            }
        };
        ended.waited += (self.waited > 0) as u64;
        ended.jumped += (self.path.len() < self.ticket.steps.len()) as u64;
        if self.moved != expected {
            return Err(format!("it took {} turns, and its path {:?} {expected}", self.moved, self.path));
        }
        if expected < needs.fewest || expected > needs.most {
            return Err(format!("it took {expected} turns, and needs {needs:?}"));
        }
        Ok(())
    }
}

impl Follow {
    /// From an image on that is at rest.
    pub fn from(image: &[u64]) -> Follow {
        let workers = (image.len() - HEAD) / REC;
        let cells = std::array::from_fn(|cell| image[BOARD + cell]);
        Follow {
            machine: Plain::from_board(cells, &vec![vec![]; workers]),
            sections: (0..workers).map(|_| None).collect(),
            finished: finished_numbers(image),
            ended: Ended::default(),
            totals: Recorded::default(),
        }
    }

    /// An uncut submit was taken.
    pub fn taken(&mut self, worker: usize, number: u64, args: [u64; 8], section: &[u64]) {
        self.sections[worker] = Some(Section::taken(number, Ticket { args, steps: section.to_vec() }));
    }

    /// The machine goes on for a worker, up to this step and through it.
    fn go_through(&mut self, worker: usize, step: u64) -> Result<(), Failure> {
        let section = self.sections[worker].as_mut().ok_or("a pc is stored with no section taken")?;
        if self.machine.at(worker).is_none() {
            self.machine.push(worker, section.ticket.clone());
            self.finished[worker] = section.number;
        }
        loop {
            let at = self.machine.at(worker).ok_or("the machine has no step left")? as u64;
            section.path.push(at);
            if !self.machine.entry(worker) {
                return Err(format!("the machine refuses step {at}"));
            }
            if at == step {
                return Ok(());
            }
            if section.ticket.steps[at as usize] >> 48 != 7 {
                return Err(format!("step {step} is recorded, and the machine is at {at}"));
            }
        }
    }

    /// A word was stored at an index, and stands in the image.
    fn stored(&mut self, worker: usize, index: usize, image: &[u64]) -> Result<(), Failure> {
        let record = HEAD + REC * worker;
        if index == record + PLACE {
            let finish = self.sections[worker].as_ref().map_or(0, |s| s.ticket.steps.len() as u64 - 1);
            return match image[index] {
                0 => self.go_through(worker, finish),
                pc => {
                    if let Some(section) = &mut self.sections[worker] {
                        section.records(worker, pc, image, &mut self.totals)?;
                    }
                    self.go_through(worker, (pc & !TOP) - 1)
                }
            };
        }
        if index == record + COUNT {
            let section = self.sections[worker].take().ok_or("a section ends that was not taken")?;
            return section.ends(&mut self.ended).map_err(|what| format!("{:x?}: {what}", section.ticket));
        }
        Ok(())
    }

    /// A turn answered this. `made`: if it stores, the store was made.
    pub fn turn(
        &mut self,
        worker: usize,
        (answer, detail): (u64, u64),
        made: bool,
        image: &[u64],
    ) -> Result<(), Failure> {
        if let Some(section) = &mut self.sections[worker] {
            section.moved += matches!(answer, STORED | PASSED) as u64;
            section.waited += (answer == WAITING) as u64;
        }
        if answer == STORED && made {
            return self.stored(worker, detail as usize, image);
        }
        Ok(())
    }

    /// The turns of a run, made one by one on a copy of the image that it was given. Whether they leave the cursors and
    /// the tally that it gave; true where it is cut.
    pub fn run(
        &mut self,
        image: &mut [u64],
        lent: Lent,
        rounds: u16,
        given: &Given,
    ) -> Result<bool, Failure> {
        let mut at = Cursors { step: lent.step, turn: lent.turn, held: lent.held };
        let (mut left, mut turns, mut waits) = (lent.left, 0, 0);
        for _ in 0..rounds {
            let before = turns;
            for worker in 0..self.sections.len() {
                if at.turn[worker] == 255 {
                    continue;
                }
                let made = left > 0;
                let answer = cut::turn(image, &mut at, worker, &mut left);
                let told = answer.map(told_turn).map_err(|no| format!("a turn of a run: {no}"))?;
                turns += 1;
                waits += (told.0 == WAITING) as u64;
                if told.0 == STORED && !made {
                    return Ok(true); // nothing that comes now is stored
                }
                self.turn(worker, told, made, image)?;
            }
            if turns == before {
                break;
            }
        }
        let is = Lent { step: at.step, turn: at.turn, held: at.held, left };
        Ok(is == given.lent && (turns, waits) == (given.tally.turns, given.tally.waits))
    }

    /// A recovery was accepted and not cut; this is the image that it left.
    pub fn recovered(&mut self, image: &[u64]) -> Result<(), Failure> {
        for worker in 0..self.sections.len() {
            let pc = image[HEAD + REC * worker + PLACE];
            if pc == 0 {
                self.sections[worker] = None; // withdrawn, or nothing but the store of the count was due
                continue;
            }
            let section = self.sections[worker].as_mut().ok_or("a pc with no section taken")?;
            if section.path.last() != Some(&((pc & !TOP) - 1)) {
                return Err(format!("pc {pc:#x}, and the machine has gone through {:?}", section.path));
            }
            let [fewest, most] = left_by_library(image, worker).numbers;
            let left = Needs { fewest, most };
            section.since = Since::Recovered { gone: section.path.len(), left };
            (section.moved, section.waited) = (0, 0);
            self.totals.resumed_there += section.stopped as u64;
        }
        Ok(())
    }

    /// With no section under way the cells are the machine's, and the finished numbers those of the last begun.
    pub fn rested(&self, image: &[u64]) -> Result<(), Failure> {
        if self.sections.iter().any(Option::is_some) {
            return Ok(());
        }
        if image[BOARD..LOCKS] != self.machine.board {
            return Err("the cells are not those of the reference machine".to_string());
        }
        let is = finished_numbers(image);
        match is == self.finished {
            true => Ok(()),
            false => Err(format!("finished numbers {is:?}, and the last begun were {:?}", self.finished)),
        }
    }
}
