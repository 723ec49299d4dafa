//! What is repeated: each work leaves the image such that it can be done again.

use crate::day;
use crate::engine::Engine;
use crate::stores::PLENTY;
use std::hint::black_box;

/// Words before the records, and of a record.
const HEAD: usize = 584;
const RECORD: usize = 82;

/// The cell that moves take from.
const CELL_24: usize = 8 + 24;

#[derive(Clone)]
pub enum Work {
    /// One run until all workers are idle, of one section for each of the first workers.
    Run {
        workers: u64,
        sections: Vec<Vec<u64>>,
    },
    /// The same by calls of single turns, round by round.
    Turns {
        workers: u64,
        sections: Vec<Vec<u64>>,
    },
    /// The same work of worker `worker` alone, by calls of single turns.
    OneWorker {
        workers: u64,
        worker: usize,
        section: Vec<u64>,
    },
    /// A check, which counts as so many units: one, or the section's steps.
    Check {
        section: Vec<u64>,
        units: u64,
    },
    HeldSets {
        section: Vec<u64>,
    },
    /// The turns of the path of all steps.
    TurnsOfPath {
        section: Vec<u64>,
    },
    /// The turns from step 0 on.
    TurnsFrom {
        section: Vec<u64>,
    },
    /// The turns left of worker 0, in an image in which each section has made so many turns.
    TurnsLeft {
        sections: Vec<Vec<u64>>,
        rounds: u16,
    },
    Submit {
        section: Vec<u64>,
    },
    /// Recovery of an image in which each section has made so many turns.
    Recover {
        sections: Vec<Vec<u64>>,
        rounds: u16,
    },
    Format {
        workers: u64,
    },
    /// A submit and a run until idle, each with the next number.
    Move {
        section: Vec<u64>,
    },
    /// The sums of a recorded day of so many frames, which stand in the place of the image.
    Day {
        frames: u64,
    },
}

/// Does a work once more on its image; gives the units done.
type Again = Box<dyn FnMut(&mut [u64]) -> u64>;

/// A work on one engine: an image and what is done with it again and again.
pub struct Side {
    pub image: Vec<u64>,
    /// How often the work was done.
    pub times: u64,
    again: Again,
}

impl Side {
    /// Does the work so many times; the units done.
    pub fn batch(&mut self, times: u64) -> u64 {
        self.times += times;
        (0..times).map(|_| (self.again)(black_box(&mut self.image))).sum()
    }
}

fn formatted<E: Engine>(workers: u64) -> (Vec<u64>, E::Places) {
    let mut image = vec![0; HEAD + RECORD * workers as usize];
    let places = E::format(&mut image, workers);
    (image, places)
}

/// An image with one section submitted to each of the first workers.
fn submitted<E: Engine>(workers: u64, sections: &[Vec<u64>]) -> (Vec<u64>, E::Places) {
    let (mut image, mut places) = formatted::<E>(workers);
    for (d, section) in sections.iter().enumerate() {
        E::submit(&mut image, &mut places, d, 1, section);
    }
    (image, places)
}

/// Puts the counts of finished sections back: the workers can go through them again without a submit.
fn reopen(image: &mut [u64], sections: &[Vec<u64>]) {
    for (d, section) in sections.iter().enumerate() {
        image[HEAD + RECORD * d] = section.len() as u64;
    }
}

fn side(image: Vec<u64>, again: impl FnMut(&mut [u64]) -> u64 + 'static) -> Side {
    Side { image, times: 0, again: Box::new(again) }
}

fn run<E: Engine>(workers: u64, sections: Vec<Vec<u64>>) -> Side
where
    E::Places: 'static,
{
    let (image, start) = submitted::<E>(workers, &sections);
    side(image, move |image| {
        reopen(image, &sections);
        let mut places = black_box(start);
        E::run(image, &mut places, u16::MAX)
    })
}

fn turns<E: Engine>(workers: u64, sections: Vec<Vec<u64>>) -> Side
where
    E::Places: 'static,
{
    let (image, start) = submitted::<E>(workers, &sections);
    side(image, move |image| {
        reopen(image, &sections);
        let mut places = start;
        let mut made = 0;
        loop {
            let before = made;
            for d in 0..sections.len() {
                made += E::turn(black_box(&mut *image), &mut places, d) as u64;
            }
            if made == before {
                return made;
            }
        }
    })
}

fn one_worker<E: Engine>(workers: u64, worker: usize, section: Vec<u64>) -> Side
where
    E::Places: 'static,
{
    let (mut image, mut start) = formatted::<E>(workers);
    E::submit(&mut image, &mut start, worker, 1, &section);
    side(image, move |image| {
        image[HEAD + RECORD * worker] = section.len() as u64;
        let mut places = start;
        let mut made = 0;
        while E::turn(black_box(&mut *image), &mut places, worker) {
            made += 1;
        }
        made
    })
}

fn submit<E: Engine>(section: Vec<u64>) -> Side
where
    E::Places: 'static,
{
    let (image, start) = formatted::<E>(1);
    side(image, move |image| {
        image[HEAD] = 0;
        let mut places = start;
        E::submit(image, &mut places, 0, 1, black_box(&section));
        black_box(places);
        1
    })
}

/// An image of eight workers in which each section has made so many turns.
fn under_way<E: Engine>(sections: &[Vec<u64>], rounds: u16) -> Vec<u64> {
    let (mut image, mut places) = submitted::<E>(8, sections);
    E::run(&mut image, &mut places, rounds);
    image
}

fn recover<E: Engine>(sections: Vec<Vec<u64>>, rounds: u16) -> Side {
    side(under_way::<E>(&sections, rounds), |image| {
        black_box(E::recover(image));
        1
    })
}

fn turns_of_path<E: Engine>(section: Vec<u64>) -> Side {
    let path: Vec<u64> = (0..section.len() as u64).collect();
    side(vec![], move |_| {
        black_box(E::turns_of_path(black_box(&section), black_box(&path)));
        1
    })
}

fn moves<E: Engine>(section: Vec<u64>) -> Side
where
    E::Places: 'static,
{
    let (mut image, mut places) = formatted::<E>(1);
    image[CELL_24] = PLENTY;
    let mut number = 0;
    side(image, move |image| {
        number += 1;
        E::submit(image, &mut places, 0, number, &section);
        E::run(image, &mut places, u16::MAX);
        1
    })
}

fn day_sums<E: Engine>(frames: u64) -> Side {
    let day = day::drawn(frames);
    side(vec![0; 64 + 8 + 8], move |words| {
        let (locks, waited, moved) = E::day_sums(black_box(&day));
        words[..64].copy_from_slice(&locks);
        words[64..72].copy_from_slice(&waited);
        words[72..].copy_from_slice(&moved);
        frames
    })
}

impl Work {
    pub fn on<E: Engine>(self) -> Side
    where
        E::Places: 'static,
    {
        match self {
            Work::Run { workers, sections } => run::<E>(workers, sections),
            Work::Turns { workers, sections } => turns::<E>(workers, sections),
            Work::OneWorker { workers, worker, section } => one_worker::<E>(workers, worker, section),
            Work::Check { section, units } => side(vec![], move |_| {
                E::check(black_box(&section));
                units
            }),
            Work::HeldSets { section } => side(vec![], move |_| {
                black_box(&E::held_sets(black_box(&section)));
                1
            }),
            Work::TurnsOfPath { section } => turns_of_path::<E>(section),
            Work::TurnsFrom { section } => side(vec![], move |_| {
                black_box(E::turns_from(black_box(&section), 0));
                1
            }),
            Work::TurnsLeft { sections, rounds } => side(under_way::<E>(&sections, rounds), |image| {
                black_box(E::turns_left(image, 0));
                1
            }),
            Work::Submit { section } => submit::<E>(section),
            Work::Recover { sections, rounds } => recover::<E>(sections, rounds),
            Work::Format { workers } => side(formatted::<E>(workers).0, move |image| {
                black_box(E::format(image, workers));
                1
            }),
            Work::Move { section } => moves::<E>(section),
            Work::Day { frames } => day_sums::<E>(frames),
        }
    }
}
