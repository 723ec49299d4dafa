//! All cuts of a call, played to their ends and folded into one number.

use crate::call::{tally, Call, Given, Made};
use crate::engine::Engine;
use std::fmt::Write;
use zilpanud::{Cursors, WORKERS};

/// Of a call that takes none.
const NOTHING: Given = Given { args: &[0; 8], section: &[] };

/// No call of a script makes more stores. One that is wrong and leaves any number ends too, and shows in the digest.
const MOST: u64 = 2000;

/// The digest so far, the plays in it, and whether each is told.
pub struct Digest<'a, E> {
    pub engine: E,
    pub value: u64,
    pub plays: u64,
    pub aloud: bool,
    pub out: &'a mut String,
}

/// The stores of an uncut call, by what it left of the highest number.
fn stores(uncut: &Made) -> u64 {
    (u64::MAX - uncut.left).min(MOST)
}

fn recover<E: Engine>(engine: E, image: &mut [u64], left: u64) -> Made {
    Call::Recover.make(engine, image, Cursors::IDLE, NOTHING, left)
}

impl<'a, E: Engine> Digest<'a, E> {
    pub fn new(engine: E, aloud: bool, out: &'a mut String) -> Self {
        Digest { engine, value: 14695981039346656037, plays: 0, aloud, out }
    }

    fn word(&mut self, word: u64) {
        self.value = (self.value ^ word).wrapping_mul(9).rotate_left(27);
    }

    /// Of an idle worker the step counts for nothing.
    fn made(&mut self, made: &Made) {
        made.told.numbers().iter().for_each(|&word| self.word(word));
        let (cursors, t) = (&made.cursors, &made.tally);
        for worker in 0..WORKERS {
            let turn = cursors.turn[worker];
            self.word(turn as u64);
            if turn != 255 {
                self.word(cursors.step[worker] as u64);
            }
        }
        self.word(cursors.held);
        [t.turns, t.waits, t.stores, t.already_free, t.others].iter().for_each(|&count| self.word(count));
    }

    /// An uncut call, with the stores left of the highest number, and the image after it.
    pub fn call(&mut self, made: &Made, image: &[u64]) {
        self.made(made);
        self.word(made.left);
        image.iter().for_each(|&word| self.word(word));
    }

    /// The end of a play: a recovery and a run until all are idle, both uncut.
    fn finish(&mut self, mut image: Vec<u64>, cut: String) {
        // 384 for each worker, more than enough
        let rounds = 384 * (workers(&image) as u16);
        let restored = recover(self.engine, &mut image, u64::MAX);
        let run = Call::Run(rounds);
        let ran = run.make(self.engine, &mut image, restored.cursors, NOTHING, restored.left);
        self.made(&restored);
        self.call(&ran, &image);
        self.plays += 1;
        if self.aloud {
            let (a, b, t) = (restored.told.text(&image), ran.told.text(&image), tally(&ran.tally));
            writeln!(self.out, "cut {cut}: {a}, {b}, {t}, {:016x}", self.value).unwrap();
        }
    }

    /// The plays from an image after a cut: at once to the end, and with each cut of a first recovery.
    fn recoveries(&mut self, cut: &[u64], k: u64) {
        let most = stores(&recover(self.engine, &mut cut.to_vec(), u64::MAX));
        self.finish(cut.to_vec(), k.to_string());
        for j in 0..=most {
            let mut image = cut.to_vec();
            recover(self.engine, &mut image, j);
            self.finish(image, format!("{k} and {j}"));
        }
    }

    /// The plays from all cuts of a call; the image stays.
    pub fn cuts(&mut self, call: Call, image: &[u64], cursors: Cursors, given: Given) {
        let most = stores(&call.make(self.engine, &mut image.to_vec(), cursors, given, u64::MAX));
        for k in 0..=most {
            let mut cut = image.to_vec();
            call.make(self.engine, &mut cut, cursors, given, k);
            self.recoveries(&cut, k);
        }
    }

    pub fn tell(&mut self) {
        writeln!(self.out, "{} plays: {:016x}", self.plays, self.value).unwrap();
    }
}

/// The workers that an image names, 8 at most.
pub fn workers(image: &[u64]) -> u64 {
    image.get(1).copied().unwrap_or(0) % 9
}
