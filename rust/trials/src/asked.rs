//! The sweep: cuts power after each store of a section of one worker, and then does as a client does that must not lose
//! the section nor have it carried out twice: recover, ask how the worker stands to the section's number, submit it
//! again where it is not begun, run; and all of that once more. The section is submitted again for the other answers
//! too, to see it refused. There are two: document 01's, and one that adds to its cell, where a second run would show.
//!
//! What it must print stands in `asked_sweep/stdout` and comes from `asked_sweep/rows.py`, which plays document 01's
//! rules for one worker and was written from that paper alone, and never from a run of this program:
//!
//!     python3 asked_sweep/rows.py >asked_sweep/stdout

use crate::engine::{Engine, No, Section};
use std::fmt::Write;
use zilpanud::{Cursors, Standing};

/// More stores than any call here makes.
const ENOUGH: u64 = 100_000;

/// The stores of the submit, and the turns that follow, one store each: every place of the cut.
const SUBMIT: u64 = 14;
const ALL: u64 = SUBMIT + 19;

/// A section under number 1: acquire 3; an assignment; release 3; finish. A call that is refused shows in what its row
/// tells, and its answer is not asked for.
struct Sweep<E> {
    engine: E,
    args: [u64; 8],
    words: [u64; 4],
    out: String,
}

impl<E: Engine> Sweep<E> {
    fn submit(&self, image: &mut [u64], cursors: &mut Cursors, mut left: u64) -> Result<(), No> {
        let section = Section { worker: 0, number: 1, args: &self.args, words: &self.words };
        self.engine.submit(image, cursors, &section, &mut left)
    }

    /// Formats, submits and makes turns until power goes after so many stores. The cursors are lost with it.
    fn cut(&self, image: &mut [u64], stores: u64) {
        let mut cursors = Cursors::IDLE;
        let _ = self.engine.format(image, 1, &mut cursors, &mut { ENOUGH });
        let _ = self.submit(image, &mut cursors, stores);
        for _ in SUBMIT..stores {
            let _ = self.engine.turn(image, &mut cursors, 0, &mut { 1 });
        }
    }

    /// A recovery that is cut after so many stores, and a whole one.
    fn recover(&self, image: &mut [u64], stores: u64) -> Cursors {
        let mut cursors = Cursors::IDLE;
        let _ = self.engine.recover(image, &mut cursors, &mut { stores });
        let _ = self.engine.recover(image, &mut cursors, &mut { ENOUGH });
        cursors
    }

    /// Asks, submits whatever the answer is, and runs to the end.
    fn client(&mut self, image: &mut [u64], cursors: &mut Cursors) {
        let stands = match self.engine.standing(image, 0, 1) {
            Ok(Standing::NotBegun) => "not begun".into(),
            Ok(Standing::Begun) => "begun".into(),
            Ok(Standing::Finished) => "finished".into(),
            Err(no) => format!("refused {}", no.cause),
        };
        let submitted = match self.submit(image, cursors, ENOUGH) {
            Ok(()) => "taken".into(),
            Err(no) => format!("refused {}", no.cause),
        };
        write!(self.out, "{stands}, {submitted}; ").unwrap();
        let _ = self.engine.run(image, cursors, 384, &mut { ENOUGH });
    }

    /// One place of the cut: what is told after the recovery, and in the end of cell 24 and of the last finished number.
    fn row(&mut self, image: &mut [u64], stores: u64, recovered: u64) {
        write!(self.out, "{stores}: ").unwrap();
        self.cut(image, stores);
        let mut cursors = self.recover(image, recovered);
        self.client(image, &mut cursors);
        self.client(image, &mut cursors);
        writeln!(self.out, "cell {}, number {}", image[32], image[593]).unwrap();
    }
}

/// Both sections: cell 24 := 5; and, with 5 as argument 0, cell 24 := cell 24 + argument 0. Each with a first recovery
/// that is itself cut after some of the three stores that it makes at most; after 0 it might as well not have been
/// started.
pub fn sweep<E: Engine>(engine: E) -> String {
    let mut out = String::new();
    for (argument, assignment) in [(0, 0x0003_0018_0000_0005), (5, 0x0004_0018_0018_0200)] {
        let words = [0x0001_0003_0000_0000, assignment, 0x0002_0003_0000_0000, 0x0008_0000_0000_0000];
        let mut sweep = Sweep { engine, args: [argument, 0, 0, 0, 0, 0, 0, 0], words, out };
        for recovered in 0..=3 {
            writeln!(sweep.out, "{assignment:016x}, recovery cut after {recovered}").unwrap();
            let mut image = [0; 666];
            (0..=ALL).for_each(|stores| sweep.row(&mut image, stores, recovered));
        }
        out = sweep.out;
    }
    out
}
