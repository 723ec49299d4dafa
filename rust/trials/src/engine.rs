//! What a script is played on: the calls of an engine and its questions, by the library or by the twin.

use zilpanud::{Cursors, End, Needs, Standing, Tally, Turn};

/// A refusal: document 01's cause, and the step, worker or lock that goes with it, 0 where there is none.
#[derive(Clone, Copy, PartialEq, Eq, Debug)]
pub struct No {
    pub cause: u64,
    pub at: u64,
}

/// Calls that store take the stores that they make off `left`, and make none where none is left. Any arguments will do.
pub trait Engine: Copy {
    /// The cursors that it is lent are not read.
    fn format(self, image: &mut [u64], workers: u64, cursors: &mut Cursors, left: &mut u64)
        -> Result<(), No>;
    fn submit(
        self,
        image: &mut [u64],
        cursors: &mut Cursors,
        section: &Section,
        left: &mut u64,
    ) -> Result<(), No>;
    fn turn(self, image: &mut [u64], cursors: &mut Cursors, worker: u64, left: &mut u64) -> Result<Turn, No>;
    /// The tally is that of the turns made, also where the run is refused.
    fn run(
        self,
        image: &mut [u64],
        cursors: &mut Cursors,
        rounds: u16,
        left: &mut u64,
    ) -> (Result<End, No>, Tally);
    /// The cursors that it is lent are not read.
    fn recover(self, image: &mut [u64], cursors: &mut Cursors, left: &mut u64) -> Result<(), No>;

    /// How many locks a record says are held.
    fn locks_held(self, cursors: &Cursors) -> u64;
    fn standing(self, image: &[u64], worker: u64, number: u64) -> Result<Standing, No>;
    fn check(self, words: &[u64]) -> Result<(), No>;
    /// The 64 words that it is lent become the sets, all 0 where it refuses.
    fn held_sets(self, words: &[u64], sets: &mut [u64; 64]) -> Result<(), No>;
    fn turns_of_path(self, words: &[u64], path: &[u64]) -> Result<u64, No>;
    fn turns_from(self, words: &[u64], step: u64) -> Result<Needs, No>;
    /// No number goes with its refusals.
    fn turns_left(self, image: &[u64], worker: u64) -> Result<Needs, No>;
}

/// What a submit is given: to whom, under which number, with which arguments and instructions.
#[derive(Clone, Copy)]
pub struct Section<'a> {
    pub worker: u64,
    pub number: u64,
    pub args: &'a [u64; 8],
    pub words: &'a [u64],
}
