//! The two engines behind one interface: ours through the wrapper crate, the twin through its functions.

/// What the work calls of an engine. No call is cut, and none may be refused.
pub trait Engine {
    type Places: Copy;

    fn format(image: &mut [u64], workers: u64) -> Self::Places;
    fn check(section: &[u64]);
    fn held_sets(section: &[u64]) -> [u64; 64];
    fn turns_of_path(section: &[u64], path: &[u64]) -> u64;
    /// The fewest and the most.
    fn turns_from(section: &[u64], step: u64) -> (u64, u64);
    fn turns_left(image: &mut [u64], worker: usize) -> (u64, u64);
    fn submit(image: &mut [u64], places: &mut Self::Places, worker: usize, number: u64, section: &[u64]);
    /// Whether the worker was not idle.
    fn turn(image: &mut [u64], places: &mut Self::Places, worker: usize) -> bool;
    /// The turns made.
    fn run(image: &mut [u64], places: &mut Self::Places, rounds: u16) -> u64;
    fn recover(image: &mut [u64]) -> Self::Places;
    /// The sums of a recorded day, all of which is read: locks, workers' waits, workers' moves.
    fn day_sums(day: &[u8]) -> ([u64; 64], [u64; 8], [u64; 8]);
}

/// The arguments of every section: own words 512 to 519.
pub const ARGS: [u64; 8] = [1, 2, 3, 4, 5, 6, 7, 8];

pub struct Ours;

impl Engine for Ours {
    type Places = zilpanud::Cursors;

    fn format(image: &mut [u64], workers: u64) -> Self::Places {
        zilpanud::format(image, workers as usize).unwrap()
    }

    fn check(section: &[u64]) {
        zilpanud::check(section).unwrap();
    }

    fn held_sets(section: &[u64]) -> [u64; 64] {
        zilpanud::held_sets(section).unwrap()
    }

    fn turns_of_path(section: &[u64], path: &[u64]) -> u64 {
        zilpanud::turns_of_path(section, path).unwrap()
    }

    fn turns_from(section: &[u64], step: u64) -> (u64, u64) {
        let zilpanud::Needs { fewest, most } = zilpanud::turns_from(section, step).unwrap();
        (fewest, most)
    }

    fn turns_left(image: &mut [u64], worker: usize) -> (u64, u64) {
        let zilpanud::Needs { fewest, most } = zilpanud::turns_left(image, worker).unwrap();
        (fewest, most)
    }

    fn submit(image: &mut [u64], places: &mut Self::Places, worker: usize, number: u64, section: &[u64]) {
        zilpanud::submit(image, places, worker, number, &ARGS, section).unwrap();
    }

    fn turn(image: &mut [u64], places: &mut Self::Places, worker: usize) -> bool {
        zilpanud::turn(image, places, worker).unwrap() != zilpanud::Turn::Idle
    }

    fn run(image: &mut [u64], places: &mut Self::Places, rounds: u16) -> u64 {
        zilpanud::run(image, places, rounds).unwrap().tally.turns
    }

    fn recover(image: &mut [u64]) -> Self::Places {
        zilpanud::recover(image).unwrap()
    }

    fn day_sums(day: &[u8]) -> ([u64; 64], [u64; 8], [u64; 8]) {
        let sums = zilpanud::day_sums(day);
        assert_eq!(sums.end, zilpanud::DayEnd::Read);
        (sums.locks, sums.waited, sums.moved)
    }
}

pub struct Twin;

impl Engine for Twin {
    type Places = twin::Working;

    fn format(image: &mut [u64], workers: u64) -> Self::Places {
        let (answer, places) = twin::format(image, workers, u64::MAX);
        answer.unwrap();
        places
    }

    fn check(section: &[u64]) {
        twin::check(section).unwrap();
    }

    fn held_sets(section: &[u64]) -> [u64; 64] {
        twin::held_sets(section).unwrap()
    }

    fn turns_of_path(section: &[u64], path: &[u64]) -> u64 {
        twin::turns::turns_of_path(section, path).unwrap()
    }

    fn turns_from(section: &[u64], step: u64) -> (u64, u64) {
        twin::turns::turns_from(section, step).unwrap()
    }

    fn turns_left(image: &mut [u64], worker: usize) -> (u64, u64) {
        twin::turns::turns_left(image, worker as u64).unwrap()
    }

    fn submit(image: &mut [u64], places: &mut Self::Places, worker: usize, number: u64, section: &[u64]) {
        let desk = worker as u64;
        let (answer, after) = twin::hand_in(image, *places, desk, number, &ARGS, section, u64::MAX);
        answer.unwrap();
        *places = after;
    }

    fn turn(image: &mut [u64], places: &mut Self::Places, worker: usize) -> bool {
        let (answer, after) = twin::turn(image, *places, worker as u64, u64::MAX);
        *places = after;
        answer.unwrap() != twin::Answer::Idle
    }

    fn run(image: &mut [u64], places: &mut Self::Places, rounds: u16) -> u64 {
        let mut tally = twin::Tally::default();
        let (answer, after) = twin::run(image, *places, rounds, u64::MAX, &mut tally);
        answer.unwrap();
        *places = after;
        tally.turns
    }

    fn recover(image: &mut [u64]) -> Self::Places {
        let (answer, places) = twin::recover(image, u64::MAX);
        answer.unwrap();
        places
    }

    fn day_sums(day: &[u8]) -> ([u64; 64], [u64; 8], [u64; 8]) {
        let sums = twin::days::day_sums(day);
        assert_eq!(sums.cause, 0);
        (sums.bays, sums.waited, sums.moved)
    }
}
