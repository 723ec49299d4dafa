//! Boards that change over: document 02's 5/14, "Boards change over only where a list as in demand 3 leaves every desk
//! idle, and what is promised from formatting counts from then on, with the board words and last finished numbers they
//! have."
//!
//! An image that such a list leaves has owner words, counts, pcs, intents and owned sets of 0. All else may be anything:
//! cells, log entries, numbers, finished numbers, own words, instructions.

mod common;

use common::held::stores;
use common::totals::*;
use common::*;
use std::fs;
use zilpanud::code::*;
use zilpanud::cut::ENOUGH;
use zilpanud::{cell_index, Cause, Cursors, End, Needs, Refusal, Run, Standing, Tally, Turn};

/// A worker's record has so many words.
const WORDS: usize = 82;

/// The finished numbers of workers 0 to 7.
const LAST: [u64; 8] = [5, 0, 1, HALF, TOP_1, TOP, 0x1_0000_0000, 41];

/// What the word at an index is if it may be anything.
fn any(index: usize) -> u64 {
    match index % 5 {
        0 => 0,
        1 => TOP_1,
        2 => HALF,
        3 => index as u64,
        _ => 0x9e37_79b9_7f4a_7c15_u64.rotate_left(index as u32),
    }
}

/// An image of so many workers at rest, with anything in the words that may have it.
fn at_rest(workers: usize) -> World {
    let mut world = World::formatted(workers);
    (cell_index(0)..cell_index(512)).for_each(|index| world.image[index] = any(index));
    for (worker, last) in LAST.into_iter().enumerate().take(workers) {
        for offset in (2..6).chain(8..WORDS) {
            let index = RECORD + WORDS * worker + offset;
            world.image[index] = if offset == 9 { last } else { any(index) };
        }
    }
    world
}

/// The recovery of a board that changes over. Document 01: "each desk's intention := owed", which is 0 where it was 0;
/// no other store is due.
fn changed_over(workers: usize) -> World {
    let mut world = at_rest(workers);
    let before = world.image.clone();
    (world.at, world.left) = (ODD, 100);
    assert_eq!(world.recover(), Ok(()));
    assert_eq!((&world.image, world.at), (&before, Cursors::IDLE));
    assert_eq!(world.left, 100 - workers as u64);
    world.left = ENOUGH;
    world
}

// ---- the recovery

#[test]
fn a_recovery_changes_no_word_and_finds_all_idle() {
    for workers in 1..=8 {
        let mut world = changed_over(workers);
        let before = world.image.clone();
        for worker in 0..workers {
            assert_eq!(zilpanud::is_idle(&world.image, &world.at, worker), Ok(true));
            assert_eq!(zilpanud::turns_left(&world.image, worker), Ok(Needs { fewest: 0, most: 0 }));
            assert_eq!(world.turn(worker), Ok(Turn::Idle));
        }
        for rounds in [0, 1, 384] {
            assert_eq!(world.run(rounds), Ok(Run { end: End::AllIdle, tally: Tally::default() }));
        }
        assert_eq!((world.image, world.at.locks_held()), (before, 0));
    }
}

/// Another word that is not 0 there, and it is no image at rest: the recovery stores, or refuses.
#[test]
fn only_an_image_at_rest_is_left_as_it_is() {
    let kept = |index: usize, word: u64| {
        let mut world = at_rest(2);
        world.image[index] = word;
        let before = world.image.clone();
        world.recover() == Ok(()) && world.image == before
    };
    assert!(kept(NUMBER, 0));
    for index in [COUNT, PC, INTENT, OWNED, COUNT + WORDS, PC + WORDS, LOCK_3] {
        assert!(!kept(index, 1), "word {index}");
    }
}

// ---- finished numbers

#[test]
fn finished_numbers_are_kept() {
    let world = changed_over(8);
    for (worker, last) in LAST.into_iter().enumerate() {
        assert_eq!(zilpanud::finished(&world.image, worker), Ok(last));
        for (number, standing) in [(0, Standing::Finished), (last, Standing::Finished)] {
            assert_eq!(zilpanud::standing(&world.image, worker, number), Ok(standing));
        }
        if last != TOP {
            assert_eq!(zilpanud::standing(&world.image, worker, last + 1), Ok(Standing::NotBegun));
        }
    }
}

/// Numbers up to the last finished one are refused with 3, and the next one is taken. After 2^64 − 1 there is none.
#[test]
fn numbers_go_on_above_the_finished_ones() {
    for (worker, last) in LAST.into_iter().enumerate() {
        let mut world = changed_over(8);
        let before = (world.image.clone(), world.at, world.left);
        for number in [0, 1, 5, 41, HALF, TOP_1, TOP].into_iter().filter(|&number| number <= last) {
            assert_eq!(world.submit(worker, number, &TICKET), Err(Refusal(Cause::Number)));
            assert_eq!((world.image.clone(), world.at, world.left), before);
        }
        let Some(next) = last.checked_add(1) else {
            continue;
        };
        assert_eq!(world.submit(worker, next, &TICKET), Ok(()));
        assert_eq!(world.run(384 * 8).unwrap().end, End::AllIdle);
        assert_eq!(zilpanud::finished(&world.image, worker), Ok(next));
        assert_eq!(world.submit(worker, next, &TICKET), Err(Refusal(Cause::Number)));
    }
}

// ---- sections from there on

/// On worker 1, whose record comes behind another: cell 24, which is index 32, has 2^63, cell 25 has 33.
const STEPS: [u64; 3] = [add(24, 24, 24), sub(25, 25, own(0)), sub(26, 24, own(1))];

/// The cells after that: 2^63 and 2^63 stop, 33 less 34 stops, and 2^64 − 1 less 2^64 − 3 is 2.
fn after(mut cells: Vec<u64>) -> Vec<u64> {
    (cells[24], cells[25], cells[26]) = (TOP, 0, 2);
    cells
}

fn cells(world: &World) -> Vec<u64> {
    world.image[cell_index(0)..cell_index(512)].to_vec()
}

fn submit(world: &mut World) -> Result<(), Refusal> {
    world.submit_with(1, 1, &[34, TOP_2, 0, 0, 0, 0, 0, 0], &under_lock_3(&STEPS))
}

/// 6 + 3 × 4 + 6 + 3 turns: cut after each, and a section that is not begun is submitted again. Every cell and every
/// finished number that is not the section's is as it was.
#[test]
fn sections_start_from_the_cells_that_there_are() {
    assert_eq!((any(32), any(33)), (HALF, 33));
    for turns in 0..=27 {
        let mut world = changed_over(3);
        let before = cells(&world);
        submit(&mut world).unwrap();
        stores(&mut world, 1, turns);
        world.at = ODD;
        world.recover().unwrap();
        world.run(384 * 3).unwrap();
        if turns < 5 {
            assert_eq!(cells(&world), before);
            assert_eq!(zilpanud::standing(&world.image, 1, 1), Ok(Standing::NotBegun));
            submit(&mut world).unwrap();
            world.run(384 * 3).unwrap();
        }
        assert_eq!(cells(&world), after(before), "cut after {turns}");
        let finished = [0, 1, 2].map(|worker| zilpanud::finished(&world.image, worker).unwrap());
        assert_eq!(finished, [LAST[0], 1, LAST[2]]);
    }
}

/// A word that went round before, 2 below nothing, is a large number from then on, until a section sets it right.
#[test]
fn a_word_that_went_round_stays() {
    let more = under_lock_3(&[add(24, 24, own(0))]);
    let right = under_lock_3(&[set(24, 0)]);
    for (sections, expected) in [(vec![&more], TOP), (vec![&right, &more], 5)] {
        let mut world = changed_over(1);
        world.image[CELL_24] = TOP_1;
        for (section, number) in sections.into_iter().zip(LAST[0] + 1..) {
            world.submit_with(0, number, &[5; 8], section).unwrap();
            world.run(384).unwrap();
        }
        assert_eq!(world.image[CELL_24], expected);
    }
}

// ---- in a file

/// An older program's file: opening it changes no byte, and it goes on from there.
#[test]
fn a_board_in_a_file() {
    let folder = Folder::new("change-over");
    let path = folder.path("board");
    drop(boards::create(&path, 6).unwrap());
    let old = at_rest(6).image;
    let bytes: Vec<u8> = old.iter().flat_map(|word| word.to_ne_bytes()).collect();
    fs::write(&path, &bytes).unwrap();
    for _ in 0..2 {
        let mut board = boards::open(&path).unwrap();
        assert_eq!(board.run_to_idle(), Ok(Run { end: End::AllIdle, tally: Tally::default() }));
        assert_eq!(board.cells(), &old[cell_index(0)..cell_index(512)]);
        for (worker, last) in LAST.into_iter().enumerate().take(6) {
            assert_eq!((board.is_idle(worker), board.finished(worker)), (Ok(true), Ok(last)));
        }
        drop(board);
        assert_eq!(fs::read(&path).unwrap(), bytes);
    }
    let mut board = boards::open(&path).unwrap();
    assert_eq!(board.submit_next(0, &[0; 8], &TICKET), Ok(6));
    assert_eq!(board.submit_next(4, &[0; 8], &TICKET), Ok(TOP));
    assert_eq!(board.submit_next(5, &[0; 8], &TICKET), Err(Refusal(Cause::Number)));
    board.run_to_idle().unwrap();
    assert_eq!((board.finished(0), board.finished(4), board.cell(24)), (Ok(6), Ok(TOP), Some(5)));
}
