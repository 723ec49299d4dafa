//! A board in a file: what its calls do, and how it goes on after it was dropped in the middle.

mod common;

use common::{boards, Folder, CELL_24, FINISHED, TICKET};
use std::fs;
use std::path::Path;
use zilpanud::{image_len, Board, Cause, End, Needs, Refusal, Run, Standing, Tally, Turn};

const NO_ARGS: [u64; 8] = [0; 8];

/// A board of two workers, worker 0 with the ticket submitted and so many turns made; dropped there.
fn left_after(path: &Path, turns: usize) {
    let mut board = boards::create(path, 2).unwrap();
    assert_eq!(board.submit_next(0, &NO_ARGS, &TICKET), Ok(1));
    for _ in 0..turns {
        assert!(matches!(board.turn(0).unwrap(), Turn::Stored(_)));
    }
}

#[test]
fn a_new_board() {
    let folder = Folder::new("a-new-board");
    let board = boards::create(folder.path("board"), 3).unwrap();
    assert_eq!(board.workers(), 3);
    assert_eq!(board.cells(), [0; 512]);
    for worker in 0..3 {
        assert_eq!((board.is_idle(worker), board.finished(worker)), (Ok(true), Ok(0)));
        assert_eq!(board.standing(worker, 1), Ok(Standing::NotBegun));
    }
    assert!((0..64).all(|lock| board.owner(lock).is_none()));
    assert_eq!(board.locks_held(), 0);
}

#[test]
fn a_section_from_submit_to_finish() {
    let folder = Folder::new("a-section");
    let mut board = boards::create(folder.path("board"), 2).unwrap();
    board.submit(1, 4, &NO_ARGS, &TICKET).unwrap();
    assert_eq!(board.turn(0), Ok(Turn::Idle));
    for _ in 0..2 {
        board.turn(1).unwrap();
    }
    assert_eq!((board.is_idle(1), board.owner(3), board.locks_held()), (Ok(false), Some(1), 1));
    assert_eq!(board.run(3).unwrap().end, End::Spent);
    assert_eq!(board.standing(1, 4), Ok(Standing::Begun));
    assert_eq!(board.turns_left(1), Ok(Needs { fewest: 14, most: 14 }));
    let tally = Tally { turns: 14, waits: 0, stores: 14, already_free: 0, others: 0 };
    assert_eq!(board.run_to_idle(), Ok(Run { end: End::AllIdle, tally }));
    assert_eq!((board.is_idle(1), board.owner(3), board.cell(24)), (Ok(true), None, Some(5)));
    assert_eq!(board.locks_held(), 0);
    assert_eq!((board.finished(1), board.standing(1, 4)), (Ok(4), Ok(Standing::Finished)));
    assert_eq!(board.submit_next(1, &NO_ARGS, &TICKET), Ok(5));
}

/// What is asked of a board is a copy: what is done on it later does not change what was taken.
#[test]
fn cells_and_words_are_copies() {
    let folder = Folder::new("copies");
    let mut board = boards::create(folder.path("board"), 2).unwrap();
    let (cells, image, record) = (board.cells(), board.image(), board.record(0).unwrap());
    assert_eq!((cells, record.number, image.len()), ([0; 512], 0, image_len(2)));
    board.submit(0, 7, &NO_ARGS, &TICKET).unwrap();
    board.run_to_idle().unwrap();
    assert_eq!((cells, record.number, image[CELL_24]), ([0; 512], 0, 0));
    assert_eq!((board.cells()[24], board.cell(24), board.image()[CELL_24]), (5, Some(5), 5));
    assert_eq!((board.record(0).unwrap().number, board.record(2)), (7, Err(Refusal(Cause::Worker))));
    drop(board);
    assert_eq!((cells[24], image[CELL_24]), (0, 0));
}

/// Dropped after each of the ticket's turns. The fifth makes it begun.
#[test]
fn a_begun_section_goes_on() {
    let folder = Folder::new("goes-on");
    for turns in 0..=19 {
        let path = folder.path(&format!("board-{turns}"));
        left_after(&path, turns);
        let mut board = boards::open(&path).unwrap();
        let (standing, idle) = match turns {
            0..=4 => (Standing::NotBegun, true),
            5..=16 => (Standing::Begun, false),
            // the finished number is stored, and the pc not yet 0
            17 => (Standing::Finished, false),
            _ => (Standing::Finished, true),
        };
        assert_eq!((board.standing(0, 1), board.is_idle(0)), (Ok(standing), Ok(idle)), "{turns} turns");
        // the lock is owed from the fifth turn on, and no longer when the 14th has stored that it is not owned
        assert_eq!(board.locks_held(), (5..14).contains(&turns) as usize, "{turns} turns");
        if standing == Standing::NotBegun {
            assert_eq!(board.cells(), [0; 512]);
            board.submit(0, 1, &NO_ARGS, &TICKET).unwrap();
        }
        assert_eq!(board.run_to_idle().unwrap().end, End::AllIdle);
        assert_eq!((board.cell(24), board.finished(0), board.owner(3)), (Some(5), Ok(1), None));
        assert_eq!(board.locks_held(), 0);
    }
}

/// A board that is opened again and again in the middle, with a turn in between, comes to the same end.
#[test]
fn opened_again_after_each_turn() {
    let folder = Folder::new("again-and-again");
    let path = folder.path("board");
    left_after(&path, 5);
    let mut opened = 0;
    loop {
        let mut board = boards::open(&path).unwrap();
        opened += 1;
        assert!(opened < 100, "it does not come to an end");
        // each opening goes on at the target store of the instruction that the pc names: so many turns pass it
        for _ in 0..6 {
            board.turn(0).unwrap();
        }
        if board.is_idle(0) == Ok(true) {
            assert_eq!((board.cell(24), board.finished(0)), (Some(5), Ok(1)));
            return;
        }
    }
}

/// After each of the ticket's turns a recovery leaves what opening the board there does: the image and the cursors.
#[test]
fn recovered_while_it_is_open() {
    let folder = Folder::new("recovered");
    for turns in 0..=19 {
        let (path, other) = (folder.path(&format!("board-{turns}")), folder.path(&format!("other-{turns}")));
        left_after(&path, turns);
        let opened = boards::open(&path).unwrap();

        let mut board = boards::create(&other, 2).unwrap();
        board.submit(0, 1, &NO_ARGS, &TICKET).unwrap();
        for _ in 0..turns {
            board.turn(0).unwrap();
        }
        assert_eq!(board.recover(), Ok(()));
        assert_eq!((board.image(), board.cursors()), (opened.image(), opened.cursors()), "{turns} turns");
    }
}

#[test]
fn workers_that_the_board_has_not() {
    let folder = Folder::new("no-such-worker");
    let mut board = boards::create(folder.path("board"), 2).unwrap();
    let no = Refusal(Cause::Worker);
    for worker in [2, 8, usize::MAX] {
        assert_eq!(board.submit(worker, 1, &NO_ARGS, &TICKET), Err(no));
        assert_eq!(board.submit_next(worker, &NO_ARGS, &TICKET), Err(no));
        assert_eq!(board.turn(worker), Err(no));
        assert_eq!(board.is_idle(worker), Err(no));
        assert_eq!(board.finished(worker), Err(no));
        assert_eq!(board.standing(worker, 1), Err(no));
        assert_eq!(board.turns_left(worker), Err(no));
    }
}

#[test]
fn cells_and_locks_that_the_board_has_not() {
    let folder = Folder::new("no-such-cell");
    let board = boards::create(folder.path("board"), 2).unwrap();
    for number in [512, 1000, usize::MAX] {
        assert_eq!(board.cell(number), None);
    }
    for number in [64, 65, usize::MAX] {
        assert_eq!(board.owner(number), None);
    }
}

/// There is no number above the largest: the section is refused, and nothing comes round.
#[test]
fn the_largest_number_has_no_next() {
    let folder = Folder::new("largest-number");
    let path = folder.path("board");
    drop(boards::create(&path, 1).unwrap());
    let mut bytes = fs::read(&path).unwrap();
    bytes[8 * FINISHED..8 * FINISHED + 8].fill(0xff);
    fs::write(&path, bytes).unwrap();
    let mut board = boards::open(&path).unwrap();
    assert_eq!(board.finished(0), Ok(u64::MAX));
    assert_eq!(board.submit_next(0, &NO_ARGS, &TICKET), Err(Refusal(Cause::Number)));
}

#[test]
fn a_board_may_go_to_another_thread() {
    fn goes<T: Send + Sync>() {}
    goes::<Board>();
    goes::<zilpanud::BoardError>();
}
