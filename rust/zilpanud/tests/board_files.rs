//! How boards are made and opened, and what is refused; a file that is refused is left as it was.

mod common;

use common::{boards, Folder, COUNT, LOCK_3, TICKET};
use std::error::Error;
use std::fs::{self, File};
use std::io::ErrorKind;
use std::os::unix::fs::MetadataExt;
use std::path::Path;
use std::process;
use std::thread;
use zilpanud::{image_len, BoardError, Cause, Refusal};

fn put(path: &Path, index: usize, word: u64) {
    let mut bytes = fs::read(path).unwrap();
    bytes[8 * index..8 * index + 8].copy_from_slice(&word.to_ne_bytes());
    fs::write(path, bytes).unwrap();
}

/// The error of an opening, which leaves the file as it was.
fn unopened(path: &Path) -> BoardError {
    let before = fs::read(path).unwrap();
    let error = boards::open(path).unwrap_err();
    assert_eq!(fs::read(path).unwrap(), before);
    assert_eq!(error.path(), path);
    assert!(error.to_string().starts_with(&format!("{}: ", path.display())), "{error}");
    error
}

#[test]
fn a_file_is_the_formatted_image_and_nothing_else() {
    let folder = Folder::new("formatted");
    for workers in 1..=8 {
        let name = format!("board-{workers}");
        drop(boards::create(folder.path(&name), workers).unwrap());
        let mut image = vec![7; image_len(workers)];
        zilpanud::format(&mut image, workers).unwrap();
        let bytes: Vec<u8> = image.iter().flat_map(|word| word.to_ne_bytes()).collect();
        assert_eq!(fs::read(folder.path(&name)).unwrap(), bytes);
    }
    assert_eq!(folder.names().len(), 8);
}

#[test]
fn numbers_of_workers_that_no_board_has() {
    let folder = Folder::new("wrong-workers");
    for workers in [0, 9, usize::MAX] {
        for made in [boards::create, boards::open_or_create] {
            let error = made(folder.path("board"), workers).unwrap_err();
            assert!(matches!(error, BoardError::Refused { refusal: Refusal(Cause::Image), .. }));
        }
    }
    assert!(folder.names().is_empty());
}

#[test]
fn what_is_there_is_not_made_again() {
    let folder = Folder::new("exists");
    let path = folder.path("board");
    for words in [&b""[..], b"something else"] {
        fs::write(&path, words).unwrap();
        let error = boards::create(&path, 1).unwrap_err();
        assert!(matches!(error, BoardError::Exists { .. }), "{error}");
        assert_eq!(fs::read(&path).unwrap(), words);
    }
    assert_eq!(folder.names(), ["board"]);
}

#[test]
fn what_is_not_there_is_not_opened() {
    let folder = Folder::new("not-found");
    let error = boards::open(folder.path("board")).unwrap_err();
    let BoardError::Io { action: "opened", source, .. } = &error else { panic!("{error}") };
    assert_eq!(source.kind(), ErrorKind::NotFound);
    assert!(error.source().is_some());
    assert!(folder.names().is_empty());
}

#[test]
fn paths_where_no_file_can_be() {
    let folder = Folder::new("no-file");
    for path in [folder.path("no-such-folder/board"), folder.path(""), "/".into(), "..".into(), "".into()] {
        for made in [boards::create, boards::open_or_create] {
            let error = made(path.clone(), 1).unwrap_err();
            assert!(matches!(error, BoardError::Io { .. } | BoardError::Exists { .. }), "{error}");
        }
        assert!(matches!(boards::open(&path), Err(BoardError::Io { .. })));
    }
    assert!(folder.names().is_empty());
}

#[test]
fn open_or_create_does_either() {
    let folder = Folder::new("either");
    let path = folder.path("board");
    let mut board = boards::open_or_create(&path, 2).unwrap();
    board.submit_next(1, &[0; 8], &TICKET).unwrap();
    board.run_to_idle().unwrap();
    drop(board);
    let mut board = boards::open_or_create(&path, 2).unwrap();
    assert_eq!(board.finished(1), Ok(1));
    // a recovery would withdraw this one
    board.submit_next(0, &[0; 8], &TICKET).unwrap();
    drop(board);
    let before = fs::read(&path).unwrap();
    let error = boards::open_or_create(&path, 3).unwrap_err();
    assert!(matches!(error, BoardError::Workers { found: 2, asked: 3, .. }), "{error}");
    assert_eq!(fs::read(&path).unwrap(), before);
    assert_eq!(folder.names(), ["board"]);
}

#[test]
fn one_at_a_time() {
    let folder = Folder::new("one-at-a-time");
    let path = folder.path("board");
    let board = boards::create(&path, 1).unwrap();
    for opened in [boards::open(&path), boards::open_or_create(&path, 1)] {
        let error = opened.unwrap_err();
        assert!(matches!(error, BoardError::InUse { .. }), "{error}");
    }
    assert!(matches!(boards::create(&path, 1), Err(BoardError::Exists { .. })));
    drop(board);
    let board = boards::open(&path).unwrap();
    assert!(matches!(unopened(&path), BoardError::InUse { .. }));
    drop(board);
    boards::open(&path).unwrap();
}

/// All of them at once where there is no file: one makes it, and each gets the board or is told that it is in use.
#[test]
fn many_at_once() {
    let folder = Folder::new("many-at-once");
    for round in 0..20 {
        let path = folder.path(&format!("board-{round}"));
        let open = || match boards::open_or_create(&path, 1) {
            Ok(mut board) => {
                board.submit_next(0, &[0; 8], &TICKET).unwrap();
                board.run_to_idle().unwrap();
                1
            }
            Err(BoardError::InUse { .. }) => 0,
            Err(error) => panic!("{error}"),
        };
        let had: u64 = thread::scope(|scope| {
            let threads: Vec<_> = (0..4).map(|_| scope.spawn(open)).collect();
            threads.into_iter().map(|thread| thread.join().unwrap()).sum()
        });
        assert!(had >= 1);
        assert_eq!(boards::open(&path).unwrap().finished(0), Ok(had));
    }
    assert_eq!(folder.names().len(), 20);
}

#[test]
fn lengths_that_no_board_has() {
    let folder = Folder::new("lengths");
    let path = folder.path("board");
    for bytes in [0, 1, 8, 4672, 5327, 5329, 5336, 9919, 9921, 10576] {
        fs::write(&path, vec![1; bytes]).unwrap();
        let error = unopened(&path);
        assert!(matches!(error, BoardError::Length { bytes: found, .. } if found == bytes as u64));
        assert!(error.to_string().ends_with("5328, 5984, 6640, 7296, 7952, 8608, 9264, 9920"), "{error}");
    }
}

/// A file of which the system keeps only the first words, as a copy of a board may be: the rest reads as zeros.
fn sparse(path: &Path, image: &[u64]) {
    let words: Vec<u8> = image[..8].iter().flat_map(|word| word.to_ne_bytes()).collect();
    fs::write(path, words).unwrap();
    let file = File::options().write(true).open(path).unwrap();
    file.set_len(8 * image.len() as u64).unwrap();
}

/// The bytes that a file has room for on the disk.
fn room(path: &Path) -> u64 {
    512 * fs::metadata(path).unwrap().blocks()
}

/// A store into a hole would end the process where the disk is full: opening fills them, whoever opens.
#[test]
fn holes_are_filled() {
    let folder = Folder::new("holes");
    let mut image = vec![7; image_len(8)];
    zilpanud::format(&mut image, 8).unwrap();
    let bytes: Vec<u8> = image.iter().flat_map(|word| word.to_ne_bytes()).collect();
    for by_open in [true, false] {
        let path = folder.path(&format!("board-{by_open}"));
        sparse(&path, &image);
        assert_eq!(fs::read(&path).unwrap(), bytes);
        let before = room(&path);
        let opened = if by_open { boards::open(&path) } else { boards::open_or_create(&path, 8) };
        let mut board = opened.unwrap();
        assert!(room(&path) >= bytes.len() as u64, "{} bytes of room, and {before} before", room(&path));
        assert_eq!((board.image(), board.cells()), (image.clone(), [0; 512]));
        board.submit_next(7, &[0; 8], &TICKET).unwrap();
        board.run_to_idle().unwrap();
        assert_eq!((board.cell(24), board.finished(7)), (Some(5), Ok(1)));
    }
}

#[test]
fn a_damaged_board_is_refused_and_left() {
    let folder = Folder::new("damaged");
    let path = folder.path("board");
    let mut board = boards::create(&path, 1).unwrap();
    board.submit_next(0, &[0; 8], &TICKET).unwrap();
    board.run(6).unwrap();
    drop(board);
    let whole = fs::read(&path).unwrap();
    let damages = [
        (0, 0, Cause::Image),
        (1, 2, Cause::Image),
        (7, 1, Cause::Image),
        (COUNT, 3, Cause::Record { worker: 0 }),
        (LOCK_3 + 1, 1, Cause::Lock { lock: 4 }),
    ];
    for (index, word, cause) in damages {
        put(&path, index, word);
        let error = unopened(&path);
        let BoardError::Refused { refusal, .. } = error else { panic!("{error}") };
        assert_eq!(refusal, Refusal(cause));
        assert!(error.source().unwrap().to_string().contains(&cause.to_string()));
        // neither does one who would make it
        let error = boards::open_or_create(&path, 1).unwrap_err();
        assert!(matches!(error, BoardError::Refused { .. }), "{error}");
        fs::write(&path, &whole).unwrap();
    }
    assert_eq!(boards::open(&path).unwrap().run_to_idle().unwrap().tally.turns, 14);
}

/// What a process that was killed while it made a board can leave: a part of the image under the other name, or the
/// board under both names. The names are those that this process would take first.
#[test]
fn a_killed_making_hurts_nobody() {
    let folder = Folder::new("killed-making");
    let path = folder.path("board");
    let other = |n: usize| format!("board.{}-{n}.new", process::id());
    for n in 0..3 {
        fs::write(folder.path(&other(n)), vec![0; 1000 * n]).unwrap();
    }
    assert!(matches!(boards::open(&path), Err(BoardError::Io { .. })));
    drop(boards::open_or_create(&path, 2).unwrap());
    assert_eq!(folder.names(), ["board".to_string(), other(0), other(1), other(2)]);
    fs::hard_link(&path, folder.path(&other(3))).unwrap();
    let mut board = boards::open(&path).unwrap();
    board.submit_next(0, &[0; 8], &TICKET).unwrap();
    board.run_to_idle().unwrap();
    assert!(matches!(boards::create(&path, 2), Err(BoardError::Exists { .. })));
    drop(boards::create(folder.path("another"), 1).unwrap());
    assert_eq!((folder.names().len(), board.finished(0)), (6, Ok(1)));
}

/// Who opens a board and looks first sees it as it was left: a section that opening withdraws is still there, nobody else
/// can have the board meanwhile, and where the look ends in an error nothing is changed.
#[test]
fn a_board_is_looked_at_before_it_is_recovered() {
    let folder = Folder::new("looked-at");
    let path = folder.path("board");
    let (board, count) = boards::looking(&path, 1, |image| Ok(image[COUNT])).unwrap();
    assert_eq!((board.workers(), count), (1, 0));
    drop(board);
    boards::open(&path).unwrap().submit(0, 1, &[0; 8], &TICKET).unwrap();
    let left = fs::read(&path).unwrap();
    let in_use = |_: &[u64]| match boards::open(&path) {
        Err(BoardError::InUse { path }) => Err::<(), _>(BoardError::Exists { path }),
        other => panic!("{other:?}"),
    };
    assert!(matches!(boards::looking(&path, 1, in_use), Err(BoardError::Exists { .. })));
    assert_eq!(fs::read(&path).unwrap(), left);
    assert!(matches!(
        boards::looking(&path, 2, |_| Ok(())),
        Err(BoardError::Workers { found: 1, asked: 2, .. })
    ));
    let (board, count) = boards::looking(&path, 1, |image| Ok(image[COUNT])).unwrap();
    assert_eq!((count, board.image()[COUNT]), (TICKET.len() as u64, 0));
}
