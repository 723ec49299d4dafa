//! Any bytes: no command panics on them, and none says that a line is malformed where the library does not. The inputs
//! are drawn from a fixed seed: right ones, right ones with something changed, and bytes that were never right.

mod common;

use common::Draw;
use std::fs;
use std::time::Duration;
use stow::day_file;
use stow::explain::{explain, End, How};
use stow::language::names::Names;
use stow::language::{day, names_file};
use stow::look::Look;
use stow::player::Player;
use stow::run::Run;
use stow::ticket::{ticket, words};
use stow::{picture, show, waits};
use zilpanud::{day_sums, image_len, Cause, DayEnd, WORKERS};

const INPUTS: u64 = 3_000;

/// Words that a text may have, and some that it may not.
const TEXT: [&str; 44] = [
    "take",
    "drop",
    "word",
    "own",
    "bay",
    "if",
    "is",
    "go",
    "to",
    "step",
    "end",
    "desk",
    "desks",
    "number",
    "with",
    "turns",
    "rounds",
    "cut",
    "board",
    "of",
    "let",
    "code",
    "shed",
    "north",
    "done",
    ":=",
    ":",
    "=",
    "+",
    "-",
    "<",
    "..",
    ";",
    "\n",
    "\n",
    "#",
    "0",
    "3",
    "24",
    "512",
    "65536",
    "18446744073709551616",
    "0001000300000000",
    "Kõrge \u{2212} \u{feff}",
];

fn text(draw: &mut Draw) -> Vec<u8> {
    let words: Vec<&str> = (0..draw.below(60)).map(|_| draw.of(&TEXT)).collect();
    words.join(if draw.one_in(9) { "" } else { " " }).into_bytes()
}

fn frames(draw: &mut Draw) -> Vec<u8> {
    let (desks, lines) = (1 + draw.below(8) as u8, draw.below(20));
    let frames = common::day(draw, desks, lines);
    common::bytes(desks, &frames)
}

fn any_bytes(draw: &mut Draw) -> Vec<u8> {
    (0..draw.below(80)).map(|_| draw.next() as u8).collect()
}

/// A byte changed, put in, taken out; a part cut off or doubled.
fn changed(draw: &mut Draw, mut bytes: Vec<u8>) -> Vec<u8> {
    for _ in 0..draw.below(4) {
        let at = draw.below(bytes.len() as u64 + 1) as usize;
        match draw.below(5) {
            0 => bytes.truncate(at),
            1 => bytes.insert(at, draw.of(b"\n\r 0f:;#Zg\x00\xff")),
            2 if at < bytes.len() => bytes[at] = draw.of(b"\n\r 0123456789abcdefF:;\x00\xff"),
            3 if at < bytes.len() => drop(bytes.remove(at)),
            4 => bytes.extend_from_within(at..),
            _ => {}
        }
    }
    bytes
}

fn input(draw: &mut Draw) -> Vec<u8> {
    let right = match draw.below(4) {
        0 => text(draw),
        1 => {
            let (text, _) = words("", &frames(draw), &Names::default());
            text.into_bytes()
        }
        2 => any_bytes(draw),
        _ => frames(draw),
    };
    if draw.one_in(4) {
        right
    } else {
        changed(draw, right)
    }
}

fn names() -> Names {
    let mut names = Names::default();
    names_file("let shed = word 24\nlet north = bay 3\nlet Kõrge = own 0".as_bytes(), &mut names).unwrap();
    names
}

#[test]
fn texts_and_days_of_any_bytes() {
    let (mut draw, names) = (Draw(2026), names());
    let (mut read, mut malformed, mut taken) = (0, 0, 0);
    for _ in 0..INPUTS {
        let bytes = input(&mut draw);
        let _ = names_file(&bytes, &mut names.clone());
        if let Ok((lines, _)) = ticket("any", &bytes, &mut names.clone()) {
            taken += 1;
            let (again, trouble) = words("any", lines.as_bytes(), &names);
            assert!(trouble.is_none() && !again.is_empty());
        }
        let sums = day_sums(&bytes);
        for how in [How::Steps, How::Turns, How::Brief] {
            let end = explain(&bytes, &names, how, &mut vec![]).unwrap();
            match (end, sums.end) {
                (End::Read, DayEnd::Read) => read += 1,
                (End::Malformed { line, .. }, DayEnd::Malformed { line: by_library }) => {
                    assert_eq!(line, by_library);
                    malformed += 1;
                }
                (End::NoBoard { .. }, DayEnd::NoBoard) => {}
                (end, by_library) => panic!("{end:?}, and by the library {by_library:?}: {bytes:?}"),
            }
        }
        assert!(waits::text(&sums, &names).contains("desk"));
        assert!(picture::waits(&sums, &names, "any").ends_with("</svg>\n"));
    }
    assert!(read > 500 && malformed > 500 && taken > 100, "{read} {malformed} {taken}");
}

/// Boards in the midst of a day, with words changed to others: those that a board has, and any.
#[test]
fn images_of_any_words() {
    let (mut draw, names) = (Draw(1_702), names());
    let (mut sound, mut unsound, mut none) = (0, 0, 0);
    for _ in 0..INPUTS {
        let desks = 1 + draw.below(8) as usize;
        let mut player = Player::fresh(desks).unwrap();
        for frame in common::day(&mut draw, desks as u8, 8) {
            let told = player.play(&frame, &mut Unseen);
            told.unwrap();
        }
        let mut image = player.image;
        for _ in 0..draw.below(6) {
            let index = draw.below(image.len() as u64) as usize;
            let other = draw.below(image.len() as u64) as usize;
            let any = draw.next();
            image[index] = draw.of(&[image[other], any, any >> 56, 1 << 63 | any >> 58, u64::MAX]);
        }
        match Look::of(&image) {
            Err(cause) => {
                assert_eq!((cause, zilpanud::finished(&image, 0).is_err()), (Cause::Image, true));
                none += 1;
            }
            Ok(look) => {
                assert_eq!((look.desks.len(), look.bays.len()), (desks, 64));
                assert!(show::text(&look, &names).starts_with("board of "));
                assert!(picture::board(&look, &names, "any").ends_with("</svg>\n"));
                *if look.unsound.is_none() { &mut sound } else { &mut unsound } += 1;
            }
        }
    }
    assert!(sound > 500 && unsound > 500 && none > 10, "{sound} {unsound} {none}");
    for len in [0, 1, 8, image_len(1) - 1, image_len(WORKERS) + 1] {
        assert_eq!(Look::of(&vec![1; len]), Err(Cause::Image));
    }
}

struct Unseen;

impl stow::player::Watch for Unseen {
    type Error = std::convert::Infallible;
    fn see(&mut self, _: stow::player::Event<'_>, _: &Player) -> Result<(), Self::Error> {
        Ok(())
    }
}

/// Runs of any bytes, on boards of any bytes, with any bytes as the day under way: a board that is no board is left as it
/// was, and so is every board where the day is refused.
#[test]
fn runs_of_any_bytes() {
    let mut draw = Draw(33);
    let folder = std::env::temp_dir().join(format!("stow-fuzz-{}", std::process::id()));
    fs::create_dir_all(&folder).unwrap();
    let board = folder.join("board");
    let mut played = 0;
    for _ in 0..INPUTS / 10 {
        let _ = fs::remove_file(&board);
        let _ = fs::remove_file(day_file::path(&board));
        let bytes = input(&mut draw);
        let (no_board, no_day) = (draw.one_in(4), draw.one_in(4));
        if no_board {
            fs::write(&board, any_bytes(&mut draw)).unwrap();
        }
        if no_day {
            fs::write(day_file::path(&board), any_bytes(&mut draw)).unwrap();
        }
        let before = fs::read(&board).ok();
        let run =
            Run { path: &board, day: &bytes, source: "", names: &Names::default(), pause: Duration::ZERO };
        match run.play(|_| Ok(())) {
            Ok(_) => {
                assert!(!no_board && !no_day && !day_file::path(&board).exists());
                played += 1;
            }
            Err(trouble) => {
                assert!(trouble.status() > 0 && !trouble.lines().is_empty());
                assert!(before.is_none() || fs::read(&board).ok() == before);
            }
        }
    }
    assert!(played > 10, "{played}");
    fs::remove_dir_all(&folder).unwrap();
}

#[test]
fn the_day_of_no_lines() {
    assert!(day(b"", &mut Names::default()).unwrap().is_empty());
    let mut text = vec![];
    assert_eq!(explain(b"", &Names::default(), How::Steps, &mut text).unwrap(), End::Read);
    assert!(text.is_empty());
}
