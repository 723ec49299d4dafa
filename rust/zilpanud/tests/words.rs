//! Versions, sizes, instruction words and texts.

mod common;

use common::{CELL_24, LOCK_3, TICKET};
use std::error::Error;
use zilpanud::code::*;
use zilpanud::{cell_index, image_len, owner_index, Cause, Refusal, RefusedRun, Tally};

#[test]
fn versions_agree() {
    let part = |text: &str| text.parse::<u64>().unwrap();
    let (major, minor) = (part(env!("CARGO_PKG_VERSION_MAJOR")), part(env!("CARGO_PKG_VERSION_MINOR")));
    let patch = part(env!("CARGO_PKG_VERSION_PATCH"));
    assert_eq!(zilpanud::VERSION, 1_000_000 * major + 1_000 * minor + patch);
    assert_eq!(zilpanud::version(), zilpanud::VERSION);
}

#[test]
fn sizes_are_those_of_document_01() {
    assert_eq!((image_len(1), image_len(8)), (666, 1240));
    assert_eq!((cell_index(0), cell_index(24), cell_index(511)), (8, CELL_24, 519));
    assert_eq!((owner_index(0), owner_index(3), owner_index(63)), (520, LOCK_3, 583));
    assert_eq!((lock_of(0), lock_of(24), lock_of(511)), (0, 3, 63));
    assert_eq!((own(0), own(7)), (512, 519));
    assert_eq!((zilpanud::LOCKS, zilpanud::STEPS), (64, 64));
}

#[test]
fn instructions_are_those_of_document_01() {
    let kinds = [
        (acquire(63), 0x0001_003f_0000_0000),
        (release(3), 0x0002_0003_0000_0000),
        (set(24, 0x1234_5678), 0x0003_0018_1234_5678),
        (add(1, 2, 3), 0x0004_0001_0002_0003),
        (sub(1, 2, 519), 0x0005_0001_0002_0207),
        (less(own(0), 2, 3), 0x0006_0200_0002_0003),
        (jump_if_zero(24, 9), 0x0007_0018_0009_0000),
        (finish(), 0x0008_0000_0000_0000),
    ];
    for (word, expected) in kinds {
        assert_eq!(word, expected);
    }
    let ticket = [0x0001_0003_0000_0000, 0x0003_0018_0000_0005, 0x0002_0003_0000_0000, 0x0008_0000_0000_0000];
    assert_eq!(TICKET, ticket);
}

#[test]
fn causes_have_the_numbers_of_document_01() {
    for number in 1..=13 {
        assert_eq!(Cause::of(number, 5).unwrap().number(), number);
    }
    assert_eq!((Cause::of(0, 0), Cause::of(14, 0)), (None, None));
}

/// A refusal's text has its number, what goes with it, and what to do.
#[test]
fn refusals_say_what_is_wrong() {
    for number in 1..=13 {
        let cause = Cause::of(number, 41).unwrap();
        let text = Refusal(cause).to_string();
        assert!(text.starts_with(&format!("refused with {number}: ")), "{text}");
        assert_eq!(text.contains("41"), cause.detail() == Some(41), "{text}");
        assert!(text.ends_with(cause.advice()), "{text}");
    }
    let text = Refusal(Cause::Number).to_string();
    assert_eq!(
        text,
        "refused with 3: the number is not above the last one that the worker finished; give one above it"
    );
}

#[test]
fn a_refused_run_says_what_was_made() {
    let refusal = Refusal(Cause::Cursor { worker: 6 });
    let tally = Tally { turns: 41, waits: 2, stores: 30, already_free: 3, others: 1 };
    let run = RefusedRun { refusal, tally };
    assert_eq!(run.to_string(), format!("{refusal} (41 turns were made before it)"));
    assert_eq!(run.source().unwrap().to_string(), refusal.to_string());
    assert_eq!(Refusal::from(run), refusal);
}
