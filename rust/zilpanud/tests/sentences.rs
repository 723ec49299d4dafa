//! What the check says of a section that is malformed or has a wrong length: causes 4 and 5, each with its step, its
//! sentence and the numbers of it. Causes 6 to 9 are in sentences_held.rs.
//!
//! Every row is worked out by hand from document 01's table of the kinds: of a malformed step the kind is looked at
//! first, then fields a, b, c in this order, then whether it ends the section in its place.

mod common;

use common::says::{passes, says};
use zilpanud::code::*;
use zilpanud::{Cause, Field, Why};

/// A section of four steps with this word as step 1; cause 5 is there.
fn says_5(word: u64, sentence: &str, why: Why) {
    says(&[acquire(3), word, release(3), finish()], Cause::Malformed { step: 1 }, sentence, why);
}

// ---- cause 4

#[test]
fn a_wrong_number_of_steps() {
    let no = Cause::Length;
    says(&[], no, "a ticket has 3 to 64 steps, and this one has 0", Why::Length { count: 0 });
    says(&[acquire(3)], no, "a ticket has 3 to 64 steps, and this one has 1", Why::Length { count: 1 });
    says(
        &[acquire(3), finish()],
        no,
        "a ticket has 3 to 64 steps, and this one has 2",
        Why::Length { count: 2 },
    );
    passes(&[acquire(3), release(3), finish()]);
    for count in [65, 66, 100, 256, 259, 300, 700, 65_539] {
        let sentence = format!("a ticket has 3 to 64 steps, and this one has {count}");
        // whatever the words are: 4 is tested before 5
        for word in [set(24, 5), acquire(64), 0, u64::MAX, finish()] {
            says(&vec![word; count], no, &sentence, Why::Length { count });
        }
    }
}

// ---- cause 5: the kind

#[test]
fn an_unknown_kind() {
    for kind in [0, 9, 10, 256, 65_535] {
        let sentence = format!("step 1 has kind {kind}, and the kinds are 1 to 8");
        // whatever the fields are
        for word in [instruction(kind, 0, 0, 0), instruction(kind, 65_535, 65_535, 65_535)] {
            says_5(word, &sentence, Why::NoKind { kind });
        }
    }
    // also as the last step, and as the first
    let section = [acquire(3), release(3), instruction(9, 0, 0, 0)];
    let no = Cause::Malformed { step: 2 };
    says(&section, no, "step 2 has kind 9, and the kinds are 1 to 8", Why::NoKind { kind: 9 });
    let section = [0, release(3), finish()];
    let no = Cause::Malformed { step: 0 };
    says(&section, no, "step 0 has kind 0, and the kinds are 1 to 8", Why::NoKind { kind: 0 });
}

// ---- cause 5: the fields

#[test]
fn a_bay_that_there_is_not() {
    passes(&[acquire(63), release(63), finish()]);
    let section = [acquire(64), release(64), finish()];
    let no = Cause::Malformed { step: 0 };
    says(&section, no, "step 0 names bay 64, and the bays are 0 to 63", Why::NoLock { lock: 64 });
    says_5(release(64), "step 1 names bay 64, and the bays are 0 to 63", Why::NoLock { lock: 64 });
    says_5(release(65_535), "step 1 names bay 65535, and the bays are 0 to 63", Why::NoLock { lock: 65_535 });
    // a before b and c
    let word = instruction(1, 512, 1, 1);
    says_5(word, "step 1 names bay 512, and the bays are 0 to 63", Why::NoLock { lock: 512 });
}

#[test]
fn a_word_that_there_is_not() {
    passes(&[acquire(3), set(519, 5), release(3), finish()]);
    let rows = [
        (set(520, 5), 520),
        (set(65_535, 0), 65_535),
        (add(520, 24, 24), 520),
        (add(24, 520, 24), 520),
        (add(24, 24, 520), 520),
        (sub(600, 700, 800), 600),
        (sub(24, 700, 800), 700),
        (less(24, 24, 800), 800),
        (less(own(8), 24, 24), 520),
        (jump_if_zero(520, 2), 520),
        // a before b and c, which are wrong too
        (instruction(7, 521, 0, 1), 521),
    ];
    for (step, word) in rows {
        let sentence = format!("step 1 names word {word}, and the words are 0 to 519");
        says_5(step, &sentence, Why::NoWord { word });
    }
    // kind 3's b and c are values: any
    passes(&[acquire(3), set(24, u32::MAX), set(25, 0x0208_ffff), release(3), finish()]);
}

#[test]
fn a_skip_that_goes_to_no_later_step() {
    passes(&[acquire(3), jump_if_zero(24, 2), release(3), finish()]);
    for target in [0, 1, 4, 5, 64, 65_535] {
        let sentence =
            format!("step 1 skips to step {target}, and a skip goes to a later step of its ticket");
        says_5(jump_if_zero(24, target), &sentence, Why::NotLater { target });
        // b before c
        says_5(instruction(7, 24, target, 9), &sentence, Why::NotLater { target });
    }
    // as the last step it has no later one, and that comes before its not being an end
    for target in [1, 2, 3] {
        let section = [acquire(3), release(3), jump_if_zero(512, target)];
        let sentence =
            format!("step 2 skips to step {target}, and a skip goes to a later step of its ticket");
        says(&section, Cause::Malformed { step: 2 }, &sentence, Why::NotLater { target });
    }
}

#[test]
fn a_field_that_is_not_0() {
    use Field::{A, B, C};
    let rows = [
        (instruction(1, 3, 1, 0), Kind::Acquire, B, 1, "step 1 has 1 in field b, which is 0 for kind 1"),
        (instruction(1, 3, 0, 2), Kind::Acquire, C, 2, "step 1 has 2 in field c, which is 0 for kind 1"),
        (instruction(1, 3, 4, 5), Kind::Acquire, B, 4, "step 1 has 4 in field b, which is 0 for kind 1"),
        (
            instruction(2, 3, 65_535, 0),
            Kind::Release,
            B,
            65_535,
            "step 1 has 65535 in field b, which is 0 for kind 2",
        ),
        (instruction(2, 63, 0, 7), Kind::Release, C, 7, "step 1 has 7 in field c, which is 0 for kind 2"),
        (instruction(7, 24, 2, 1), Kind::Jump, C, 1, "step 1 has 1 in field c, which is 0 for kind 7"),
        (instruction(7, 519, 3, 512), Kind::Jump, C, 512, "step 1 has 512 in field c, which is 0 for kind 7"),
        // a field comes before the place: these are no last steps either
        (instruction(8, 1, 0, 0), Kind::Finish, A, 1, "step 1 has 1 in field a, which is 0 for kind 8"),
        (instruction(8, 0, 2, 3), Kind::Finish, B, 2, "step 1 has 2 in field b, which is 0 for kind 8"),
    ];
    for (word, kind, field, value, sentence) in rows {
        says_5(word, sentence, Why::NotZero { kind, field, value });
    }
    let ends = [
        (instruction(8, 3, 2, 1), A, 3, "step 2 has 3 in field a, which is 0 for kind 8"),
        (instruction(8, 0, 2, 1), B, 2, "step 2 has 2 in field b, which is 0 for kind 8"),
        (instruction(8, 0, 0, 1), C, 1, "step 2 has 1 in field c, which is 0 for kind 8"),
    ];
    for (word, field, value, sentence) in ends {
        let why = Why::NotZero { kind: Kind::Finish, field, value };
        says(&[acquire(3), release(3), word], Cause::Malformed { step: 2 }, sentence, why);
    }
    // the last step of another kind: a field comes before the place
    let why = Why::NotZero { kind: Kind::Release, field: B, value: 1 };
    let section = [acquire(3), set(24, 5), instruction(2, 3, 1, 0)];
    says(&section, Cause::Malformed { step: 2 }, "step 2 has 1 in field b, which is 0 for kind 2", why);
}

// ---- cause 5: the place

#[test]
fn an_end_that_is_not_the_last_step() {
    says_5(finish(), "step 1 ends the ticket, and is not its last step", Why::FinishNotLast);
    // 5 comes before 6
    let section = [finish(), release(3), finish()];
    let no = Cause::Malformed { step: 0 };
    says(&section, no, "step 0 ends the ticket, and is not its last step", Why::FinishNotLast);
}

#[test]
fn a_last_step_that_is_no_end() {
    for last in [acquire(4), release(3), set(24, 5), add(24, 24, 24), sub(512, 513, 514), less(519, 0, 511)] {
        let section = [acquire(3), set(24, 5), last];
        let no = Cause::Malformed { step: 2 };
        says(&section, no, "step 2 is the last, and does not end the ticket", Why::LastNoFinish);
    }
    let mut long = vec![acquire(3)];
    long.resize(64, set(24, 5));
    let no = Cause::Malformed { step: 63 };
    says(&long, no, "step 63 is the last, and does not end the ticket", Why::LastNoFinish);
}

/// "5 over all steps": the lowest step that is malformed, also behind steps that fail 6 to 9.
#[test]
fn the_first_malformed_step() {
    let mut section = [set(512, 5), acquire(3), acquire(3), set(32, 5), acquire(64), set(520, 1), release(3)];
    let no = |step| Cause::Malformed { step };
    says(&section, no(4), "step 4 names bay 64, and the bays are 0 to 63", Why::NoLock { lock: 64 });
    section[4] = acquire(4);
    says(&section, no(5), "step 5 names word 520, and the words are 0 to 519", Why::NoWord { word: 520 });
    section[5] = release(4);
    says(&section, no(6), "step 6 is the last, and does not end the ticket", Why::LastNoFinish);
    section[6] = finish();
    let why = Why::FirstNoAcquire;
    let no = Cause::Unbracketed { step: 0 };
    says(&section, no, "step 0 takes no bay, and a ticket starts by taking one", why);
}
