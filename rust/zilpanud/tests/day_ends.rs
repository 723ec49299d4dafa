//! Where the reading of a recorded day stops: at the end of its bytes, at a malformed line (14), or at a first line whose
//! number of workers no image has (10). The sums are those up to there.
//!
//! Every expectation is worked out by hand, from document 01's 'Frame lines' and document 02's 7/14: "a new kind 04, four
//! digits of rounds".

mod common;

use common::frames::{rounds, submit, turns, Expected, CUT, NO_TURNS};
use common::TICKET;
use zilpanud::{DayEnd, DaySums};

/// Five lines: two of the ticket's nineteen turns are made, and the cut withdraws it, since it is not begun. So no worker
/// is open in the rounds of the fifth.
fn five_lines() -> (String, Expected) {
    let day = format!("01\n{}{}{CUT}{}", submit(0, 1, &TICKET), turns(0, 2), rounds(9));
    (day, NO_TURNS.moved(0, 2))
}

/// Behind five lines, and before one that would count, a line is malformed.
fn malformed(line: impl AsRef<[u8]>) {
    let ((day, expected), line) = (five_lines(), line.as_ref());
    let behind = format!("{}{}", submit(0, 1, &TICKET), rounds(9));
    let end = DayEnd::Malformed { line: 6 };
    let whole = [day.as_bytes(), line, b"\n", behind.as_bytes()].concat();
    expected.up_to(6, end, &whole);
    if !line.is_empty() {
        expected.up_to(6, end, &whole[..day.len() + line.len()]);
    }
}

#[test]
fn the_last_line_may_end_with_the_bytes() {
    let (day, expected) = five_lines();
    expected.of(&day);
    expected.of(&day[..day.len() - 1]);
}

#[test]
fn a_line_of_rounds_has_six_digits() {
    for digits in ["04", "040", "0400", "04000", "0400010", "04000001", "040000000000000001"] {
        malformed(digits);
    }
    for other in ["04000g", "04000A", "04 001", "0x0401", "4 0001", "04000\r", "040001\r", " 40001"] {
        malformed(other);
    }
    malformed(b"04000\xb1");
    malformed(b"04\0\0\0\0");
}

#[test]
fn other_lines_of_no_kind() {
    for line in ["", "0", "00", "05", "050001", "1", "10", "40", "0a", "ff", "030", "0300", "03000001"] {
        malformed(line);
    }
    for line in ["02", "0200", "0200000", "020000010", "02 00001", "0200000G", "\r", "01", "0100"] {
        malformed(line);
    }
}

/// A submit has 148 digits and sixteen for each step. One digit less or more is malformed; 246 steps are the most that
/// 4,096 digits have room for.
#[test]
fn submits_by_their_length() {
    let line = |steps: usize| submit(0, 1, &vec![0; steps]).trim_end().to_string();
    for steps in [0, 1, 4, 64, 245] {
        let line = line(steps);
        malformed(&line[1..]);
        malformed(&line[..line.len() - 1]);
        malformed(format!("{line}0"));
        malformed(format!("{line}00000000"));
    }
    malformed(line(247));
    malformed(line(4_000));
    // well formed, and refused with 4
    let (day, expected) = five_lines();
    for steps in [0, 2, 65, 246] {
        expected.of(&format!("{day}{}\n{CUT}", line(steps)));
    }
}

/// More digits than a line may have, of every kind, and as many bytes that are none.
#[test]
fn long_lines() {
    for start in ["01", "02", "03", "04", "zz"] {
        for more in [4_094, 4_095, 10_000, 100_000] {
            malformed(format!("{start}{}", "0".repeat(more)));
        }
    }
}

#[test]
fn a_first_line_without_a_board() {
    for workers in (9..=255).chain([0]) {
        for behind in ["", "\n", "\n040001\nzz\n"] {
            let day = format!("{workers:02x}{behind}");
            NO_TURNS.up_to(1, DayEnd::NoBoard, day.as_bytes());
        }
    }
    for workers in 1..=8 {
        NO_TURNS.of(&format!("{workers:02x}\n{}", rounds(9)));
    }
}

#[test]
fn a_malformed_first_line() {
    for line in
        ["", "0", "1", "001", "010", "0A", "0g", " 1", "1 ", "01\r", "\t1", "0x1", "03000001", "040001"]
    {
        NO_TURNS.up_to(1, DayEnd::Malformed { line: 1 }, format!("{line}\n040001\n").as_bytes());
    }
    NO_TURNS.up_to(1, DayEnd::Malformed { line: 1 }, &[b'0'; 5_000]);
    NO_TURNS.up_to(1, DayEnd::Malformed { line: 1 }, b"\0\0\n");
}

/// "No line follows a byte 10 that ends the input", but one does behind each byte 10 before it.
#[test]
fn empty_lines() {
    for bytes in ["\n", "\n\n", "\n01\n"] {
        NO_TURNS.up_to(1, DayEnd::Malformed { line: 1 }, bytes.as_bytes());
    }
    NO_TURNS.of("01\n");
    NO_TURNS.up_to(2, DayEnd::Malformed { line: 2 }, b"01\n\n");
    NO_TURNS.up_to(2, DayEnd::Malformed { line: 2 }, b"01\n\n03\n");
}

#[test]
fn lines_are_counted() {
    for lines in [1, 2, 3, 255, 256, 257, 70_000] {
        let day = format!("01\n{}", CUT.repeat(lines - 1));
        NO_TURNS.of(&day);
        let line = lines as u64 + 1;
        NO_TURNS.up_to(line, DayEnd::Malformed { line }, format!("{day}z").as_bytes());
    }
}

#[test]
fn ends_say_why() {
    let said = |day: &str| {
        let DaySums { end, .. } = zilpanud::day_sums(day.as_bytes());
        (end.number(), end.to_string())
    };
    assert_eq!(said("01\n03"), (0, "all lines were read".to_string()));
    let malformed = "line 3 is malformed (14), and nothing behind it was read";
    assert_eq!(said("01\n03\n0z\n03\n"), (14, malformed.to_string()));
    let no_board = "no board has as many desks as line 1 says (10), and nothing behind it was read";
    assert_eq!(said("09\n03\n"), (10, no_board.to_string()));
}
