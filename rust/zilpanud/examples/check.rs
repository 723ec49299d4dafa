//! For the train: what the check says of a ticket, before a desk is free and without a board.
//!
//! ```text
//! check WORD ..
//! check $(printf '%04x%04x%04x%04x ' 1 3 0 0  3 32 0 5  2 3 0 0  8 0 0 0)
//! ```
//!
//! Each word is a step of sixteen hexadecimal digits (lower case), as a frame line has them. Prints `passes`, or the
//! first cause of 4 to 9 that the steps fail, its step, and what is wrong there:
//!
//! ```text
//! cause 8 at step 1: word 32 is in bay 4, which is not held at step 1
//! ```
//!
//! Ends with 0 if the ticket passes, with 1 if it does not, and with 2 if something given is no word.

use std::env;
use std::ffi::OsStr;
use std::fmt::Display;
use std::io::{self, Write};
use std::process::ExitCode;

/// Neither verdict: what was given cannot be checked, or the verdict not be printed.
const TROUBLE: u8 = 2;

fn trouble(what: impl Display) -> ExitCode {
    eprintln!("check: {what}");
    ExitCode::from(TROUBLE)
}

/// An instruction word from its digits.
fn instruction(text: &OsStr) -> Result<u64, String> {
    let is_digit = |byte: u8| matches!(byte, b'0'..=b'9' | b'a'..=b'f');
    let digits = text.to_str().filter(|text| text.len() == 16 && text.bytes().all(is_digit));
    let word = digits.and_then(|digits| u64::from_str_radix(digits, 16).ok());
    word.ok_or_else(|| format!("'{}' is not 16 hexadecimal digits (0 to 9, a to f)", text.display()))
}

/// The verdict in a line, and the status that goes with it.
fn verdict(section: &[u64]) -> (String, u8) {
    let Err(fault) = zilpanud::check(section) else {
        return ("passes".to_string(), 0);
    };
    let number = fault.cause().number();
    let line = match fault.step() {
        Some(step) => format!("cause {number} at step {step}: {fault}"),
        None => format!("cause {number}: {fault}"),
    };
    (line, 1)
}

fn main() -> ExitCode {
    let words: Result<Vec<u64>, String> = env::args_os().skip(1).map(|text| instruction(&text)).collect();
    let (line, status) = match words {
        Ok(section) if !section.is_empty() => verdict(&section),
        Ok(_) => return trouble("usage: check WORD .., each a step of 16 hexadecimal digits"),
        Err(no) => return trouble(no),
    };
    match writeln!(io::stdout(), "{line}") {
        Ok(()) => ExitCode::from(status),
        Err(error) => trouble(format_args!("standard output: {error}")),
    }
}
