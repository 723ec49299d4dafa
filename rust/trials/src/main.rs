//! Plays scripts of calls on the library that users link, or on the twin, and compares what they show with what is
//! stored. See usage().
//!
//! A script is lines. A line that is blank or begins with '#' says nothing. Any other is a verb with what it takes,
//! separated by blanks; a label may stand before it, up to ': ', and is printed. A number of exactly sixteen digits is
//! hexadecimal, as document 01 writes a word, and any other is decimal. The first line that is none of these is told on
//! standard error with its file and number, and ends its script; its label, and what a `show` names before what can't be
//! shown, are printed all the same.
//!
//! A script has an image, a working record (all idle at first, with no lock held), a section, eight arguments, and a
//! marked image and record.
//!
//!     image N FILL          a fresh image of N words, all FILL; the record is all idle
//!     overwrite AT VALUE    one word of the image
//!     put D STEP TURN       worker D of the record; turn 255 is idle; the locks held stay
//!     section LIST          the section: instructions with '/' between them, each its kind and fields (those left out
//!                           are 0) or its word in sixteen digits; '* N' behind one repeats it
//!     args A ..             the arguments, those left out 0
//!     mark                  marks image and record as they are
//!
//! A call is silent; the record becomes the one that it answers.
//!
//!     format D   submit D NUMBER   turn D   run ROUNDS   recover
//!     given N CALL          the call given N stores; without this it has more than enough
//!
//! What is shown:
//!
//!     show THING ..         in one line: answer (of the last call), tally, left (its stores left), kept (whether image
//!                           and record are those marked and the call took no store), idle (whether all workers are,
//!                           with no lock held), held (how many locks are, by the record)
//!     words AT ..           a line for each word, index and value as in document 01's listing
//!     cursors D ..          a line for each worker, step and turn
//!     changes               a line for each word that is not the marked one
//!     turns D N             N turns of worker D, each told with its number
//!     check LIST            the section, and the answer of its check
//!     sets LIST             the section, and the answer of the pass over its held sets by itself, lent 64 words of
//!                           ones; then a line for each of these words that is not 0, step and held set
//!     standing D NUMBER     how worker D stands to the section of this number
//!     path STEP ..          the turns along these steps of the section, up to eight
//!     needs STEP            the fewest turns and the most that the section needs from this step on
//!     remaining D           the same of worker D's section after a recovery
//!     say TEXT
//!
//! Cuts:
//!
//!     cuts CALL             from the state as it is, which stays: the call given 0, 1, 2 .. stores, up to all that it
//!                           makes, each then with a recovery uncut, or with one cut after each number of its stores
//!                           and a second one; then a run to the end. The number of these plays, and a digest of all
//!                           their answers and images
//!     list SEED CALLS       calls drawn from a seed, each with its cuts before it is made, and their digest so far
//!                           after some hundred plays
//!     deal R                makes the section the one of row R, of 14, that lists draw
//!     plays CALL, plays list SEED CALLS    the same, with a line for each play: this opens a digest that differs
//!
//! The file `data/trials` names the scripts. What they must show stands in `stdout`, which comes from the twin and never
//! from ours, and their bad lines stand in `stderr`. A new script is played by the twin, and what it shows is read by
//! someone who has document 01 at hand, before it is stored:
//!
//!     cd data && cargo run --release -- twin $(cat trials) >../stdout

mod asked;
mod call;
mod digest;
mod engine;
#[cfg(test)]
mod flaws;
mod lists;
mod ours;
mod reading;
mod script;
mod shown;
mod stored;
mod twins;

use engine::Engine;
use std::env;
use std::process::ExitCode;
use stored::{text, Played};

const USAGE: &str = "usage: trials ours|twin [script..]
  In rust/trials: plays the scripts that data/trials names, and the sweep, on the library or on the twin, and compares
  what they print with the files stdout, stderr and asked_sweep/stdout. Exits with 1 where they differ, and with 2 if a
  file cannot be read. Scripts that are named are played alone, and what they show is printed; exits with 1 if a line of
  one is bad.";

/// The scripts that are named, shown.
fn show<E: Engine>(engine: E, names: &[String]) -> Result<bool, String> {
    let mut played = Played::default();
    for name in names {
        played.script(engine, name, &text(name)?);
    }
    print!("{}", played.out);
    eprint!("{}", played.bad);
    Ok(played.bad.is_empty())
}

fn trials<E: Engine>(engine: E, who: &str, names: &[String]) -> Result<bool, String> {
    if !names.is_empty() {
        return show(engine, names);
    }
    match stored::compare(engine)? {
        Ok(scripts) => println!("{who}: {scripts} scripts and the sweep print what is stored"),
        Err(differences) => {
            eprintln!("{who}: not what is stored\n{differences}");
            return Ok(false);
        }
    }
    Ok(true)
}

fn main() -> ExitCode {
    let arguments: Vec<String> = env::args().skip(1).collect();
    let done = match arguments.split_first() {
        Some((who, names)) if who == "ours" => trials(ours::Ours, who, names),
        Some((who, names)) if who == "twin" => trials(twins::Twin, who, names),
        _ => Err(USAGE.into()),
    };
    match done {
        Ok(true) => ExitCode::SUCCESS,
        Ok(false) => ExitCode::from(1),
        Err(error) => {
            eprintln!("{error}");
            ExitCode::from(2)
        }
    }
}
