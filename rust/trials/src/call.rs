//! The calls of a script, and what they answer.

use crate::engine::{Engine, No, Section};
use zilpanud::{Cursors, End, Passing, Tally, Turn};

#[derive(Clone, Copy)]
pub enum Call {
    Format(u64),
    Submit { worker: u64, number: u64 },
    Turn(u64),
    Run(u16),
    Recover,
}

/// What a submit of a script has beside its worker and its number.
#[derive(Clone, Copy)]
pub struct Given<'a> {
    pub args: &'a [u64; 8],
    pub section: &'a [u64],
}

/// What a call answered and left. One that keeps no tally has one of zeros.
#[derive(Clone, Copy)]
pub struct Made {
    pub told: Told,
    pub cursors: Cursors,
    pub tally: Tally,
    pub left: u64,
}

#[derive(Clone, Copy)]
pub enum Told {
    Done,
    Taken,
    Turned(Turn),
    Ran(End),
    Refused(No),
}

impl Told {
    /// Tag, cause and value, as they go into a digest.
    pub fn numbers(self) -> [u64; 3] {
        match self {
            Told::Done | Told::Taken => [0; 3],
            Told::Turned(Turn::Stored(index)) => [1, 0, index as u64],
            Told::Turned(Turn::Passed(Passing::Jump)) => [2, 0, 0],
            Told::Turned(Turn::Passed(Passing::AlreadyFree)) => [2, 0, 1],
            Told::Turned(Turn::Passed(Passing::Others)) => [2, 0, 2],
            Told::Turned(Turn::Waiting(lock)) => [3, 0, lock as u64],
            Told::Turned(Turn::Idle) => [4, 0, 0],
            Told::Ran(End::AllIdle) => [5, 0, 0],
            Told::Ran(End::Spent) => [6, 0, 0],
            Told::Refused(no) => [7, no.cause, no.at],
        }
    }

    /// Of a store, the word that then stands there.
    pub fn text(self, image: &[u64]) -> String {
        match self {
            Told::Done => "done".into(),
            Told::Taken => "taken".into(),
            Told::Turned(Turn::Stored(index)) => word(image, index),
            Told::Turned(Turn::Passed(Passing::Jump)) => "passed".into(),
            Told::Turned(Turn::Passed(Passing::AlreadyFree)) => "passed already-free".into(),
            Told::Turned(Turn::Passed(Passing::Others)) => "passed anothers".into(),
            Told::Turned(Turn::Waiting(lock)) => format!("waiting {lock}"),
            Told::Turned(Turn::Idle) | Told::Ran(End::AllIdle) => "idle".into(),
            Told::Ran(End::Spent) => "spent".into(),
            Told::Refused(no) => refused(no),
        }
    }
}

pub fn refused(no: No) -> String {
    format!("refused {} {}", no.cause, no.at)
}

/// A word of the image as document 01's listing has it: its index in four digits, and its value in sixteen.
pub fn word(image: &[u64], index: usize) -> String {
    format!("{index:04x} {:016x}", image.get(index).copied().unwrap_or(0))
}

/// Turns, waits and stores; releases that found their lock already free, and another's.
pub fn tally(t: &Tally) -> String {
    format!("tally {} {} {} {} {}", t.turns, t.waits, t.stores, t.already_free, t.others)
}

impl Call {
    /// A call of a script, if the verb is one and has its numbers.
    pub fn of(verb: &str, numbers: &[u64]) -> Option<Call> {
        Some(match (verb, numbers) {
            ("format", &[workers]) => Call::Format(workers),
            ("submit", &[worker, number]) => Call::Submit { worker, number },
            ("turn", &[worker]) => Call::Turn(worker),
            ("run", &[rounds]) => Call::Run(rounds.try_into().ok()?),
            ("recover", &[]) => Call::Recover,
            _ => return None,
        })
    }

    /// As a script writes it.
    pub fn text(self) -> String {
        match self {
            Call::Format(workers) => format!("format {workers}"),
            Call::Submit { worker, number } => format!("submit {worker} {number}"),
            Call::Turn(worker) => format!("turn {worker}"),
            Call::Run(rounds) => format!("run {rounds}"),
            Call::Recover => "recover".into(),
        }
    }

    pub fn make<E: Engine>(
        self,
        engine: E,
        image: &mut [u64],
        mut cursors: Cursors,
        given: Given,
        mut left: u64,
    ) -> Made {
        let (at, stores, mut tally) = (&mut cursors, &mut left, Tally::default());
        let told = match self {
            Call::Format(workers) => engine.format(image, workers, at, stores).map(|()| Told::Done),
            Call::Submit { worker, number } => {
                let section = Section { worker, number, args: given.args, words: given.section };
                engine.submit(image, at, &section, stores).map(|()| Told::Taken)
            }
            Call::Turn(worker) => engine.turn(image, at, worker, stores).map(Told::Turned),
            Call::Run(rounds) => {
                let (end, counted) = engine.run(image, at, rounds, stores);
                tally = counted;
                end.map(Told::Ran)
            }
            Call::Recover => engine.recover(image, at, stores).map(|()| Told::Done),
        };
        Made { told: told.unwrap_or_else(Told::Refused), cursors, tally, left }
    }
}
