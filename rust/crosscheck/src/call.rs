//! A call, as ours and as the twin's, and all that it gives.

use twin::{Left, Refusal, Working};
use zilpanud::{cut, Cursors, End, Passing, Standing, Tally, Turn};

#[derive(Clone, Debug)]
pub enum Call {
    Format { workers: u64 },
    Check { section: Vec<u64> },
    Submit { worker: usize, number: u64, args: [u64; 8], section: Vec<u64> },
    Turn { worker: usize },
    Run { rounds: u16 },
    Recover,
    IsIdle { worker: usize },
    Finished { worker: usize },
    Standing { worker: usize, number: u64 },
}

pub const SORTS: [&str; 9] =
    ["format", "check", "submit", "turn", "run", "recover", "is_idle", "finished", "standing"];

impl Call {
    /// Which of `SORTS` it is.
    pub fn sort(&self) -> usize {
        match self {
            Call::Format { .. } => 0,
            Call::Check { .. } => 1,
            Call::Submit { .. } => 2,
            Call::Turn { .. } => 3,
            Call::Run { .. } => 4,
            Call::Recover => 5,
            Call::IsIdle { .. } => 6,
            Call::Finished { .. } => 7,
            Call::Standing { .. } => 8,
        }
    }
}

pub const STORED: u64 = 32;
pub const PASSED: u64 = 33;
pub const WAITING: u64 = 34;
pub const IDLE: u64 = 35;
pub const SPENT: u64 = 36;

/// What a call is lent beside the image, and what it leaves there.
#[derive(Clone, Copy, PartialEq, Eq, Debug)]
pub struct Lent {
    pub step: [u8; 8],
    pub turn: [u8; 8],
    /// The mask of the locks held.
    pub held: u64,
    pub left: u64,
}

/// All that a call gives, but the image. Answers have the numbers of the exported functions: 0 done, 1 to 13 the
/// causes, 32 to 36 the other answers; `detail` is what goes with it, or what a question answers.
#[derive(Clone, Copy, PartialEq, Eq, Debug)]
pub struct Given {
    pub answer: u64,
    pub detail: u64,
    pub lent: Lent,
    pub tally: Tally,
    /// How many locks are held, as each counts them in the mask that it leaves.
    pub locks_held: u64,
}

fn of_ours<T>(result: Result<T, zilpanud::Refusal>, told: impl Fn(T) -> (u64, u64)) -> (u64, u64) {
    match result {
        Ok(answer) => told(answer),
        Err(no) => (no.0.number(), no.0.detail().unwrap_or(0)),
    }
}

pub fn told_turn(answer: Turn) -> (u64, u64) {
    match answer {
        Turn::Stored(index) => (STORED, index as u64),
        Turn::Passed(Passing::Jump) => (PASSED, 0),
        Turn::Passed(Passing::AlreadyFree) => (PASSED, 1),
        Turn::Passed(Passing::Others) => (PASSED, 2),
        Turn::Waiting(lock) => (WAITING, lock as u64),
        Turn::Idle => (IDLE, 0),
    }
}

/// The call on our engine.
pub fn ours(call: &Call, image: &mut [u64], lent: Lent) -> Given {
    let mut at = Cursors { step: lent.step, turn: lent.turn, held: lent.held };
    let mut left = lent.left;
    let mut tally = Tally::default();
    let done = |()| (0, 0);
    let (answer, detail) = match call {
        Call::Format { workers } => of_ours(cut::format(image, *workers as usize, &mut at, &mut left), done),
        Call::Check { section } => of_ours(zilpanud::check(section).map_err(Into::into), done),
        Call::Submit { worker, number, args, section } => {
            let taken = cut::submit(image, &mut at, *worker, *number, args, section, &mut left);
            of_ours(taken, done)
        }
        Call::Turn { worker } => of_ours(cut::turn(image, &mut at, *worker, &mut left), told_turn),
        Call::Run { rounds } => {
            let run = cut::run(image, &mut at, *rounds, &mut left);
            tally = run.map_or_else(|no| no.tally, |run| run.tally);
            of_ours(run.map_err(|no| no.refusal), |run| (if run.end == End::Spent { SPENT } else { 0 }, 0))
        }
        Call::Recover => of_ours(cut::recover(image, &mut at, &mut left), done),
        Call::IsIdle { worker } => of_ours(zilpanud::is_idle(image, &at, *worker), |idle| (0, idle as u64)),
        Call::Finished { worker } => of_ours(zilpanud::finished(image, *worker), |n| (0, n)),
        Call::Standing { worker, number } => {
            of_ours(zilpanud::standing(image, *worker, *number), |s| (0, told_standing(s)))
        }
    };
    let locks_held = at.locks_held() as u64;
    let Cursors { step, turn, held } = at;
    Given { answer, detail, lent: Lent { step, turn, held, left }, tally, locks_held }
}

fn told_standing(standing: Standing) -> u64 {
    match standing {
        Standing::NotBegun => 0,
        Standing::Begun => 1,
        Standing::Finished => 2,
    }
}

fn refused(no: Refusal) -> (u64, u64) {
    (no.number as u64, no.at as u64)
}

/// What the twin tells, the places that it leaves, and the stores that it makes if it is given enough. It says the
/// stores left only of a recovery; of the others the stores made follow from the answer: a formatting's length + 1, a
/// submit's section + 10, a turn's one, a run's tally.
fn twin_told(
    call: &Call,
    image: &mut [u64],
    at: Working,
    left: u64,
    tally: &mut twin::Tally,
) -> ((u64, u64), Working, u64) {
    let done = |(): ()| (0, 0);
    match call {
        Call::Format { workers } => {
            let (answer, after) = twin::format(image, *workers, left);
            let stores = if answer.is_ok() { image.len() as u64 + 1 } else { 0 };
            (answer.map_or_else(refused, done), after, stores)
        }
        Call::Check { section } => (twin::check(section).map_or_else(refused, done), at, 0),
        Call::Submit { worker, number, args, section } => {
            let (answer, after) = twin::hand_in(image, at, *worker as u64, *number, args, section, left);
            let stores = if answer.is_ok() { section.len() as u64 + 10 } else { 0 };
            (answer.map_or_else(refused, done), after, stores)
        }
        Call::Turn { worker } => {
            let (answer, after) = twin::turn(image, at, *worker as u64, left);
            let told = answer.map_or_else(refused, told_desk);
            (told, after, (told.0 == STORED) as u64)
        }
        Call::Run { rounds } => {
            let (end, after) = twin::run(image, at, *rounds, left, tally);
            (end.map_or_else(refused, told_end), after, tally.stores)
        }
        Call::Recover => {
            let mut meter = Left(left);
            let (answer, after) = twin::recover_with(image, &mut meter);
            (answer.map_or_else(refused, done), after, left - meter.0)
        }
        Call::IsIdle { worker } | Call::Finished { worker } => (asked(call, *worker, image, at), at, 0),
        Call::Standing { worker, number } => {
            let answer = twin::standing(image, *worker as u64, *number);
            (answer.map_or_else(refused, told_ticket), at, 0)
        }
    }
}

/// The call on the twin.
pub fn twins(call: &Call, image: &mut [u64], lent: Lent) -> Given {
    let at = Working { step: lent.step, turn: lent.turn, held: lent.held };
    let mut sums = twin::Tally::default();
    let ((answer, detail), after, stores) = twin_told(call, image, at, lent.left, &mut sums);
    let left = lent.left.saturating_sub(stores);
    let locks_held = after.bays_held() as u64;
    let Working { step, turn, held } = after;
    let twin::Tally { turns, waits, stores, already_free, others } = sums;
    let tally = Tally { turns, waits, stores, already_free, others };
    Given { answer, detail, lent: Lent { step, turn, held, left }, tally, locks_held }
}

fn told_end(end: twin::End) -> (u64, u64) {
    match end {
        twin::End::Idle => (0, 0),
        twin::End::Spent => (SPENT, 0),
    }
}

fn told_desk(answer: twin::Answer) -> (u64, u64) {
    match answer {
        twin::Answer::Stored(index) => (STORED, index as u64),
        twin::Answer::Passed(twin::Passing::Jump) => (PASSED, 0),
        twin::Answer::Passed(twin::Passing::AlreadyFree) => (PASSED, 1),
        twin::Answer::Passed(twin::Passing::Others) => (PASSED, 2),
        twin::Answer::Waiting(bay) => (WAITING, bay as u64),
        twin::Answer::Idle => (IDLE, 0),
    }
}

fn told_ticket(standing: twin::Standing) -> (u64, u64) {
    match standing {
        twin::Standing::NotBegun => (0, 0),
        twin::Standing::Begun => (0, 1),
        twin::Standing::Finished => (0, 2),
    }
}

/// The questions that the twin has not: causes 10 and 1, and whether a desk is idle, are those of a turn of it; the
/// last finished number is read in its record.
fn asked(call: &Call, worker: usize, image: &[u64], at: Working) -> (u64, u64) {
    let turned = twin::turn(&mut image.to_vec(), at, worker as u64, 0).0;
    if let Err(no @ Refusal { number: 1 | 10, .. }) = turned {
        return refused(no);
    }
    match call {
        Call::IsIdle { .. } => (0, (turned == Ok(twin::Answer::Idle)) as u64),
        _ => (0, image[twin::HEAD + twin::REC * worker + twin::LAST]),
    }
}
