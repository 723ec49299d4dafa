//! Refusals in words, with what can be done about them. Which cause it is, and at which step, is the library's answer.

use crate::frame::Ticket;
use crate::language::names::Names;
use crate::player::Player;
use crate::say::{bay, bays, is_are, step, words_of_bay};
use zilpanud::{Cause, Fault, Why};

/// What is wrong, and a remedy: each a sentence without its full stop.
#[derive(Clone, PartialEq, Eq, Debug)]
pub struct Told {
    pub what: String,
    pub remedy: String,
}

fn told(what: impl Into<String>, remedy: impl Into<String>) -> Told {
    Told { what: what.into(), remedy: remedy.into() }
}

/// What the check finds wrong at a step. `place` says where another step is: by its line, or by its number.
fn fault(fault: &Fault, names: &Names, place: &dyn Fn(usize) -> String) -> Told {
    match fault.cause() {
        Cause::Length => length(fault),
        Cause::Malformed { .. } => malformed(fault, place),
        _ => misplaced(fault, names, place),
    }
}

fn length(fault: &Fault) -> Told {
    let remedy = match fault.why() {
        Why::Length { count } if count > 64 => "make two tickets of it, each with its own takes and drops",
        _ => "the shortest ticket is a take, a drop and an end",
    };
    told(fault.to_string(), remedy)
}

/// Cause 5: the step is no step at all.
fn malformed(fault: &Fault, place: &dyn Fn(usize) -> String) -> Told {
    match fault.why() {
        Why::NoKind { kind } => {
            told(format!("a step of kind {kind}: the kinds are 1 to 8"), "write the step in words")
        }
        Why::NoLock { lock } => told(format!("there is no bay {lock}"), "the bays are 0 to 63"),
        Why::NoWord { word } => {
            told(format!("there is no word {word}"), "the words are 0 to 511 on the board, and own 0 to 7")
        }
        Why::NotLater { target } => {
            let target = place(target as usize);
            told(
                format!("the skip goes to {target}, and no later step of the ticket is there"),
                "a skip goes forward",
            )
        }
        Why::NotZero { kind, field, value } => {
            let kind = kind as u16;
            told(
                format!("field {field} of this step is {value}, and for kind {kind} it is 0"),
                "write the step in words",
            )
        }
        Why::FinishNotLast => told(
            "the ticket ends here, and steps follow",
            "a ticket has one end, its last step; 'desk' begins the next",
        ),
        Why::LastNoFinish => {
            told("this is the ticket's last step, and it is no 'end'", "write 'end' behind it")
        }
        _ => told(fault.to_string(), "write the step in words"),
    }
}

/// Causes 6 to 9: the step does not fit the bays that are held.
fn misplaced(fault: &Fault, names: &Names, place: &dyn Fn(usize) -> String) -> Told {
    let bay = |number: u16| bay(names, number as usize);
    let held_now = |held| format!("held: {}", bays(names, held));
    match fault.why() {
        Why::FirstNoAcquire => {
            told("a ticket starts by taking a bay, and this is no 'take'", "take the bays first")
        }
        Why::HeldAtFinish { held } => told(
            format!("the ticket ends with {} held", bays(names, held)),
            "drop before the end what was taken",
        ),
        Why::NothingHeld => told(
            "no bay is held here, and this is not the end",
            "drop the last bay right before the end, or make two tickets",
        ),
        Why::HeldAlready { lock, held } => {
            told(format!("{} is held here already; {}", bay(lock), held_now(held)), "leave this take out")
        }
        Why::NotAbove { lock, highest, held } => told(
            format!("{} is below {}, which is held here; {}", bay(lock), bay(highest), held_now(held)),
            format!("take bays in rising order: {} before {}", bay(lock), bay(highest)),
        ),
        Why::NotHeld { lock, held } => {
            told(format!("{} is not held here; {}", bay(lock), held_now(held)), "drop what is held, and once")
        }
        Why::Unguarded { word, lock, held } => told(
            format!("word {word} belongs to {}, which is not held here; {}", bay(lock), held_now(held)),
            unguarded(names, lock, held),
        ),
        Why::Unlevel { held, target, held_there } => {
            let (here, there) = (bays(names, held), bays(names, held_there));
            let (target, is) = (place(target as usize), is_are(held_there));
            told(
                format!("the skip leaves with {here} held and goes to {target}, where {there} {is} held"),
                "let the skip stay between the same takes and drops",
            )
        }
        _ => told(fault.to_string(), fault.cause().advice()),
    }
}

fn unguarded(names: &Names, lock: u16, held: u64) -> String {
    let missing = bay(names, lock as usize);
    match held.count_ones() {
        1 => {
            let only = held.trailing_zeros() as u16;
            let words = words_of_bay(only);
            format!(
                "take {missing} before it, or name one of the words {words} of {}",
                bay(names, only as usize)
            )
        }
        _ => format!("take {missing} before it, and drop it behind it"),
    }
}

/// `refused with 8: at step 1 (word 32 := 5), word 32 belongs to ..; take ..`
fn sentence(cause: Cause, at: &str, told: &Told) -> String {
    let Told { what, remedy } = told;
    format!("refused with {}: {at}{what}; {remedy}", cause.number())
}

/// Why a hand-in is refused: by the ticket's own steps, or by the board.
pub fn of_hand_in(
    cause: Cause,
    ticket: &Ticket,
    player: &Player,
    names: &Names,
    place: &dyn Fn(usize) -> String,
) -> Told {
    match zilpanud::check(&ticket.steps) {
        Err(found) if found.cause() == cause => fault(&found, names, place),
        _ => by_board(cause, ticket.desk as usize, ticket.number, player),
    }
}

/// The refusal of a ticket in a day, where steps go by their numbers.
pub fn of_ticket(cause: Cause, ticket: &Ticket, player: &Player, names: &Names) -> String {
    let told = of_hand_in(cause, ticket, player, names, &|step| format!("step {step}"));
    let at = cause.detail().and_then(|at| Some((at, *ticket.steps.get(at as usize)?)));
    let at = at.map(|(at, instruction)| format!("at step {at} ({}), ", step(names, instruction)));
    sentence(cause, &at.unwrap_or_default(), &told)
}

/// The refusal of a turn.
pub fn of_turn(cause: Cause, desk: usize, player: &Player) -> String {
    sentence(cause, "", &by_board(cause, desk, 0, player))
}

/// Why a board refuses a hand-in or a turn of a desk, whatever the steps are.
pub fn by_board(cause: Cause, desk: usize, number: u64, player: &Player) -> Told {
    let record = player.record(desk);
    let (finished, has) = record.map_or((0, 0), |record| (record.finished, record.number));
    match cause {
        Cause::Worker => {
            let last = player.desks.saturating_sub(1);
            told(format!("the board has no desk {desk}"), format!("its desks are 0 to {last}"))
        }
        Cause::Busy => told(
            format!("desk {desk} still has ticket {has}"),
            format!("let it end first: turns of desk {desk}, or rounds"),
        ),
        Cause::Number if number == 0 => told("0 is no ticket's number", "the first is 1"),
        Cause::Number => told(
            format!("desk {desk} has finished ticket {finished}, and {number} is not above it"),
            match finished.checked_add(1) {
                Some(next) => format!("a ticket that is done is not done again; the next number is {next}"),
                None => "the desk has had its last number".to_string(),
            },
        ),
        _ => told(cause.to_string(), cause.advice()),
    }
}

/// Why an image is refused by a recovery: causes 10, 12 and 13.
pub fn of_image(cause: Cause, names: &Names) -> Told {
    let keep =
        "something else changed the board: keep the file, and have it looked at; do not make the board anew";
    match cause {
        Cause::Image => told("its length, its first eight words or its number of desks is wrong", keep),
        Cause::Record { worker } => told(format!("desk {worker}'s record is not sound"), keep),
        Cause::Lock { lock } => told(
            format!(
                "two desks are owed {0}, or the lock word of {0} names no desk that means to have it",
                bay(names, lock)
            ),
            keep,
        ),
        _ => told(cause.to_string(), cause.advice()),
    }
}
