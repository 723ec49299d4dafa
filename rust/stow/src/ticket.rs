//! `stow ticket` and `stow words`: tickets in words to frame lines, and the other way round.

use crate::frame::{self, Frame};
use crate::language::names::Names;
use crate::language::{self, frame_words, is_day, Item, Mistake};
use crate::player::Player;
use crate::refusal::{by_board, of_hand_in, Told};
use crate::trouble::{located, Trouble};
use zilpanud::{Refusal, WORKERS};

/// How many mistakes are told at once.
const TOLD: usize = 20;

/// The mistakes of a text, a line each.
pub fn mistakes(source: &str, mistakes: &[Mistake]) -> Trouble {
    let mut lines: Vec<String> = mistakes.iter().take(TOLD).map(|mistake| located(source, mistake)).collect();
    if mistakes.len() > TOLD {
        lines.push(located(source, format_args!("and {} mistakes more", mistakes.len() - TOLD)));
    }
    Trouble::Wrong(lines)
}

/// A refusal: which line, what is wrong, the cause, and the remedy below it.
fn refused(source: &str, line: usize, told: &Told, cause: u64) -> [String; 2] {
    let Told { what, remedy } = told;
    [located(source, format_args!("line {line}: {what} (cause {cause})")), format!("  {remedy}")]
}

/// What the library says of a line in words, on a fresh board of so many desks: what it refuses there it refuses
/// everywhere, but for a desk that is busy and a number that is finished.
fn check(source: &str, item: &Item, desks: usize, names: &Names) -> Option<[String; 2]> {
    let mut board = Player::fresh(desks).ok()?;
    match &item.frame {
        Frame::Board { desks } => {
            let cause = Player::fresh(*desks as usize).err()?;
            let (what, remedy) =
                (format!("no board has {desks} desks"), "a board has 1 to 8 desks".to_string());
            Some(refused(source, item.place.line, &Told { what, remedy }, cause.number()))
        }
        Frame::HandIn(ticket) => {
            let Refusal(cause) = board.submit(ticket).err()?;
            let place = |step: usize| {
                item.steps.get(step).map_or(format!("step {step}"), |at| format!("line {}", at.line))
            };
            let told = of_hand_in(cause, ticket, &board, names, &place);
            let step = cause.detail().and_then(|step| item.steps.get(step as usize));
            Some(refused(source, step.map_or(item.place.line, |at| at.line), &told, cause.number()))
        }
        Frame::Turns { desk, turns: 1.. } => {
            let Refusal(cause) =
                zilpanud::turn(&mut board.image, &mut board.cursors, *desk as usize).err()?;
            let told = by_board(cause, *desk as usize, 0, &board);
            Some(refused(source, item.place.line, &told, cause.number()))
        }
        Frame::Turns { .. } | Frame::Rounds { .. } | Frame::Cut => None,
    }
}

/// The desks of the board that a text begins with; where it has none, all that there can be.
fn desks(items: &[Item]) -> usize {
    match items.first().map(|item| &item.frame) {
        Some(Frame::Board { desks }) if Player::fresh(*desks as usize).is_ok() => *desks as usize,
        _ => WORKERS,
    }
}

/// The frame lines of a text, and what the library refuses of it. With a mistake there are none.
pub fn ticket(source: &str, bytes: &[u8], names: &mut Names) -> Result<(String, Vec<String>), Trouble> {
    let items = language::day(bytes, names).map_err(|found| mistakes(source, &found))?;
    if items.is_empty() {
        return Err(Trouble::wrong(located(
            source,
            "there is no ticket in it; 'desk 0 number 1' begins one",
        )));
    }
    let lines = items.iter().map(|item| format!("{}\n", item.frame)).collect();
    let desks = desks(&items);
    let refusals = items.iter().filter_map(|item| check(source, item, desks, names)).flatten().collect();
    Ok((lines, refusals))
}

/// The words of frame lines; and of the line that is malformed, what is wrong with it. Lines whose first has two digits
/// are a day, and that one is its board.
pub fn words(source: &str, bytes: &[u8], names: &Names) -> (String, Option<Trouble>) {
    let mut text = String::new();
    for (number, line) in (1..).zip(frame::lines(bytes)) {
        let read = if number == 1 && is_day(line) { frame::first_line(line) } else { frame::frame(line) };
        match read {
            Ok(frame) => text += &frame_words(&frame, names),
            Err(why) => {
                let what = format_args!("line {number} {why} (cause 14){}", frame::hint(number, why));
                return (text, Some(Trouble::wrong(located(source, what))));
            }
        }
    }
    let none = bytes.is_empty().then(|| Trouble::wrong(located(source, "there is no line in it")));
    (text, none)
}
