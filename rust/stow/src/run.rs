//! `stow run`: a day played on a board in a file. A kill anywhere and the same command again leave what one
//! uninterrupted day leaves ([`follow`](crate::follow)).

use crate::day_file::{self, Underway};
use crate::follow::{follow, Heard, Report};
use crate::frame::{self, Frame, Malformed};
use crate::language::names::Names;
use crate::player::Player;
use crate::refusal::of_image;
use crate::say::counted;
use crate::system;
use crate::terminal::Progress;
use crate::trouble::{located, Trouble};
use std::path::Path;
use std::thread;
use std::time::Duration;
use zilpanud::{image_len, Board, BoardError, Refusal, WORKERS};

/// The frames of a whole day behind its first line, and its number of desks.
fn read(day: &[u8]) -> Result<(usize, Vec<Frame>), String> {
    let wrong = |line: u64, why: Malformed| format!("line {line} {why} (cause 14){}", frame::hint(line, why));
    let mut lines = frame::lines(day);
    let first = lines.next().ok_or("there is no line in it")?;
    let desks = match frame::first_line(first) {
        Ok(Frame::Board { desks }) => desks as usize,
        Ok(_) => 0,
        Err(why) => return Err(wrong(1, why)),
    };
    if !(1..=WORKERS).contains(&desks) {
        return Err(format!("line 1: no board has {desks} desks (cause 10)"));
    }
    let frames = (2..).zip(lines).map(|(number, line)| frame::frame(line).map_err(|why| wrong(number, why)));
    Ok((desks, frames.collect::<Result<_, _>>()?))
}

/// Why there is no board, in planners' words.
fn no_board(error: BoardError) -> Trouble {
    let path = error.path().display().to_string();
    match error {
        BoardError::Workers { found, asked, .. } => Trouble::wrong(format!(
            "{path}: the board has {found} desks, and the day is of {asked}; nothing was played"
        )),
        BoardError::Length { bytes, .. } => {
            Trouble::wrong(format!("{path}: a file of {bytes} bytes is no board"))
        }
        BoardError::Refused { refusal: Refusal(cause), .. } => {
            let told = of_image(cause, &Names::default());
            Trouble::wrong(format!("{path}: refused with {}: {}; {}", cause.number(), told.what, told.remedy))
        }
        BoardError::InUse { .. } => Trouble::cannot(format!("{path}: another program has this board open")),
        error => Trouble::cannot(error.to_string()),
    }
}

/// The board, recovered, and the day's start: that of a day that was cut, or the board as it is now.
fn start(path: &Path, day: &[u8], desks: usize) -> Result<(Board, Underway, bool), Trouble> {
    if Underway::read(path)?.is_some() && !path.exists() {
        let what = format!("{}: the board is gone, and a day is under way on it", path.display());
        return Err(Trouble::Wrong(vec![what, given_up(path, "bring the board back")]));
    }
    let board = system::board(path, desks).map_err(no_board)?;
    // once more, now that the board is locked: another run may just have come to its end
    match Underway::read(path)? {
        Some(kept) if kept.day == day && kept.start.len() == image_len(desks) => Ok((board, kept, true)),
        Some(_) => {
            let what = format!("{}: another day was cut on this board, and is not over", path.display());
            Err(Trouble::Wrong(vec![what, given_up(path, "run that day again first")]))
        }
        None => {
            let begun = Underway { start: board.image(), day: day.to_vec() };
            begun.keep(path)?;
            Ok((board, begun, false))
        }
    }
}

/// What can be done where a day cannot be gone on with.
fn given_up(path: &Path, remedy: &str) -> String {
    format!("  {remedy}; or remove {}, and the day is given up", day_file::path(path).display())
}

/// A day that was played to its end.
#[derive(Clone, PartialEq, Eq, Debug)]
pub struct Played {
    pub lines: usize,
    /// It had been cut before, and went on.
    pub went_on: bool,
    pub report: Report,
}

/// A day to be played on the board in a file.
pub struct Run<'a> {
    pub path: &'a Path,
    pub day: &'a [u8],
    /// The name that the day is told by.
    pub source: &'a str,
    pub names: &'a Names,
    /// Behind each turn.
    pub pause: Duration,
}

impl Run<'_> {
    /// Plays the day; where it was cut before, it is played on. When it is over that is told, and only then is it
    /// forgotten: whoever has not heard of it may give the command again.
    pub fn play(&self, tell: impl FnOnce(&Played) -> Result<(), Trouble>) -> Result<Played, Trouble> {
        let (desks, frames) = read(self.day).map_err(|what| {
            Trouble::wrong(located(self.source, format_args!("{what}; nothing was played")))
        })?;
        let (mut board, begun, went_on) = start(self.path, self.day, desks)?;
        let start =
            Player::recovered(begun.start, desks).map_err(|cause| self.stopped(&cause.to_string()))?;
        if went_on {
            self.try_out(&start, &frames, &board)?;
        }
        let lines = frames.len() + 1;
        let mut progress = Progress::new(lines);
        let mut hear = |heard: Heard| match heard {
            Heard::Line(line) => progress.at(line - 1),
            Heard::Turn if self.pause.is_zero() => {}
            Heard::Turn => thread::sleep(self.pause),
        };
        let followed = follow(start, &frames, self.names, &mut board, &mut hear);
        drop(progress);
        let report = followed.map_err(|trouble| self.stopped(&trouble.lines().join("; ")))?;
        let played = Played { lines, went_on, report };
        tell(&played)?;
        day_file::remove(self.path)?;
        Ok(played)
    }

    /// Whether a day that was cut can be gone on with on this board: tried in memory, before any of its turns is made.
    fn try_out(&self, start: &Player, frames: &[Frame], board: &Board) -> Result<(), Trouble> {
        let (image, cursors) = (board.image(), *board.cursors());
        let mut copy = Player { image, cursors, desks: start.desks };
        let tried = follow(start.clone(), frames, self.names, &mut copy, &mut |_| {});
        tried.map(|_| ()).map_err(|trouble| self.stopped(&trouble.lines().join("; ")))
    }

    /// A day that does not come to its end.
    fn stopped(&self, what: &str) -> Trouble {
        let what = format!("{}: the day cannot be gone on with: {what}", self.path.display());
        Trouble::Wrong(vec![what, given_up(self.path, "look at the board")])
    }
}

/// What a run came to, in words.
pub fn text(path: &Path, played: &Played) -> String {
    let (path, Played { lines, went_on, report }) = (path.display(), played);
    let Report { taken, finished, finished_before, withdrawn, refused, open } = report;
    let lines = counted(*lines as u64, "line");
    let cut = if *went_on { ", going on where the day was cut" } else { "" };
    let mut text =
        format!("{path}: {lines} played{cut}; {} taken, {finished} finished", counted(*taken, "ticket"));
    for (number, what) in [
        (withdrawn.len() as u64, "withdrawn"),
        (*finished_before, "left out, since finished before"),
        (refused.len() as u64, "refused"),
    ] {
        if number > 0 {
            text += &format!(", {number} {what}");
        }
    }
    text += match open.is_empty() {
        true => "; all desks are idle\n",
        false => "; the day ends with tickets under way:\n",
    };
    text + &open.iter().chain(withdrawn).map(|one| format!("  {one}\n")).collect::<String>()
}
