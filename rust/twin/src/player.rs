//! The line player: the lines of a day read and played one after the other, for `board`, which prints, and for the sums of a day,
//! which count (7/14).
use crate::frames::{first_line, frame, hex, Frame, LONGEST};
use crate::{format, hand_in, recover_with, turn, Answer, Passing, Refusal, Watched, Working, HEAD, REC};
use std::io::{self, BufRead};

/// What is told of a day while it is played.
pub trait Watch {
    /// A line of output: an index, fffe for a report or ffff for a refusal, and its value.
    fn line(&mut self, index: usize, value: u64) -> io::Result<()>;
    /// A turn that was not refused, so that its desk is below D.
    fn turned(&mut self, desk: usize, answer: Answer);
}

/// How the reading of a day ended.
#[derive(Clone, Copy, PartialEq, Eq, Debug)]
pub struct Ended {
    /// What stopped it: 14, 10 for a first line whose D formatting refuses, or 0 where all lines were read.
    pub cause: u64,
    /// The lines read, the one that stopped it too.
    pub lines: u64,
}

/// Plays a whole day.
pub fn play(mut input: impl BufRead, watch: &mut impl Watch) -> io::Result<Ended> {
    let mut line = Vec::with_capacity(LONGEST + 1);
    if !next_line(&mut input, &mut line)? {
        return Ok(Ended { cause: 0, lines: 0 });
    }
    let mut lines = 1;
    let mut player = match Player::start(&line) {
        Ok(player) => player,
        Err(cause) => return stopped(cause, lines, watch),
    };
    while next_line(&mut input, &mut line)? {
        lines += 1;
        let Some(frame) = frame(&line) else { return stopped(14, lines, watch) };
        player.play(frame, watch)?;
    }
    Ok(Ended { cause: 0, lines })
}

fn stopped(cause: u64, lines: u64, watch: &mut impl Watch) -> io::Result<Ended> {
    watch.line(0xffff, cause)?;
    Ok(Ended { cause, lines })
}

/// Reads one line without its byte 10 into `line` (at most LONGEST + 1 bytes of it); false at
/// the end of input.
fn next_line(input: &mut impl BufRead, line: &mut Vec<u8>) -> io::Result<bool> {
    line.clear();
    let got = io::Read::take(&mut *input, LONGEST as u64 + 1).read_until(b'\n', line)?;
    if line.last() == Some(&b'\n') {
        line.pop();
    }
    Ok(got > 0)
}

/// A board, and where its desks are.
struct Player {
    words: Vec<u64>,
    places: Working,
    desks: usize,
    /// The steps of the last hand-in; kept for its memory alone.
    steps: Vec<u64>,
}

impl Player {
    /// Formatted by the first line, or why not.
    fn start(line: &[u8]) -> Result<Player, u64> {
        let desks = first_line(line).ok_or(14u64)?;
        let mut words = vec![0; HEAD + REC * desks as usize];
        let (done, places) = format(&mut words, desks, u64::MAX);
        done.map_err(|no| no.number as u64)?;
        Ok(Player { words, places, desks: desks as usize, steps: Vec::with_capacity(LONGEST / 16) })
    }

    fn play(&mut self, frame: Frame, watch: &mut impl Watch) -> io::Result<()> {
        match frame {
            Frame::HandIn { desk, number, args, steps } => {
                self.steps.clear();
                self.steps.extend(steps.chunks_exact(16).map(hex));
                let (done, places) =
                    hand_in(&mut self.words, self.places, desk, number, &args, &self.steps, u64::MAX);
                self.places = places;
                refused(done, watch)
            }
            Frame::Turns { desk, turns } => self.turns(desk, turns, watch),
            Frame::Cut => self.cut(watch),
            Frame::Rounds { rounds } => self.rounds(rounds, watch),
        }
    }

    /// One turn, with what is printed for it; no answer if it was refused, which ends its line.
    fn turn(&mut self, desk: u64, watch: &mut impl Watch) -> io::Result<Option<Answer>> {
        let (answer, places) = turn(&mut self.words, self.places, desk, u64::MAX);
        self.places = places;
        let answer = match answer {
            Ok(answer) => answer,
            Err(no) => return refused(Err(no), watch).map(|()| None),
        };
        match answer {
            Answer::Stored(index) => watch.line(index, self.words[index])?,
            Answer::Passed(Passing::AlreadyFree) => watch.line(0xfffe, 0)?,
            Answer::Passed(Passing::Others) => watch.line(0xfffe, 1)?,
            Answer::Passed(Passing::Jump) | Answer::Waiting(_) | Answer::Idle => (),
        }
        watch.turned(desk as usize, answer);
        Ok(Some(answer))
    }

    fn turns(&mut self, desk: u64, turns: u16, watch: &mut impl Watch) -> io::Result<()> {
        for _ in 0..turns {
            match self.turn(desk, watch)? {
                None => break,
                Some(Answer::Idle) => break, // and so would all that follow, which count nowhere
                Some(_) => (),
            }
        }
        Ok(())
    }

    /// Rounds as in a run: each open desk one turn, by rising number, until all are idle. How they end is not printed.
    fn rounds(&mut self, rounds: u16, watch: &mut impl Watch) -> io::Result<()> {
        for _ in 0..rounds {
            if (0..self.desks).all(|d| self.places.idle(d)) {
                break;
            }
            for d in 0..self.desks {
                if !self.places.idle(d) && self.turn(d as u64, watch)?.is_none() {
                    return Ok(());
                }
            }
        }
        Ok(())
    }

    fn cut(&mut self, watch: &mut impl Watch) -> io::Result<()> {
        let mut failed = Ok(());
        let mut stores = Watched(|index, value| {
            if failed.is_ok() {
                failed = watch.line(index, value);
            }
        });
        let (done, places) = recover_with(&mut self.words, &mut stores);
        failed?;
        self.places = places;
        refused(done, watch)
    }
}

/// What is printed of a refused call.
fn refused(done: Result<(), Refusal>, watch: &mut impl Watch) -> io::Result<()> {
    done.or_else(|no| watch.line(0xffff, no.number as u64))
}
