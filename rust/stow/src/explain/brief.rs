//! A day told in a line for each ticket: what became of it, and in which line of the day.

use super::{open, End};
use crate::frame::{self, Ticket};
use crate::language::names::Names;
use crate::player::{Event, Player, Watch};
use crate::refusal::of_ticket;
use crate::say::{bay, counted, listed};
use std::collections::BTreeMap;
use std::convert::Infallible;
use std::io::{self, Write};
use zilpanud::{Cause, Place, RecordWord, Turn};

/// What became of a ticket.
struct Row {
    line: u64,
    desk: usize,
    number: u64,
    /// Refused, begun, cut, finished: in which lines.
    came: Vec<String>,
    is_begun: bool,
    /// Its number is the last finished one.
    is_finished: bool,
    /// Its desk still has it.
    is_open: bool,
    turns: u64,
    waits: BTreeMap<usize, u64>,
}

struct Brief<'a> {
    names: &'a Names,
    line: u64,
    rows: Vec<Row>,
    /// The row of the ticket that a desk has had last.
    last: BTreeMap<usize, usize>,
}

impl Brief<'_> {
    /// The ticket that a desk has.
    fn of(&mut self, desk: usize) -> Option<&mut Row> {
        let row = &mut self.rows[*self.last.get(&desk)?];
        row.is_open.then_some(row)
    }

    fn handed_in(&mut self, ticket: &Ticket, refused: Option<Cause>, player: &Player) {
        let (desk, number) = (ticket.desk as usize, ticket.number);
        let came = refused.map(|cause| of_ticket(cause, ticket, player, self.names));
        let (is_open, came) = (came.is_none(), came.into_iter().collect());
        let (line, turns, waits) = (self.line, 0, BTreeMap::new());
        let (is_begun, is_finished) = (false, false);
        if is_open {
            self.last.insert(desk, self.rows.len());
        }
        self.rows.push(Row { line, desk, number, came, is_begun, is_finished, is_open, turns, waits });
    }

    fn turned(&mut self, desk: usize, answer: Turn, times: u64) {
        let line = self.line;
        let Some(row) = self.of(desk) else {
            return;
        };
        let place = match answer {
            Turn::Waiting(bay) => {
                let waits = row.waits.entry(bay).or_insert(0);
                *waits = waits.saturating_add(times);
                return;
            }
            Turn::Stored(index) => Place::of(index),
            Turn::Passed(_) | Turn::Idle => None,
        };
        row.turns += 1;
        match place {
            Some(Place::Record { word: RecordWord::Pc, .. }) if !row.is_begun => {
                row.is_begun = true;
                row.came.push(format!("begun in line {line}"));
            }
            Some(Place::Record { word: RecordWord::Finished, .. }) => row.is_finished = true,
            Some(Place::Record { word: RecordWord::Count, .. }) => {
                row.is_open = false;
                row.came.push(format!("finished in line {line}"));
            }
            _ => {}
        }
    }

    fn recovered(&mut self, player: &Player) {
        let line = self.line;
        for desk in 0..player.desks {
            let at = player.at(desk);
            let finished = player.record(desk).map(|record| record.finished);
            let Some(row) = self.of(desk) else {
                continue;
            };
            row.is_open = at.is_some();
            row.came.push(match (at, finished == Some(row.number)) {
                (Some(_), _) => format!("cut and resumed in line {line}"),
                (None, true) => format!("cut in line {line} with its last store to make, and finished"),
                (None, false) => format!("cut in line {line} before it was begun, and withdrawn"),
            });
        }
    }

    fn say(&self, row: &Row) -> String {
        let Row { line, desk, number, came, is_begun, is_finished, is_open, turns, waits } = row;
        let mut came = came.clone();
        match (is_open, is_begun, is_finished) {
            (false, ..) => {}
            (true, false, _) => came.push("not begun at the end of the day".to_string()),
            (true, true, false) => came.push("under way at the end of the day".to_string()),
            (true, true, true) => {
                came.push("finished but for its last turns at the end of the day".to_string())
            }
        }
        let waits =
            waits.iter().map(|(lock, times)| format!("{times} that waited for {}", bay(self.names, *lock)));
        let waits = listed(waits);
        let turns = match (turns, waits.as_str()) {
            (0, "") => String::new(),
            (turns, "") => format!("; {}", counted(*turns, "turn")),
            (turns, waits) => format!("; {}, and {waits}", counted(*turns, "turn")),
        };
        format!("line {line}: desk {desk}, ticket {number}: {}{turns}", came.join(", "))
    }
}

impl Watch for Brief<'_> {
    type Error = Infallible;

    fn see(&mut self, event: Event<'_>, player: &Player) -> Result<(), Infallible> {
        match event {
            Event::HandedIn { ticket, refused } => self.handed_in(ticket, refused, player),
            Event::Turned { at, answer, times } => self.turned(at.desk, answer, times),
            Event::Recovered { refused: None, .. } => self.recovered(player),
            Event::Recovered { .. } | Event::Cut | Event::TurnRefused { .. } => {}
        }
        Ok(())
    }
}

pub fn told(day: &[u8], names: &Names, mut out: impl Write) -> io::Result<End> {
    let mut lines = frame::lines(day);
    let Some(first) = lines.next() else {
        return Ok(End::Read);
    };
    let mut player = match open(first) {
        Ok(player) => player,
        Err(end) => return Ok(end),
    };
    let mut brief = Brief { names, line: 1, rows: vec![], last: BTreeMap::new() };
    let mut end = End::Read;
    for (number, line) in (2..).zip(lines) {
        brief.line = number;
        match frame::frame(line) {
            Ok(frame) => match player.play(&frame, &mut brief) {
                Ok(()) => {}
                Err(never) => match never {},
            },
            Err(why) => {
                end = End::Malformed { line: number, why };
                break;
            }
        }
    }
    for row in &brief.rows {
        writeln!(out, "{}", brief.say(row))?;
    }
    if brief.rows.is_empty() {
        writeln!(out, "no ticket was handed in")?;
    }
    Ok(end)
}
