//! A whole text: its statements put together to frames, each with the places that a refusal is told by.

use super::meant::did_you_mean;
use super::names::{Names, Thing};
use super::scan::{self, Statement};
use super::statement::{read, Labelled, Said, Step};
use super::Mistake;
use crate::frame::{Frame, Ticket};
use crate::say::plain_word;
use zilpanud::code;

/// Where something stands in a text: lines and columns count from 1.
#[derive(Clone, Copy, PartialEq, Eq, Debug)]
pub struct Position {
    pub line: usize,
    pub column: usize,
}

/// A frame line, and where it was said.
#[derive(Clone, PartialEq, Eq, Debug)]
pub struct Item {
    pub frame: Frame,
    pub place: Position,
    /// Of each step of a ticket.
    pub steps: Vec<Position>,
}

/// A skip whose label's step is not known yet, or a label.
struct Mark<'a> {
    label: &'a str,
    place: Position,
    step: usize,
}

/// A ticket whose steps are still coming.
struct Open<'a> {
    place: Position,
    desk: u8,
    number: u64,
    args: [u64; 8],
    steps: Vec<u64>,
    places: Vec<Position>,
    labels: Vec<Mark<'a>>,
    skips: Vec<Mark<'a>>,
}

struct Assembler<'a> {
    items: Vec<Item>,
    open: Option<Open<'a>>,
    /// What stands outside a ticket has been told, or stands below a line that was to begin one.
    is_told: bool,
    mistakes: Vec<Mistake>,
}

fn mistake(place: Position, what: String, meant: Option<String>) -> Mistake {
    Mistake { line: place.line, column: place.column, what, meant }
}

/// The frames of a text, with names beside those that it gives itself; or all that is wrong with it.
pub fn day(bytes: &[u8], names: &mut Names) -> Result<Vec<Item>, Vec<Mistake>> {
    let text = scan::text(bytes).map_err(|mistake| vec![mistake])?;
    let (statements, mistakes) = scan::statements(text);
    let mut assembler = Assembler { items: vec![], open: None, is_told: false, mistakes };
    for statement in statements {
        let (line, begins_ticket) = (statement.line, is_header(&statement));
        match read(statement, names) {
            Err(mistake) => {
                if begins_ticket {
                    assembler.close();
                }
                assembler.is_told |= begins_ticket;
                assembler.mistakes.push(mistake);
            }
            Ok(labelled) => assembler.add(line, labelled, names),
        }
    }
    assembler.close();
    assembler.mistakes.sort_by_key(|mistake| (mistake.line, mistake.column));
    match assembler.mistakes.is_empty() {
        true => Ok(assembler.items),
        false => Err(assembler.mistakes),
    }
}

/// Whether a statement is meant to begin a ticket, also where it is wrong.
fn is_header(statement: &Statement<'_>) -> bool {
    let has = |text: &str| statement.tokens.iter().any(|token| token.text == text);
    has("number") || statement.tokens[0].text == "desk" && !has("turns")
}

/// Takes the names of a text that has nothing else.
pub fn names_file(bytes: &[u8], names: &mut Names) -> Result<(), Vec<Mistake>> {
    let mut given = names.clone();
    let items = day(bytes, &mut given)?;
    if let Some(item) = items.first() {
        let what = "a file of names has 'let' statements and nothing else".to_string();
        return Err(vec![mistake(item.place, what, None)]);
    }
    *names = given;
    Ok(())
}

fn give(names: &mut Names, name: &str, thing: Thing, place: Position) -> Result<(), Mistake> {
    names.give(name, thing).map_err(|other| {
        let is = match other {
            Thing::Word(word) => plain_word(word),
            Thing::Bay(bay) => format!("bay {bay}"),
        };
        mistake(place, format!("'{name}' is {is} already"), Some("take another name".to_string()))
    })
}

impl<'t> Assembler<'t> {
    fn add(&mut self, line: usize, labelled: Labelled<'t>, names: &mut Names) {
        let place = Position { line, column: labelled.column };
        if let Some(label) = labelled.label {
            self.label(label.text, Position { line, column: label.column });
        }
        match labelled.said {
            None => {}
            Some(Said::Let { name, thing }) => {
                let given = give(names, name.text, thing, Position { line, column: name.column });
                self.mistakes.extend(given.err());
            }
            Some(Said::Step(step)) => self.step(step, place),
            Some(Said::Ticket { desk, number, args }) => {
                self.close();
                let (steps, places, labels, skips) = (vec![], vec![], vec![], vec![]);
                self.open = Some(Open { place, desk, number, args, steps, places, labels, skips });
            }
            Some(Said::Board { desks }) => self.line(Frame::Board { desks }, place),
            Some(Said::Turns { desk, turns }) => self.line(Frame::Turns { desk, turns }, place),
            Some(Said::Rounds { rounds }) => self.line(Frame::Rounds { rounds }, place),
            Some(Said::Cut) => self.line(Frame::Cut, place),
        }
    }

    fn label(&mut self, label: &'t str, place: Position) {
        let Some(open) = &mut self.open else {
            return self.outside(place, "a label");
        };
        if let Some(first) = open.labels.iter().find(|mark| mark.label == label) {
            let what = format!("the label '{label}' stands in line {} already", first.place.line);
            self.mistakes.push(mistake(place, what, None));
        }
        open.labels.push(Mark { label, place, step: open.steps.len() });
    }

    fn step(&mut self, step: Step<'t>, place: Position) {
        let Some(open) = &mut self.open else {
            return self.outside(place, "a step");
        };
        let word = match step {
            Step::Whole(word) => word,
            Step::Skip { word, label } => {
                let place = Position { line: place.line, column: label.column };
                open.skips.push(Mark { label: label.text, place, step: open.steps.len() });
                code::jump_if_zero(word, 0)
            }
        };
        open.steps.push(word);
        open.places.push(place);
    }

    /// Told once for all that stands outside a ticket, up to the next.
    fn outside(&mut self, place: Position, what: &str) {
        if !self.is_told {
            let meant = "'desk 0 number 1', say, begins one".to_string();
            let what = format!("{what} stands in a ticket, and none is begun here");
            self.mistakes.push(mistake(place, what, Some(meant)));
        }
        self.is_told = true;
    }

    /// A line of a day that is no ticket.
    fn line(&mut self, frame: Frame, place: Position) {
        self.close();
        let wrong = match (&frame, self.items.is_empty()) {
            (Frame::Board { .. }, false) => Some("a day has one board, and it stands first"),
            (Frame::Cut, true) => Some("a cut is no beginning: 'board of 1 desk', say, stands first"),
            _ => None,
        };
        self.mistakes.extend(wrong.map(|what| mistake(place, what.to_string(), None)));
        self.items.push(Item { frame, place, steps: vec![] });
    }

    /// The ticket that was open is whole: its skips find their labels.
    fn close(&mut self) {
        self.is_told = false;
        let Some(mut open) = self.open.take() else {
            return;
        };
        for skip in &open.skips {
            match target(&open, skip) {
                Ok(step) => open.steps[skip.step] |= step,
                Err(mistake) => self.mistakes.push(mistake),
            }
        }
        let Open { place, desk, number, args, steps, places, .. } = open;
        self.items.push(Item {
            frame: Frame::HandIn(Ticket { desk, number, args, steps }),
            place,
            steps: places,
        });
    }
}

/// The step that a skip's label names, in its field of an instruction word.
fn target(open: &Open<'_>, skip: &Mark<'_>) -> Result<u64, Mistake> {
    let Some(label) = open.labels.iter().find(|mark| mark.label == skip.label) else {
        let known = open.labels.iter().map(|mark| mark.label);
        let meant = did_you_mean(skip.label, known);
        return Err(mistake(
            skip.place,
            format!("no step of this ticket has the label '{}'", skip.label),
            meant,
        ));
    };
    if label.step >= open.steps.len() {
        return Err(mistake(label.place, format!("no step follows the label '{}'", label.label), None));
    }
    let step = u16::try_from(label.step)
        .map_err(|_| mistake(skip.place, format!("the label '{}' is too far away", label.label), None))?;
    Ok(code::jump_if_zero(0, step) ^ code::jump_if_zero(0, 0))
}
