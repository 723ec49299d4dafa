//! What a statement says.

use super::meant::did_you_mean;
use super::names::{Names, Thing};
use super::operands::{quoted, Reader};
use super::scan::{Sort, Statement, Token};
use super::Mistake;
use zilpanud::code::{self, Kind};
use zilpanud::LOCKS;

/// A statement, without the label before it.
#[derive(Clone, PartialEq, Eq, Debug)]
pub enum Said<'t> {
    Let { name: Token<'t>, thing: Thing },
    Board { desks: u8 },
    Ticket { desk: u8, number: u64, args: [u64; 8] },
    Turns { desk: u8, turns: u16 },
    Rounds { rounds: u16 },
    Cut,
    Step(Step<'t>),
}

#[derive(Clone, Copy, PartialEq, Eq, Debug)]
pub enum Step<'t> {
    /// A whole instruction word.
    Whole(u64),
    /// A skip to a label.
    Skip { word: u16, label: Token<'t> },
}

/// A statement with the label before it, of which one at least is there, and the column of what it says.
#[derive(Clone, PartialEq, Eq, Debug)]
pub struct Labelled<'t> {
    pub label: Option<Token<'t>>,
    pub said: Option<Said<'t>>,
    pub column: usize,
}

const DESKS: &str = "a board has 1 to 8 desks";
const BEGINNINGS: [&str; 12] =
    ["take", "drop", "if", "end", "word", "own", "desk", "board", "rounds", "cut", "let", "code"];

pub fn read<'t>(statement: Statement<'t>, names: &Names) -> Result<Labelled<'t>, Mistake> {
    let mut reader = Reader::new(statement, names);
    let label = match reader.peek_second() {
        Some(Token { sort: Sort::Sign, text: ":", .. }) => {
            let label = reader.name("a step")?;
            reader.next();
            Some(label)
        }
        _ => None,
    };
    let column = reader.column();
    let said = match reader.peek() {
        None => None,
        Some(_) => Some(said(&mut reader)?),
    };
    Ok(Labelled { label, said, column })
}

fn said<'t>(reader: &mut Reader<'t, '_>) -> Result<Said<'t>, Mistake> {
    let Some(first) = reader.peek() else {
        return Err(reader.expected("a statement", None));
    };
    let said = match first.text {
        "let" => name(reader)?,
        "board" => board(reader)?,
        "desk" => desk(reader)?,
        "rounds" => {
            reader.next();
            Said::Rounds {
                rounds: reader.number("rounds", u16::MAX as u64, "a line has 0 to 65535 rounds")? as u16,
            }
        }
        "cut" => {
            reader.next();
            Said::Cut
        }
        _ => Said::Step(step(reader, first)?),
    };
    reader.finish(&format!("the '{}' statement", first.text))?;
    Ok(said)
}

/// `let shed = word 24`
fn name<'t>(reader: &mut Reader<'t, '_>) -> Result<Said<'t>, Mistake> {
    reader.next();
    let name = reader.name("a word or a bay")?;
    let is_dash = reader.peek().is_some_and(|token| token.text == "-");
    if !is_dash && !reader.reads(":=") {
        reader.expect("=")?;
    }
    let thing = match reader.peek().map(|token| token.text) {
        Some("word" | "own") => Thing::Word(reader.word()?),
        Some("bay") => Thing::Bay(reader.bay()?),
        Some("-") => {
            let meant = "a name has letters, digits and '_'".to_string();
            return Err(reader.expected("'='", Some(meant)));
        }
        _ => return Err(reader.expected("'word', 'own' or 'bay' and its number", None)),
    };
    let (what, range) = match thing {
        Thing::Word(word) if word >= code::own(8) => ("word", "the words are 0 to 511, and own 0 to 7"),
        Thing::Bay(bay) if bay as usize >= LOCKS => ("bay", "the bays are 0 to 63"),
        _ => return Ok(Said::Let { name, thing }),
    };
    Err(reader.mistake(name.column, format!("there is no such {what} to be named"), Some(range.to_string())))
}

/// `board of 2 desks`
fn board<'t>(reader: &mut Reader<'t, '_>) -> Result<Said<'t>, Mistake> {
    reader.next();
    reader.reads("of");
    let desks = reader.number("desks", u8::MAX as u64, DESKS)? as u8;
    if !reader.reads("desk") {
        reader.expect("desks")?;
    }
    Ok(Said::Board { desks })
}

/// `desk 0 number 7 with 40 1 ..`, `desk 0 turns 5`
fn desk<'t>(reader: &mut Reader<'t, '_>) -> Result<Said<'t>, Mistake> {
    reader.next();
    let desk = reader.number("a desk", u8::MAX as u64, "the desks are 0 to 7")? as u8;
    if reader.reads("turns") || reader.reads("turn") {
        let turns = reader.number("turns", u16::MAX as u64, "a line has 0 to 65535 turns")? as u16;
        return Ok(Said::Turns { desk, turns });
    }
    if !reader.reads("number") {
        let meant = reader.peek().and_then(|token| did_you_mean(token.text, ["number", "turns"]));
        return Err(reader.expected("'number' and a ticket's number, or 'turns' and how many,", meant));
    }
    let number = reader.number("a ticket", u64::MAX, "it is 1 to 18446744073709551615")?;
    let args = if reader.reads("with") { arguments(reader)? } else { [0; 8] };
    Ok(Said::Ticket { desk, number, args })
}

/// Up to eight numbers; those left out are 0, and `..` may say so.
fn arguments(reader: &mut Reader<'_, '_>) -> Result<[u64; 8], Mistake> {
    let (mut args, mut given) = ([0; 8], 0);
    while let Some(token) = reader.peek() {
        if reader.reads("..") {
            break;
        }
        let column = token.column;
        let arg = reader.number("an argument", u64::MAX, "it is 0 to 18446744073709551615")?;
        let Some(place) = args.get_mut(given) else {
            return Err(reader.mistake(
                column,
                "a ticket has eight arguments",
                Some("this is the ninth".to_string()),
            ));
        };
        *place = arg;
        given += 1;
    }
    Ok(args)
}

fn step<'t>(reader: &mut Reader<'t, '_>, first: Token<'t>) -> Result<Step<'t>, Mistake> {
    match first.text {
        "take" => {
            reader.next();
            Ok(Step::Whole(code::acquire(reader.bay()?)))
        }
        "drop" => {
            reader.next();
            Ok(Step::Whole(code::release(reader.bay()?)))
        }
        "end" => {
            reader.next();
            Ok(Step::Whole(code::finish()))
        }
        "if" => skip(reader),
        "code" => by_digits(reader),
        "goto" | "go" => {
            Err(reader.expected("a condition", Some("write 'if own 7 is 0 go to LABEL'".to_string())))
        }
        _ => assignment(reader, first),
    }
}

/// `if own 1 is 0 go to done`, `if own 1 is 0 go to step 4`
fn skip<'t>(reader: &mut Reader<'t, '_>) -> Result<Step<'t>, Mistake> {
    reader.next();
    let word = reader.word()?;
    let column = reader.column();
    let asks_else = !reader.reads("is") || reader.peek().is_none_or(|token| token.text != "0");
    if asks_else {
        let meant = "compare first: 'own 1 := word 24 < own 0' is 1 or 0".to_string();
        let what = "a skip asks whether a word 'is 0', and nothing else";
        return Err(reader.mistake(column, what, Some(meant)));
    }
    reader.next();
    if reader.reads("goto") {
        return Err(reader.mistake(
            column,
            "'goto' is no word of the language",
            Some("write 'go to'".to_string()),
        ));
    }
    reader.expect("go")?;
    reader.expect("to")?;
    if reader.reads("step") {
        let target = reader.number("a step", u16::MAX as u64, "a ticket has steps 0 to 63")? as u16;
        return Ok(Step::Whole(code::jump_if_zero(word, target)));
    }
    if reader.peek().is_some_and(|token| token.sort == Sort::Number) {
        return Err(reader.expected("a label", Some("write 'go to step 4' for a step's number".to_string())));
    }
    Ok(Step::Skip { word, label: reader.name("a step")? })
}

/// `code 0001000300000000`
fn by_digits<'t>(reader: &mut Reader<'t, '_>) -> Result<Step<'t>, Mistake> {
    reader.next();
    let column = reader.column();
    let digits = reader.next().map_or("", |token| token.text);
    let is_digit = |byte: u8| matches!(byte, b'0'..=b'9' | b'a'..=b'f');
    match u64::from_str_radix(digits, 16) {
        Ok(word) if digits.len() == 16 && digits.bytes().all(is_digit) => Ok(Step::Whole(word)),
        _ => Err(reader.mistake(column, "16 digits, 0 to 9 and a to f, are expected", None)),
    }
}

/// `word 24 := 5`, `word 24 := word 24 + own 0`
fn assignment<'t>(reader: &mut Reader<'t, '_>, first: Token<'t>) -> Result<Step<'t>, Mistake> {
    let is_word = matches!(first.text, "word" | "own") || reader.names.get(first.text).is_some();
    if !is_word {
        if first.sort == Sort::Word && reader.peek_second().is_some_and(|token| token.text == ":=") {
            reader.named(first, "word 24")?;
        }
        let known = BEGINNINGS.into_iter().chain(reader.names.all());
        let what = format!("no statement begins with {}", quoted(first.text));
        return Err(reader.mistake(first.column, what, did_you_mean(first.text, known)));
    }
    let target = reader.word()?;
    if !reader.reads(":=") {
        let meant = match reader.peek().map(|token| token.text) {
            Some("=") => Some("write ':='".to_string()),
            Some("+" | "-") => Some("write 'word 24 := word 24 + own 0'".to_string()),
            _ => None,
        };
        return Err(reader.expected("':='", meant));
    }
    let number_alone =
        reader.peek().is_some_and(|token| token.sort == Sort::Number) && reader.peek_second().is_none();
    if number_alone {
        let largest = "a step sets 0 to 4294967295; give a larger number as an argument";
        let value = reader.number("a step", u32::MAX as u64, largest)? as u32;
        return Ok(Step::Whole(code::set(target, value)));
    }
    combined(reader, target)
}

/// The sum, difference or comparison of two words.
fn combined<'t>(reader: &mut Reader<'t, '_>, target: u16) -> Result<Step<'t>, Mistake> {
    let one = reader.word()?;
    let kind = match reader.peek().map(|token| token.text) {
        Some("+") => Kind::Add,
        Some("-") => Kind::Subtract,
        Some("<") => Kind::Less,
        None => {
            let meant = "to copy a word, add one that is 0: 'word 24 := word 25 + own 7'".to_string();
            return Err(reader.expected("'+', '-' or '<' and a second word", Some(meant)));
        }
        Some(_) => return Err(reader.expected("'+', '-' or '<'", None)),
    };
    reader.next();
    let other = reader.word()?;
    Ok(Step::Whole(code::instruction(kind as u16, target, one, other)))
}
