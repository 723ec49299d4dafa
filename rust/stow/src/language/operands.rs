//! Reading a statement's tokens one after the other: numbers in their ranges, words, bays, names.

use super::meant::did_you_mean;
use super::names::{Names, Thing};
use super::scan::{Sort, Statement, Token};
use super::{Mistake, KEYWORDS};
use zilpanud::code::own;

/// A token in quotation marks, without its end if it is long.
pub fn quoted(text: &str) -> String {
    match text.char_indices().nth(40) {
        Some((end, _)) => format!("'{}..'", &text[..end]),
        None => format!("'{text}'"),
    }
}

/// The tokens of a statement that are still to be read.
pub struct Reader<'t, 'n> {
    line: usize,
    rest: std::vec::IntoIter<Token<'t>>,
    end: usize,
    pub names: &'n Names,
}

impl<'t, 'n> Reader<'t, 'n> {
    pub fn new(statement: Statement<'t>, names: &'n Names) -> Reader<'t, 'n> {
        Reader { line: statement.line, rest: statement.tokens.into_iter(), end: statement.end, names }
    }

    pub fn peek(&self) -> Option<Token<'t>> {
        self.rest.as_slice().first().copied()
    }

    pub fn peek_second(&self) -> Option<Token<'t>> {
        self.rest.as_slice().get(1).copied()
    }

    pub fn next(&mut self) -> Option<Token<'t>> {
        self.rest.next()
    }

    /// The column of what comes next.
    pub fn column(&self) -> usize {
        self.peek().map_or(self.end, |token| token.column)
    }

    pub fn mistake(&self, column: usize, what: impl Into<String>, meant: Option<String>) -> Mistake {
        Mistake { line: self.line, column, what: what.into(), meant }
    }

    /// That something is expected, and what stands there instead.
    pub fn expected(&self, wanted: &str, meant: Option<String>) -> Mistake {
        let found = self
            .peek()
            .map_or("the statement ends here".to_string(), |token| format!("here is {}", quoted(token.text)));
        self.mistake(self.column(), format!("{found}, and {wanted} is expected"), meant)
    }

    /// Whether this text comes next, which is then read.
    pub fn reads(&mut self, text: &str) -> bool {
        let is_next = self.peek().is_some_and(|token| token.text == text);
        if is_next {
            self.rest.next();
        }
        is_next
    }

    /// This keyword or sign, and no other.
    pub fn expect(&mut self, text: &str) -> Result<(), Mistake> {
        if self.reads(text) {
            return Ok(());
        }
        let meant = self.peek().and_then(|token| did_you_mean(token.text, [text]));
        Err(self.expected(&format!("'{text}'"), meant))
    }

    /// Nothing more.
    pub fn finish(&self, behind: &str) -> Result<(), Mistake> {
        match self.peek() {
            None => Ok(()),
            Some(token) => {
                let found = quoted(token.text);
                let what = format!("{found} stands behind {behind}, where nothing more is expected");
                Err(self.mistake(
                    token.column,
                    what,
                    Some("a statement a line, or ';' between two".to_string()),
                ))
            }
        }
    }

    /// A number up to a largest; `range` says what there is.
    pub fn number(&mut self, of: &str, largest: u64, range: &str) -> Result<u64, Mistake> {
        let Some(token) = self.peek().filter(|token| token.sort == Sort::Number) else {
            return Err(self.expected(&format!("the number of {of}"), None));
        };
        if !token.text.bytes().all(|byte| byte.is_ascii_digit()) {
            let what = format!("{} is not a number", quoted(token.text));
            let meant = "numbers are decimal, and stand by themselves".to_string();
            return Err(self.mistake(token.column, what, Some(meant)));
        }
        let number = token.text.parse::<u64>().ok().filter(|number| *number <= largest);
        let number = number.ok_or_else(|| {
            let what = format!("{} is too large for {of}", quoted(token.text));
            self.mistake(token.column, what, Some(range.to_string()))
        })?;
        self.rest.next();
        Ok(number)
    }

    /// A name that is no keyword.
    pub fn name(&mut self, of: &str) -> Result<Token<'t>, Mistake> {
        let Some(token) = self.peek().filter(|token| token.sort == Sort::Word) else {
            return Err(self.expected(&format!("a name for {of}"), None));
        };
        if KEYWORDS.contains(&token.text) {
            let what = format!("'{}' is a word of the language, and names nothing", token.text);
            return Err(self.mistake(token.column, what, None));
        }
        self.rest.next();
        Ok(token)
    }

    /// What a name stands for, where `example` could stand.
    pub fn named(&self, token: Token<'t>, example: &str) -> Result<Thing, Mistake> {
        self.names.get(token.text).ok_or_else(|| {
            let name = quoted(token.text);
            let meant = did_you_mean(token.text, KEYWORDS.iter().copied().chain(self.names.all()));
            let meant = meant.unwrap_or_else(|| {
                format!("names are given by '--names FILE', or by 'let' and '=', as in 'let x = {example}'")
            });
            self.mistake(token.column, format!("{name} is no name here"), Some(meant))
        })
    }

    /// A word: `word 24`, `own 0`, or a name.
    pub fn word(&mut self) -> Result<u16, Mistake> {
        let Some(token) = self.peek() else {
            return Err(self.expected("a word", None));
        };
        match (token.sort, token.text) {
            (_, "word") => {
                self.rest.next();
                Ok(self.number("a word", u16::MAX as u64, "the words are 0 to 511, and own 0 to 7")? as u16)
            }
            (_, "own") => {
                self.rest.next();
                Ok(own(self.number("an own word", 7, "a desk has own 0 to 7")? as u16))
            }
            (Sort::Word, text) if !KEYWORDS.contains(&text) => match self.named(token, "word 24")? {
                Thing::Word(word) => {
                    self.rest.next();
                    Ok(word)
                }
                Thing::Bay(bay) => {
                    let what = format!("'{text}' is bay {bay}, and a word is expected");
                    Err(self.mistake(token.column, what, None))
                }
            },
            (Sort::Number, text) => {
                let meant = format!(
                    "write 'word {text}', or for the number {text} give it as an argument and write 'own'"
                );
                Err(self.expected("a word", Some(meant)))
            }
            (_, "-") => Err(self.expected("a word", Some("there are no numbers below 0".to_string()))),
            (_, "=") => {
                Err(self.expected("a word", Some("there is '<' alone: a <= b where b < a is 0".to_string())))
            }
            _ => Err(self.expected("a word", Some("'word 24', 'own 0' or a name".to_string()))),
        }
    }

    /// A bay: `3`, `bay 3`, or a name.
    pub fn bay(&mut self) -> Result<u16, Mistake> {
        let said = self.reads("bay");
        match self.peek() {
            Some(token) if !said && token.sort == Sort::Word && !KEYWORDS.contains(&token.text) => {
                match self.named(token, "bay 3")? {
                    Thing::Bay(bay) => {
                        self.rest.next();
                        Ok(bay)
                    }
                    Thing::Word(word) => {
                        let what = format!(
                            "'{}' is {}, and a bay is expected",
                            token.text,
                            crate::say::plain_word(word)
                        );
                        let meant = (word < 512).then(|| format!("it belongs to bay {}", word / 8));
                        Err(self.mistake(token.column, what, meant))
                    }
                }
            }
            _ => Ok(self.number("a bay", u16::MAX as u64, "the bays are 0 to 63")? as u16),
        }
    }
}
