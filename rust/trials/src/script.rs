//! A script: what it stands on, and a line of it played.

use crate::call::{Call, Given, Made, Told};
use crate::digest::Digest;
use crate::engine::Engine;
use crate::lists::{self, Dealt};
use crate::reading::{first, number, numbers, section};
use zilpanud::{Cursors, Tally};

/// The most words of an image: those that document 01's formula would give nine workers.
const ROOM: usize = 1322;

/// The most words of a section.
pub const STEPS_ROOM: usize = 80;

pub struct Script<E> {
    pub engine: E,
    pub image: Vec<u64>,
    pub cursors: Cursors,
    pub marked: (Vec<u64>, Cursors),
    /// What the last call answered, and the stores that it was given.
    pub made: Made,
    pub given: u64,
    pub args: [u64; 8],
    pub section: Vec<u64>,
    pub dealt: Dealt,
    pub out: String,
}

/// A line that is none of the language.
pub struct Bad;

/// What a line came to: `Err` where it is bad.
pub type Line = Result<(), Bad>;

/// None, of what is read, is a bad line.
fn read<T>(read: Option<T>) -> Result<T, Bad> {
    read.ok_or(Bad)
}

impl<E: Engine> Script<E> {
    pub fn new(engine: E) -> Script<E> {
        let cursors = Cursors::IDLE;
        Script {
            engine,
            image: vec![],
            cursors,
            marked: (vec![], cursors),
            made: Made { told: Told::Done, cursors, tally: Tally::default(), left: 0 },
            given: 0,
            args: [0; 8],
            section: vec![],
            dealt: Default::default(),
            out: String::new(),
        }
    }

    pub fn tell(&mut self, text: &str) {
        self.out.push_str(text);
        self.out.push('\n');
    }

    /// One line: blank, a comment, or a verb with or without a label before it.
    pub fn line(&mut self, line: &str) -> Line {
        let line = line.trim_start_matches(' ');
        if line.is_empty() || line.starts_with('#') {
            return Ok(());
        }
        let Some((label, line)) = line.split_once(": ") else {
            return self.verb(line);
        };
        self.out.push_str(label);
        self.out.push_str(": ");
        self.verb(line)
    }

    /// A verb, and what is behind it.
    fn verb(&mut self, line: &str) -> Line {
        let (verb, rest) = first(line);
        match verb {
            "say" => self.tell(rest),
            "show" => self.show(rest)?,
            "section" => self.section = read(section(rest))?,
            "check" => {
                self.section = read(section(rest))?;
                self.check();
            }
            "sets" => {
                self.section = read(section(rest))?;
                self.sets();
            }
            "given" => self.given(rest)?,
            "cuts" => self.cut(rest, false)?,
            "plays" => self.cut(rest, true)?,
            _ => self.numbered(verb, &read(numbers(rest))?)?,
        }
        Ok(())
    }

    /// A verb with numbers behind it: a call, a change, or something shown.
    fn numbered(&mut self, verb: &str, v: &[u64]) -> Line {
        if let Some(call) = Call::of(verb, v) {
            self.call(call, u64::MAX);
            return Ok(());
        }
        self.changed(verb, v).or_else(|Bad| self.shown(verb, v)).or_else(|Bad| self.needed(verb, v))
    }

    /// A call given so many stores.
    pub fn call(&mut self, call: Call, given: u64) {
        let lent = Given { args: &self.args, section: &self.section };
        self.made = call.make(self.engine, &mut self.image, self.cursors, lent, given);
        self.cursors = self.made.cursors;
        self.given = given;
    }

    fn given(&mut self, rest: &str) -> Line {
        let (given, rest) = first(rest);
        let (verb, rest) = first(rest);
        let call = Call::of(verb, &read(numbers(rest))?);
        let (call, given) = (read(call)?, read(number(given))?);
        self.call(call, given);
        Ok(())
    }

    /// All cuts of a call, from the state as it is, which stays; or a list.
    fn cut(&mut self, rest: &str, aloud: bool) -> Line {
        let (verb, rest) = first(rest);
        let v = read(numbers(rest))?;
        if let ("list", &[seed, calls]) = (verb, &v[..]) {
            self.list(seed, calls, aloud);
            return Ok(());
        }
        let call = read(Call::of(verb, &v))?;
        let lent = Given { args: &self.args, section: &self.section };
        let mut digest = Digest::new(self.engine, aloud, &mut self.out);
        digest.cuts(call, &self.image, self.cursors, lent);
        digest.tell();
        Ok(())
    }

    fn list(&mut self, seed: u64, calls: u64, aloud: bool) {
        let digest = Digest::new(self.engine, aloud, &mut self.out);
        lists::play(digest, &mut self.image, &mut self.cursors, &self.dealt, seed, calls);
    }

    /// A change of the image, the record, the section or the arguments; or a list played.
    fn changed(&mut self, verb: &str, v: &[u64]) -> Line {
        match (verb, v) {
            ("list", &[seed, calls]) => self.list(seed, calls, false),
            ("image", &[words, fill]) if words <= ROOM as u64 => {
                self.image = vec![fill; words as usize];
                self.cursors = Cursors::IDLE;
            }
            ("overwrite", &[at, value]) if at < self.image.len() as u64 => self.image[at as usize] = value,
            ("put", &[worker, step, turn]) if worker < 8 && step < 256 && turn < 256 => {
                self.cursors.step[worker as usize] = step as u8;
                self.cursors.turn[worker as usize] = turn as u8;
            }
            ("mark", []) => self.marked = (self.image.clone(), self.cursors),
            ("args", v) => {
                self.args = [0; 8];
                self.args[..v.len()].copy_from_slice(v);
            }
            ("deal", &[row]) if row < 16 && self.section.len() <= 16 => {
                self.dealt[row as usize] = self.section.clone();
            }
            _ => return Err(Bad),
        }
        Ok(())
    }
}
