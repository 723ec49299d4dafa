//! Names for words and bays: `let shed = word 24`.

use std::collections::BTreeMap;

/// What a name can stand for.
#[derive(Clone, Copy, PartialEq, Eq, PartialOrd, Ord, Debug)]
pub enum Thing {
    /// A word number: 0 to 511 on the board, 512 to 519 the desk's own.
    Word(u16),
    Bay(u16),
}

/// Names, both ways. A thing may have several; it is shown by the first.
#[derive(Clone, PartialEq, Eq, Debug, Default)]
pub struct Names {
    things: BTreeMap<String, Thing>,
    shown: BTreeMap<Thing, String>,
}

impl Names {
    /// Gives a thing a name. A name is given once: where it stands for something else, that is the error.
    pub fn give(&mut self, name: &str, thing: Thing) -> Result<(), Thing> {
        match self.things.get(name) {
            Some(&other) if other != thing => Err(other),
            _ => {
                self.things.insert(name.to_string(), thing);
                self.shown.entry(thing).or_insert_with(|| name.to_string());
                Ok(())
            }
        }
    }

    pub fn get(&self, name: &str) -> Option<Thing> {
        self.things.get(name).copied()
    }

    pub fn shown(&self, thing: Thing) -> Option<&str> {
        self.shown.get(&thing).map(String::as_str)
    }

    /// The words that have names, by rising number, each with the one that it is shown by.
    pub fn words(&self) -> impl Iterator<Item = (u16, &str)> {
        self.shown.iter().filter_map(|(thing, name)| match thing {
            Thing::Word(word) => Some((*word, name.as_str())),
            Thing::Bay(_) => None,
        })
    }

    /// All names, for a suggestion.
    pub fn all(&self) -> impl Iterator<Item = &str> {
        self.things.keys().map(String::as_str)
    }
}
