//! All scripts and the sweep played, and compared with what is stored.

use crate::asked;
use crate::engine::Engine;
use crate::script::Script;
use std::fmt::Write;
use std::fs;

/// What was played: what it shows, and its bad lines, each with its file and its number.
#[derive(Default)]
pub struct Played {
    pub out: String,
    pub bad: String,
}

/// A file's text, or why there is none.
pub fn text(path: &str) -> Result<String, String> {
    fs::read_to_string(path).map_err(|error| format!("{path}: {error}"))
}

impl Played {
    /// Plays a script to its end or its first bad line.
    pub fn script<E: Engine>(&mut self, engine: E, name: &str, text: &str) {
        let mut script = Script::new(engine);
        let bad = text.split('\n').position(|line| script.line(line).is_err());
        writeln!(self.out, "== {name}").unwrap();
        self.out.push_str(&script.out);
        if let Some(before) = bad {
            writeln!(self.bad, "{name}:{}: bad line", before + 1).unwrap();
        }
    }
}

/// A file of what must be printed, and what was.
struct Pair {
    path: &'static str,
    stored: String,
    printed: String,
}

impl Pair {
    fn new(path: &'static str, printed: String) -> Result<Pair, String> {
        Ok(Pair { path, stored: text(path)?, printed })
    }

    /// The first line in which they differ, with both; of a script its name too.
    fn difference(&self) -> Option<String> {
        if self.stored == self.printed {
            return None;
        }
        let (mut stored, mut printed) = (self.stored.split('\n'), self.printed.split('\n'));
        let (mut number, mut script) = (1, String::new());
        loop {
            let (must, is) = (stored.next(), printed.next());
            if must != is {
                let [must, is] =
                    [must, is].map(|line| line.map_or("no line".into(), |line| format!("{line:?}")));
                return Some(format!("{}:{number}: stored {must}, printed {is}{script}", self.path));
            }
            if let Some(name) = is.and_then(|line| line.strip_prefix("== ")) {
                script = format!(", in {name}");
            }
            number += 1;
        }
    }
}

/// Plays all that there is in this folder. Gives the number of scripts, or tells what differs.
pub fn compare<E: Engine>(engine: E) -> Result<Result<usize, String>, String> {
    let names = text("data/trials")?;
    let mut played = Played::default();
    for name in names.lines() {
        played.script(engine, name, &text(&format!("data/{name}"))?);
    }
    let pairs = [
        Pair::new("stdout", played.out)?,
        Pair::new("stderr", played.bad)?,
        Pair::new("asked_sweep/stdout", asked::sweep(engine))?,
    ];
    let differences: Vec<String> = pairs.iter().filter_map(Pair::difference).collect();
    Ok(match differences.is_empty() {
        true => Ok(names.lines().count()),
        false => Err(differences.join("\n")),
    })
}
