//! What a script shows: answers, tallies, words and records, and what is said of its section.

use crate::call::{refused, tally, word, Call};
use crate::engine::Engine;
use crate::reading::words;
use crate::script::{Bad, Line, Script};
use zilpanud::{Cursors, Needs, Standing};

fn needs(needs: Needs) -> String {
    format!("needs {} {}", needs.fewest, needs.most)
}

impl<E: Engine> Script<E> {
    /// Whether image and record are those marked, and the last call took none of its stores.
    fn kept(&self) -> bool {
        self.image == self.marked.0 && self.cursors == self.marked.1 && self.made.left == self.given
    }

    fn item(&self, name: &str) -> Option<String> {
        Some(match name {
            "answer" => self.made.told.text(&self.image),
            "tally" => tally(&self.made.tally),
            "left" => format!("left {}", self.made.left),
            "held" => format!("held {}", self.engine.locks_held(&self.cursors)),
            "kept" => if self.kept() { "as before" } else { "changed" }.into(),
            "idle" => if self.cursors == Cursors::IDLE { "all idle" } else { "not all idle" }.into(),
            _ => return None,
        })
    }

    /// Up to eight things in one line; those before one that is none are shown.
    pub fn show(&mut self, rest: &str) -> Line {
        let names: Vec<&str> = words(rest).collect();
        for (i, name) in names.iter().take(8).enumerate() {
            self.out.push_str(if i > 0 { ", " } else { "" });
            let item = self.item(name).ok_or(Bad)?;
            self.out.push_str(&item);
        }
        self.out.push('\n');
        match names.len() {
            1..=8 => Ok(()),
            _ => Err(Bad),
        }
    }

    /// The answer of the section's check.
    pub fn check(&mut self) {
        let told = self.engine.check(&self.section);
        self.tell(&told.map_or_else(refused, |()| "passes".into()));
    }

    /// The section's held sets by the pass alone, in words that were all ones: those that are not 0.
    pub fn sets(&mut self) {
        let mut sets = [u64::MAX; 64];
        let told = self.engine.held_sets(&self.section, &mut sets);
        self.tell(&told.map_or_else(refused, |()| "given".into()));
        (0..64).filter(|&step| sets[step] != 0).for_each(|step| self.tell(&word(&sets, step)));
    }

    fn cursor(&self, worker: usize) -> String {
        match (self.cursors.step[worker], self.cursors.turn[worker]) {
            (_, 255) => "cursor idle".into(),
            (step, turn) => format!("cursor {step} {turn}"),
        }
    }

    /// A verb with numbers that shows something.
    pub fn shown(&mut self, verb: &str, v: &[u64]) -> Line {
        match (verb, v) {
            ("turns", &[worker, times]) => self.turns(worker, times),
            ("standing", &[worker, number]) => self.standing(worker, number),
            ("words", v) if !v.is_empty() && v.iter().all(|&at| at < self.image.len() as u64) => {
                v.iter().for_each(|&at| self.tell(&word(&self.image, at as usize)))
            }
            ("cursors", v) if !v.is_empty() && v.iter().all(|&worker| worker < 8) => {
                v.iter().for_each(|&worker| self.tell(&self.cursor(worker as usize)))
            }
            ("changes", []) => self.changes(),
            _ => return Err(Bad),
        }
        Ok(())
    }

    fn turns(&mut self, worker: u64, times: u64) {
        for i in 1..=times {
            self.call(Call::Turn(worker), u64::MAX);
            let told = self.made.told.text(&self.image);
            self.tell(&format!("{i}: {told}"));
        }
    }

    fn standing(&mut self, worker: u64, number: u64) {
        let told = self.engine.standing(&self.image, worker, number);
        self.tell(&match told {
            Ok(Standing::NotBegun) => "not begun".into(),
            Ok(Standing::Begun) => "begun".into(),
            Ok(Standing::Finished) => "finished".into(),
            Err(no) => refused(no),
        });
    }

    fn changes(&mut self) {
        for at in 0..self.image.len() {
            if self.image[at] != self.marked.0.get(at).copied().unwrap_or(0) {
                self.tell(&word(&self.image, at));
            }
        }
    }

    /// The turns to the end: of the section along a path or from a step on, or of a worker's begun section.
    pub fn needed(&mut self, verb: &str, v: &[u64]) -> Line {
        let told = match (verb, v) {
            ("path", path) => {
                self.engine.turns_of_path(&self.section, path).map(|turns| format!("turns {turns}"))
            }
            ("needs", &[step]) => self.engine.turns_from(&self.section, step).map(needs),
            ("remaining", &[worker]) => self.engine.turns_left(&self.image, worker).map(needs),
            _ => return Err(Bad),
        };
        self.tell(&told.unwrap_or_else(refused));
        Ok(())
    }
}
