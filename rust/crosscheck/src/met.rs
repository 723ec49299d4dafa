//! What was tried: counts, so that one sees that nothing is missing.

use crate::call::{Call, Given, IDLE, PASSED, SORTS, SPENT, STORED, WAITING};
use crate::counts::Counts;
use crate::damage::DAMAGES;
use crate::day_counts::DayCounts;
use crate::passes::Pass;
use crate::verdicts::Verdicts;

/// The answers' numbers, by column of the table.
const ANSWERS: [u64; 19] =
    [0, 1, 2, 3, 4, 5, 6, 7, 8, 9, 10, 11, 12, 13, STORED, PASSED, WAITING, IDLE, SPENT];

/// The column of an answer that both gave.
fn column(answer: u64) -> usize {
    ANSWERS.iter().position(|&one| one == answer).expect("an answer of the papers, or one of ours")
}

/// The answers that each sort of call can have, by document 01.
const POSSIBLE: [&[u64]; 9] = [
    &[0, 10],
    &[0, 4, 5, 6, 7, 8, 9],
    &[0, 1, 2, 3, 4, 5, 6, 7, 8, 9, 10],
    &[1, 10, 11, STORED, PASSED, WAITING, IDLE],
    &[0, 10, 11, SPENT],
    &[0, 10, 12, 13],
    &[0, 1, 10],
    &[0, 1, 10],
    &[0, 1, 10],
];

/// Why a turn passed, by the answer's detail. A run counts all but the first.
const PASSINGS: [&str; 3] = ["jump", "already free", "others"];

/// The causes that held sets are refused with, and the check's answers where they are given, by document 02.
const SETS_REFUSED: [usize; 2] = [4, 5];
const SETS_GIVEN: [usize; 5] = [0, 6, 7, 8, 9];

#[derive(Default)]
pub struct Met {
    pub lists: u64,
    /// Calls by sort and column of the answer.
    calls: [[u64; ANSWERS.len()]; 9],
    /// Calls that were given fewer stores than they make, by sort.
    cut: [u64; 9],
    /// Calls that were tried with every number of stores from 0 to all that they make, and these tries.
    pub swept: u64,
    pub sweeps: u64,
    pub damages: [u64; DAMAGES.len()],
    pub odd_lengths: u64,
    pub odd_cursors: u64,
    pub odd_masks: u64,
    /// Turns by the kind of the instruction.
    kinds: [u64; 9],
    /// Turns that passed, by `PASSINGS`, and what the tallies of runs have of them.
    passed: [u64; 3],
    counted: [u64; 2],
    /// Standings told: not begun, begun, finished.
    standings: [u64; 3],
    /// Masks that were compared with the owner words, those of them with locks held, and the most locks held.
    masks: u64,
    holding: u64,
    most_held: u32,
    /// Held sets of sections: refused, by the answer, and given, by the check's answer.
    sets_refused: [u64; 6],
    sets_given: [u64; 10],
    /// Lists that started from a board that changed over, and submits refused by a finished number from before that.
    pub changed_over: u64,
    pub kept_numbers: u64,
    /// What was compared of turns, and of sections that were followed.
    pub turns: Counts,
    /// What the check said of sections, alone and in submits.
    pub verdicts: Verdicts,
    /// What was compared of recorded days.
    pub days: DayCounts,
}

impl Met {
    pub fn call(&mut self, call: &Call, given: &Given, cut: bool, kind: u64) {
        self.calls[call.sort()][column(given.answer)] += 1;
        self.cut[call.sort()] += cut as u64;
        if matches!(call, Call::Standing { .. }) && given.answer == 0 {
            self.standings[given.detail as usize] += 1;
        }
        if matches!(call, Call::Turn { .. }) && given.answer == PASSED {
            self.passed[given.detail as usize] += 1;
        }
        self.counted[0] += given.tally.already_free;
        self.counted[1] += given.tally.others;
        let turned = matches!(call, Call::Turn { .. }) && (STORED..IDLE).contains(&given.answer);
        if turned && kind < 9 {
            self.kinds[kind as usize] += 1;
        }
    }

    /// A mask that was compared with the owner words.
    pub fn mask(&mut self, held: u64) {
        self.masks += 1;
        self.holding += (held != 0) as u64;
        self.most_held = self.most_held.max(held.count_ones());
    }

    /// A pass over a section that was compared.
    pub fn pass(&mut self, pass: &Pass) {
        match pass.told {
            (0, _) => self.sets_given[pass.checked.0 as usize] += 1,
            (cause, _) => self.sets_refused[cause as usize] += 1,
        }
    }

    /// The answers that a sort of call can have and that were not met, as lines; empty if all were.
    pub fn missing(&self) -> Vec<String> {
        let mut lines = vec![];
        for (sort, answers) in POSSIBLE.iter().enumerate() {
            for &answer in answers.iter() {
                if self.calls[sort][column(answer)] == 0 {
                    lines.push(format!("{} never answered {answer}", SORTS[sort]));
                }
            }
            if sort < 6 && sort != 1 && self.cut[sort] == 0 {
                lines.push(format!("{} was never cut", SORTS[sort]));
            }
        }
        lines.extend((0..3).filter(|&s| self.standings[s] == 0).map(|s| format!("no standing {s}")));
        lines.extend((1..9).filter(|&k| self.kinds[k] == 0).map(|k| format!("no turn of kind {k}")));
        let (passed, counted) = (PASSINGS.iter().zip(self.passed), PASSINGS[1..].iter().zip(self.counted));
        lines.extend(passed.filter(|(_, n)| *n == 0).map(|(why, _)| format!("no turn passed: {why}")));
        lines.extend(counted.filter(|(_, n)| *n == 0).map(|(why, _)| format!("no run counted: {why}")));
        let others = [
            (self.holding, "no mask with locks held was compared"),
            (self.odd_masks, "no odd mask"),
            (self.changed_over, "no board changed over"),
            (
                self.kept_numbers,
                "no submit was refused by a finished number from before its board changed over",
            ),
        ];
        lines.extend(others.iter().filter(|(n, _)| *n == 0).map(|(_, line)| line.to_string()));
        let (refused, given) = (SETS_REFUSED.iter(), SETS_GIVEN.iter());
        let refused = refused.filter(|&&n| self.sets_refused[n] == 0);
        let given = given.filter(|&&n| self.sets_given[n] == 0);
        lines.extend(refused.map(|n| format!("no held sets were refused with {n}")));
        lines.extend(given.map(|n| format!("no held sets were given where the check answers {n}")));
        lines.extend(self.turns.missing());
        lines.extend(self.verdicts.missing());
        lines.extend(self.days.missing());
        lines
    }

    fn answers(&self) {
        print!("{:>9}", "answer");
        SORTS.iter().for_each(|sort| print!(" {sort:>9}"));
        println!();
        for answer in ANSWERS {
            print!("{answer:>9}");
            for (calls, possible) in self.calls.iter().zip(POSSIBLE) {
                match possible.contains(&answer) {
                    true => print!(" {:>9}", calls[column(answer)]),
                    false => print!(" {:>9}", "-"),
                }
            }
            println!();
        }
        print!("{:>9}", "cut");
        self.cut.iter().for_each(|cut| print!(" {cut:>9}"));
        println!();
    }

    pub fn report(&self) {
        let calls: u64 = self.calls.iter().flatten().sum();
        println!(
            "{} lists, {calls} calls by sort and answer (0 done, 1 to 13 causes, 32 stored, 33 passed,",
            self.lists
        );
        println!("34 waiting, 35 idle, 36 spent; '-' is an answer that the call does not have):");
        self.answers();
        println!("{} calls with every number of stores from 0 to all: {} tries", self.swept, self.sweeps);
        let (odd_cursors, odd_masks) = (self.odd_cursors, self.odd_masks);
        println!(
            "images of another length: {}; odd cursors: {odd_cursors}; odd masks: {odd_masks}",
            self.odd_lengths
        );
        print!("damaged words:");
        DAMAGES.iter().zip(self.damages).for_each(|(name, n)| print!(" {name} {n};"));
        print!("\nturns by kind of instruction:");
        (1..9).for_each(|k| print!(" {k}: {};", self.kinds[k]));
        print!("\nturns that passed:");
        PASSINGS.iter().zip(self.passed).for_each(|(why, n)| print!(" {why} {n};"));
        print!("\ncounted in runs:");
        PASSINGS[1..].iter().zip(self.counted).for_each(|(why, n)| print!(" {why} {n};"));
        let [not_begun, begun, finished] = self.standings;
        println!("\nstandings: not begun {not_begun}; begun {begun}; finished {finished}");
        let (masks, holding, most) = (self.masks, self.holding, self.most_held);
        println!("masks compared with the owner words: {masks}; with locks held: {holding}, {most} at most");
        self.sets();
        println!(
            "boards changed over: {}; submits refused by a finished number from before: {}",
            self.changed_over, self.kept_numbers
        );
        self.turns.report();
        self.verdicts.report();
        self.days.report();
    }

    fn sets(&self) {
        let passes: u64 = self.sets_refused.iter().chain(&self.sets_given).sum();
        print!("held sets compared: {passes}; refused with");
        SETS_REFUSED.iter().for_each(|&n| print!(" {n}: {};", self.sets_refused[n]));
        print!(" given where the check answers");
        SETS_GIVEN.iter().for_each(|&n| print!(" {n}: {};", self.sets_given[n]));
        println!();
    }
}
