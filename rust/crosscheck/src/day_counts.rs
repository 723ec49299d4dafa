//! What was compared of recorded days: counts, so that one sees that nothing is missing.

use crate::day_calls::Played;
use crate::day_lines::{Day, First, Line, SORTS};
use crate::days::Told;
use zilpanud::LOCKS;

/// The kinds of lines, and what is counted of them by itself.
const KINDS: [&str; 8] =
    ["01", "02", "03", "04", "02 of no turn", "02 of 65,535 turns", "04 of no round", "04 of 65,535 rounds"];

/// The waits of a day in which an 02 line of 65,535 turns waited.
const LONG_WAIT: u64 = 60_000;

#[derive(Default)]
pub struct DayCounts {
    days: u64,
    /// Read to the end; 10; 14 at the first line; of no bytes; without a byte 10 at the end.
    whole: u64,
    no_board: u64,
    wrong_first: u64,
    empty: u64,
    unended: u64,
    /// Stopped by a malformed line, by `SORTS`.
    stopped: [u64; SORTS.len()],
    /// Lines read, by `KINDS`.
    lines: [u64; KINDS.len()],
    /// Turns that waited and that did not; days with waits, with those for two locks, of two workers, and long ones.
    waits: u64,
    moves: u64,
    waiting: [u64; 4],
    /// The locks that were waited for, a bit each.
    locks: u64,
    /// Bytes that were not drawn as a day, by how they are read: whole, 14, 10; and those with turns.
    bytes: [u64; 4],
    /// Days played by single calls, and what was met there.
    played: u64,
    one_run: u64,
    submits: [u64; 2],
    left: u64,
    runs: [u64; 3],
}

fn kinds(line: &Line) -> [bool; KINDS.len()] {
    let (turns, rounds) = match line {
        Line::Turns { turns, .. } => (Some(*turns), None),
        Line::Rounds { rounds } => (None, Some(*rounds)),
        _ => (None, None),
    };
    [
        matches!(line, Line::Submit { .. }),
        turns.is_some(),
        matches!(line, Line::Cut),
        rounds.is_some(),
        turns == Some(0),
        turns == Some(u16::MAX),
        rounds == Some(0),
        rounds == Some(u16::MAX),
    ]
}

fn add<const N: usize>(counts: &mut [u64; N], met: [bool; N]) {
    counts.iter_mut().zip(met).for_each(|(count, met)| *count += met as u64);
}

impl DayCounts {
    pub fn day(&mut self, day: &Day, told: &Told) {
        self.days += 1;
        match (&day.first, told.cause) {
            (None, _) => self.empty += 1,
            (Some(First::NoBoard(_)), _) => self.no_board += 1,
            (Some(First::Wrong(_)), _) => self.wrong_first += 1,
            (_, 0) => self.whole += 1,
            _ => {}
        }
        if let Some(Line::Wrong { sort, .. }) = day.lines.get(day.read().len()).filter(|_| told.lines > 1) {
            self.stopped[*sort] += 1;
        }
        self.unended += (told.cause == 0 && !day.ended && !day.lines.is_empty()) as u64;
        day.read().iter().for_each(|line| add(&mut self.lines, kinds(line)));
        self.turns(told);
    }

    fn turns(&mut self, told: &Told) {
        let many = |words: &[u64]| words.iter().filter(|&&n| n > 0).count() > 1;
        let waits = told.waited.iter().sum::<u64>();
        self.waits += waits;
        self.moves += told.moved.iter().sum::<u64>();
        let waited_for = (0..LOCKS).filter(|&lock| told.locks[lock] > 0);
        self.locks |= waited_for.fold(0, |mask, lock| mask | 1 << lock);
        add(&mut self.waiting, [waits > 0, many(&told.locks), many(&told.waited), waits > LONG_WAIT]);
    }

    /// Bytes that were not drawn as a day.
    pub fn bytes(&mut self, told: &Told) {
        let turns = told.moved.iter().any(|&n| n > 0);
        add(&mut self.bytes, [told.cause == 0, told.cause == 14, told.cause == 10, turns]);
    }

    /// A day that was played by single calls.
    pub fn played(&mut self, day: &Day, played: &Played) {
        self.played += 1;
        self.one_run += day.is_one_run() as u64;
        self.left += played.left;
        self.submits.iter_mut().zip(played.submits).for_each(|(count, n)| *count += n);
        self.runs.iter_mut().zip(played.runs).for_each(|(count, n)| *count += n);
    }

    /// What was not met, as lines.
    pub fn missing(&self) -> Vec<String> {
        let counts = [
            (self.whole, "no day was read to its end"),
            (self.no_board, "no first line with no board"),
            (self.wrong_first, "no malformed first line"),
            (self.empty, "no day of no bytes"),
            (self.unended, "no day without a byte 10 at its end"),
            (self.moves, "no turn of a day moved"),
            (self.waiting[0], "no day with a wait"),
            (self.waiting[1], "no day with waits for two locks"),
            (self.waiting[2], "no day with waits of two workers"),
            (self.waiting[3], "no day with a wait of tens of thousands of turns"),
            (self.bytes[0], "no bytes that are a day by chance"),
            (self.bytes[1], "no bytes with a malformed line"),
            (self.bytes[2], "no bytes with no board"),
            (self.bytes[3], "no damaged day with turns"),
            (self.one_run, "no day of one 04 line was played by single calls"),
            (self.submits[0], "no submit of a day was taken"),
            (self.submits[1], "no submit of a day was refused"),
            (self.left, "no 02 line was ended by a refused turn"),
            (self.runs[1], "no 04 line that waited was compared with a run"),
            (self.runs[2], "no 04 line that was spent was compared with a run"),
        ];
        let none = counts.iter().filter(|(n, _)| *n == 0).map(|(_, line)| line.to_string());
        let sorts = SORTS.iter().zip(self.stopped).filter(|(_, n)| *n == 0);
        let kinds = KINDS.iter().zip(self.lines).filter(|(_, n)| *n == 0);
        let locks = (0..LOCKS).filter(|lock| self.locks >> lock & 1 == 0);
        none.chain(sorts.map(|(sort, _)| format!("no day stopped at a malformed line: {sort}")))
            .chain(kinds.map(|(kind, _)| format!("no line of a day: {kind}")))
            .chain(locks.map(|lock| format!("no day with a wait for lock {lock}")))
            .collect()
    }

    pub fn report(&self) {
        let (days, whole) = (self.days, self.whole);
        println!(
            "recorded days compared: {days}; read to the end {whole}, {} without a byte 10 there;",
            self.unended
        );
        print!("of no bytes {}; first line with no board {}, malformed", self.empty, self.no_board);
        print!(" {}; stopped at a malformed line:", self.wrong_first);
        SORTS.iter().zip(self.stopped).for_each(|(sort, n)| print!(" {sort} {n};"));
        print!("\nlines of these days:");
        KINDS.iter().zip(self.lines).for_each(|(kind, n)| print!(" {kind}: {n};"));
        let ([some, locks, workers, long], waits) = (self.waiting, self.waits);
        println!(
            "\nturns of these days: {} moved, {waits} waited; days with waits {some}, for two locks {locks},",
            self.moves
        );
        let waited_for = self.locks.count_ones();
        println!(
            "of two workers {workers}, of more than {LONG_WAIT} turns {long}; locks waited for {waited_for}"
        );
        let [read, malformed, no_board, turns] = self.bytes;
        println!("damaged days and other bytes: read {read}, malformed {malformed}, no board {no_board};");
        println!("with turns {turns}");
        self.report_played();
    }

    fn report_played(&self) {
        let ([taken, refused], [runs, waited, spent]) = (self.submits, self.runs);
        println!(
            "days played by single calls too: {}, {} of them of one 04 line; submits taken {taken}, refused {refused};",
            self.played, self.one_run
        );
        println!(
            "02 lines left at a refused turn {}; 04 lines with the tally of a run {runs}, {waited} of them with waits, \
             {spent} spent",
            self.left
        );
    }
}
