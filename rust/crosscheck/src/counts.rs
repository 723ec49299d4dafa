//! What was compared of turns, and of the sections that were followed: counts, so that one sees that nothing is missing.

use crate::follow::{Ended, Follow, Recorded};
use crate::totals::ENDS;
use crate::turns::Told;

/// The causes that each of the three functions has, by document 02 and `include/zilpanud.h`.
const FROM_REFUSED: [usize; 6] = [4, 5, 6, 7, 8, 9];
const LEFT_REFUSED: [usize; 3] = [10, 1, 12];

#[derive(Default)]
pub struct Counts {
    /// Paths: given, and refused.
    paths: [u64; 2],
    most_turns: u64,
    /// Steps asked from, by the answer; of those given, where the fewest are not the most; of 5, those that are not
    /// there.
    from: [u64; 10],
    open: u64,
    past: u64,
    /// Workers asked after, by the answer; of those given, begun, and where the fewest are not the most.
    left: [u64; 13],
    begun: u64,
    open_left: u64,
    /// Of all these, those with one bit of the record changed: given, and refused.
    flipped: [u64; 2],
    /// Workers asked right before and right after a recovery.
    pub recovered: u64,
    /// Lists that were followed until all workers were idle, and left a board at rest.
    pub rested: u64,
    ended: Ended,
    totals: Recorded,
}

impl Counts {
    pub fn path(&mut self, told: &Told) {
        self.paths[(told.answer != 0) as usize] += 1;
        self.most_turns = self.most_turns.max(told.numbers[0]);
    }

    /// `steps`: of the section.
    pub fn from(&mut self, told: &Told, steps: usize) {
        self.from[told.answer as usize] += 1;
        self.open += (told.numbers[0] != told.numbers[1]) as u64;
        self.past += (told.answer == 5 && told.detail >= steps as u64) as u64;
    }

    pub fn left(&mut self, told: &Told) {
        self.left[told.answer as usize] += 1;
        self.begun += (told.numbers[0] != 0) as u64;
        self.open_left += (told.numbers[0] != told.numbers[1]) as u64;
    }

    /// With one bit of the record changed.
    pub fn flipped(&mut self, told: &Told) {
        self.left(told);
        self.flipped[(told.answer != 0) as usize] += 1;
    }

    /// No more is followed.
    pub fn followed(&mut self, Follow { ended, totals, .. }: &Follow) {
        self.totals.all += totals.all;
        self.totals.ends.iter_mut().zip(totals.ends).for_each(|(sum, n)| *sum += n);
        self.totals.in_resumed += totals.in_resumed;
        self.totals.resumed_there += totals.resumed_there;
        self.ended.uncut += ended.uncut;
        self.ended.resumed += ended.resumed;
        self.ended.releases += ended.releases;
        self.ended.waited += ended.waited;
        self.ended.jumped += ended.jumped;
    }

    /// What was not met, as lines.
    pub fn missing(&self) -> Vec<String> {
        let Ended { uncut, resumed, releases, waited, jumped } = self.ended;
        let counts = [
            (self.paths[0], "no turns of a path"),
            (self.paths[1], "no path was refused"),
            (self.from[0], "no turns from a step"),
            (self.open, "no turns from a step with a jump ahead"),
            (self.past, "no step that is not there"),
            (self.left[0], "no turns left"),
            (self.begun, "no turns left of a begun section"),
            (self.open_left, "no turns left with a jump ahead"),
            (self.flipped[1], "no turns left with one bit changed were refused"),
            (self.recovered, "no turns left before and after a recovery"),
            (self.rested, "no list left a board at rest"),
            (uncut, "no uncut section came to its end"),
            (resumed - releases, "no resumed section came to its end, but at a release"),
            (releases, "no section resumed at a release came to its end"),
            (waited, "no section that waited came to its end"),
            (jumped, "no section that jumped came to its end"),
            (self.totals.in_resumed, "no total stopped in a resumed section"),
            (self.totals.resumed_there, "no section was resumed at the store of a total that stopped"),
        ];
        let none = counts.iter().filter(|(n, _)| *n == 0).map(|(_, line)| line.to_string());
        let ends = ENDS.iter().zip(self.totals.ends).filter(|(_, n)| *n == 0);
        let from = FROM_REFUSED.iter().filter(|&&n| self.from[n] == 0);
        let left = LEFT_REFUSED.iter().filter(|&&n| self.left[n] == 0);
        none.chain(ends.map(|(end, _)| format!("no {end}")))
            .chain(from.map(|n| format!("no turns from a step were refused with {n}")))
            .chain(left.map(|n| format!("no turns left were refused with {n}")))
            .collect()
    }

    pub fn report(&self) {
        let [given, refused] = self.paths;
        let most = self.most_turns;
        println!("turns of paths compared: {given} given, {most} turns at most; {refused} refused");
        print!("turns from a step compared: {} given, {} with a jump ahead;", self.from[0], self.open);
        print!(" refused with");
        FROM_REFUSED.iter().for_each(|&n| print!(" {n}: {};", self.from[n]));
        println!(" no such step: {}", self.past);
        print!("turns left compared: {} given, {} of begun sections,", self.left[0], self.begun);
        print!(" {} with a jump ahead; refused with", self.open_left);
        LEFT_REFUSED.iter().for_each(|&n| print!(" {n}: {};", self.left[n]));
        let [given, refused] = self.flipped;
        println!(" with one bit of a record changed {given} of these given, {refused} refused");
        println!("turns left the same right before and right after a recovery: {}", self.recovered);
        println!("lists followed until all workers were idle, which left a board at rest: {}", self.rested);
        let Ended { uncut, resumed, releases, waited, jumped } = self.ended;
        println!(
            "sections followed to their end, with the turns of the reference machine's steps: {uncut} uncut;\n\
             {resumed} resumed, {releases} of them at a release; {waited} of all waited, {jumped} jumped"
        );
        self.report_totals();
    }

    fn report_totals(&self) {
        let Recorded { all, ends, in_resumed, resumed_there } = self.totals;
        print!("totals in these sections, with the values that their words give: {all};");
        ENDS.iter().zip(ends).for_each(|(end, n)| print!(" {end}: {n};"));
        println!(
            "\nof those that stopped, {in_resumed} in a resumed section; {resumed_there} sections were resumed at the \
             store of one"
        );
    }
}
