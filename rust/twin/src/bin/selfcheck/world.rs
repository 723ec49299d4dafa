//! A list of calls as in demand 3, each turn of it followed in the plain machine.
mod calls;

use crate::totals::{out, whole, Rule, Totals};
use crate::turns::{Count, Seen};
use crate::Rng;
use twin::plain::{Plain, Ticket};
use twin::*;

/// What the lists met.
#[derive(Clone, Copy, Default)]
pub struct Met {
    pub cuts: u64,
    pub waits: u64,
    /// Begun tickets that ended.
    pub ended: u64,
    /// Turns that passed, by the number of `Passing`.
    pub passed: [u64; 3],
    /// The most bays held at once.
    pub most: u32,
    /// Hand-ins refused with 3.
    pub numbers: u64,
    /// The tickets whose turns were compared at their end.
    pub seen: Seen,
    /// Sums and differences, by the number of their `Rule`.
    pub totals: [Totals; 2],
}

/// The value that a desk's last step of kinds 3 to 6 gave in the plain machine.
#[derive(Clone, Copy, Default)]
struct Due {
    value: u64,
    /// For a sum or difference past an end, the rule by which it was kept.
    out: Option<Rule>,
    /// The power went with place naming the step.
    cut: bool,
}

/// What one desk has under way.
#[derive(Clone)]
struct Desk {
    /// The ticket handed in last, and its number.
    open: Option<Ticket>,
    number: u64,
    /// The number that must be its last finished one.
    last: u64,
    count: Count,
    due: Due,
    /// Its ticket was begun when the power went.
    resumed: bool,
}

pub struct World {
    w: Vec<u64>,
    p: Working,
    desks: usize,
    /// By which sums and differences are logged now, and whether all were so since the plain machine started.
    rule: Rule,
    pure: bool,
    /// The board words from which the plain machine started, and what it was fed and did.
    start: [u64; 512],
    plain: Plain,
    begun: Vec<Vec<Ticket>>,
    order: Vec<usize>,
    desk: Vec<Desk>,
    pub met: Met,
}

/// A word near an end, in the middle, or any.
fn near(r: &mut Rng) -> u64 {
    match r.below(8) {
        0 => r.next(),
        _ => (r.below(2) << 63).wrapping_add(r.below(9)).wrapping_sub(4),
    }
}

impl World {
    /// Formatted, for lists by this rule.
    pub fn formatted(r: &mut Rng, rule: Rule, met: Met) -> World {
        let desks = 1 + r.below(8) as usize;
        let mut w = vec![r.next(); HEAD + REC * desks];
        let (ok, p) = format(&mut w, desks as u64, u64::MAX);
        assert_eq!((ok, p), (Ok(()), Working::ALL_IDLE));
        let desk = Desk {
            open: None,
            number: 0,
            last: 0,
            count: Count::none(),
            due: Due::default(),
            resumed: false,
        };
        World {
            w,
            p,
            desks,
            rule,
            pure: true,
            start: [0; 512],
            plain: Plain::new(&vec![vec![]; desks]),
            begun: vec![vec![]; desks],
            order: vec![],
            desk: vec![desk; desks],
            met,
        }
    }
    /// Puts any words where a list that left every desk idle may have left any.
    pub fn rest(&mut self, r: &mut Rng) {
        self.w[BOARD..LOCKS].fill_with(|| near(r));
        for (d, rec) in self.w[HEAD..].chunks_exact_mut(REC).enumerate() {
            rec[ENTRY..INTENT].fill_with(|| near(r));
            rec[NUMBER..].fill_with(|| near(r));
            rec[LAST] = match r.below(16) {
                0 => u64::MAX,
                1 => u64::MAX - r.below(3),
                2..=5 => r.below(3),
                6..=8 => near(r),
                _ => r.next(),
            };
            self.desk[d].last = rec[LAST];
        }
        self.fresh();
    }
    /// The plain machine afresh, from the board words as they are.
    fn fresh(&mut self) {
        self.start.copy_from_slice(&self.w[BOARD..LOCKS]);
        self.begun = vec![vec![]; self.desks];
        self.plain = Plain::from_board(self.start, &self.begun);
        self.order.clear();
        self.pure = true;
    }
    /// The board changes over where every desk is idle, in the working record too: by the new rule from here on, and measured
    /// from here on. The power may go meanwhile, and a recovery come first.
    pub fn change_over(&mut self, r: &mut Rng) {
        assert_eq!(self.p, Working::ALL_IDLE);
        self.rule = Rule::Stop;
        self.fresh();
        if r.chance(50) {
            self.recoveries(r, true);
            assert_eq!(self.p, Working::ALL_IDLE);
        }
    }
    /// The power goes, and the recovery and all behind it are the new program's, whatever is open: what place names stays as it
    /// was logged. Gives the begun tickets, and of these those where it names a sum or difference that had gone round.
    pub fn change_amid(&mut self, r: &mut Rng) -> (u64, u64) {
        // at any moment, or soon at such a one
        let mut turns = if r.chance(50) { 300 } else { 0 };
        while turns > 0 && !(0..self.desks).any(|d| self.past(d)) {
            self.turn(r.below(self.desks as u64) as usize, &mut { 1 });
            turns -= 1;
        }
        (self.rule, self.pure) = (Rule::Stop, false);
        let begun = (0..self.desks).filter(|&d| self.place(d) != 0).count();
        let round = (0..self.desks).filter(|&d| self.past(d)).count();
        self.recoveries(r, true);
        (begun as u64, round as u64)
    }
    /// Whether place names a sum or a difference past an end.
    fn past(&self, d: usize) -> bool {
        self.named(d) && self.desk[d].due.out.is_some()
    }
    fn record(&self, d: usize, offset: usize) -> u64 {
        self.w[HEAD + REC * d + offset]
    }
    fn place(&self, d: usize) -> u64 {
        self.record(d, PLACE)
    }
    /// Whether place names a step of kinds 3 to 6.
    fn named(&self, d: usize) -> bool {
        let place = self.place(d) & !TOP;
        place != 0 && matches!(self.record(d, STEPS + place as usize - 1) >> 48, 3..=6)
    }
    /// Value of a word number in the image.
    fn word(&self, d: usize, w: u16) -> u64 {
        let w = w as usize;
        if w < 512 {
            self.w[BOARD + w]
        } else {
            self.record(d, OWN + w - 512)
        }
    }
    /// The mask of bays held against the lock words, after an accepted, uncut call.
    fn held(&mut self) {
        let taken = |b: &usize| self.w[LOCKS + b] != 0;
        assert_eq!(self.p.bays_held() as usize, (0..64).filter(taken).count());
        for b in 0..64 {
            assert_eq!(self.p.held >> b & 1 == 1, taken(&b), "bay {b}");
        }
        self.met.most = self.met.most.max(self.p.bays_held());
    }
    /// The plain machine's next step of desk d. What a sum or a difference comes to is worked out here too.
    fn step(&mut self, d: usize) {
        let at = self.plain.at(d).unwrap();
        let s = Step::of(self.begun[d].last().unwrap().steps[at]);
        self.desk[d].count.path.push(at as u64);
        let operands = matches!(s.kind, 4 | 5).then(|| [s.b, s.c].map(|w| self.plain.word(d, w)));
        let rule = self.rule;
        assert!(self.plain.entry_by(d, |s, load| rule.value(s, load)), "refused");
        self.order.push(d);
        let mut due = Due::default();
        if let Some([b, c]) = operands {
            let total = whole(s.kind, b, c);
            assert_eq!(self.plain.word(d, s.a), rule.of(total), "{b:x} and {c:x}");
            self.met.totals[rule as usize].add(s.kind, b, c, self.desk[d].resumed);
            due.out = out(total).then_some(rule);
        }
        if matches!(s.kind, 3..=6) {
            due.value = self.plain.word(d, s.a);
            self.desk[d].due = due;
        }
    }
    /// Follow a turn's store in the plain machine. `place` is the place before the turn.
    fn follow(&mut self, d: usize, place: u64) {
        let now = self.place(d);
        if now == place {
            return;
        }
        if place == 0 {
            let t = self.desk[d].open.clone().unwrap();
            self.begun[d].push(t.clone());
            self.plain.push(d, t);
        }
        if now == 0 {
            let t = self.begun[d].last().unwrap().clone();
            while let Some(s) = self.plain.at(d) {
                assert!(matches!(Step::of(t.steps[s]).kind, 7 | 8));
                self.step(d);
            }
            self.desk[d].last = self.desk[d].number;
            self.met.ended += 1;
        } else {
            let s = (now & !TOP) as usize - 1;
            loop {
                let at = self.plain.at(d).unwrap();
                self.step(d);
                if at == s {
                    break;
                }
            }
        }
    }
    /// Where desk d is: its step, and its turn, which is none if it is idle.
    fn at(&self, d: usize) -> (Step, u8) {
        (Step::of(self.record(d, STEPS + self.p.step[d] as usize)), self.p.turn[d])
    }
    /// How desk d's next turn is to pass, if it is: from the words, not by `report`.
    fn passing(&self, d: usize) -> Option<Passing> {
        let (s, t) = self.at(d);
        match (s.kind, t) {
            (7, 0) => Some(Passing::Jump),
            (2, 4) => match self.w[LOCKS + s.a as usize] {
                0 => Some(Passing::AlreadyFree),
                lock => (lock != d as u64 + 1).then_some(Passing::Others),
            },
            _ => None,
        }
    }
    /// A store of kinds 3 to 6 was made in turn t. A sum's or a difference's value is the new rule's as it is logged, and is then
    /// put as this list's rule has it; at the target it is the one that the plain machine gave when place came to name the step.
    fn stored(&mut self, d: usize, s: Step, t: u8, index: usize, total: Option<i128>) {
        if let (1, Some(total)) = (t, total) {
            assert_eq!(self.w[index], Rule::Stop.of(total), "{total:x}");
            self.w[index] = self.rule.of(total);
        }
        if t == 3 {
            let target = if s.a < 512 { BOARD } else { HEAD + REC * d + OWN - 512 } + s.a as usize;
            let due = &mut self.desk[d].due;
            assert_eq!((index, self.w[index]), (target, due.value));
            if let (Some(rule), true) = (due.out, due.cut) {
                self.met.totals[rule as usize].carried += 1;
            }
            due.cut = false;
        }
    }
    /// One turn, its stores taken off those left.
    fn turn(&mut self, d: usize, left: &mut u64) -> Answer {
        let place = self.place(d);
        let passing = self.passing(d);
        let (s, t) = self.at(d);
        let total = matches!(s.kind, 4 | 5).then(|| whole(s.kind, self.word(d, s.b), self.word(d, s.c)));
        let (a, p) = turn(&mut self.w, self.p, d as u64, *left);
        self.p = p;
        let a = a.unwrap();
        match a {
            Answer::Passed(how) => {
                assert_eq!(Some(how), passing);
                self.met.passed[how as usize] += 1;
            }
            _ => assert_eq!(None, passing),
        }
        self.met.waits += matches!(a, Answer::Waiting(_)) as u64;
        let stored = matches!(a, Answer::Stored(_));
        let made = *left > 0;
        if !stored || made {
            self.held();
        }
        if let (Answer::Stored(index), true, 3..=6) = (a, made, s.kind) {
            self.stored(d, s, t, index, total);
        }
        if stored {
            *left = left.saturating_sub(1);
        }
        self.follow(d, place);
        self.desk[d].count.turn(a);
        if stored && made && self.p.idle(d) {
            let count = std::mem::replace(&mut self.desk[d].count, Count::none());
            count.ended(&self.begun[d].last().unwrap().steps, &mut self.met.seen);
        }
        a
    }
}
