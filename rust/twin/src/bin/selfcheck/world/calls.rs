//! The calls of a list: hand-ins, turns, runs and recoveries, each cut or not; and the end of it.
use super::{near, World};
use crate::totals::Rule;
use crate::turns::Count;
use crate::{ticket, Rng};
use twin::plain::{Plain, Ticket};
use twin::turns::turns_left;
use twin::*;

impl World {
    /// What each desk needs to the end after a recovery.
    fn left(&mut self) -> Vec<(u64, u64)> {
        (0..self.desks).map(|d| turns_left(&mut self.w, d as u64).unwrap()).collect()
    }
    /// A recovery, cut or not: it leaves what each desk needs as it was, and each one's turns are counted afresh.
    fn recover(&mut self, left: u64, after_cut: bool) {
        let before = self.left();
        let (a, p) = recover(&mut self.w, left);
        assert_eq!((a, self.left()), (Ok(()), before.clone()));
        self.p = p;
        for (d, needed) in before.into_iter().enumerate() {
            let (place, named) = (self.place(d), self.named(d));
            let desk = &mut self.desk[d];
            desk.count.recovered(place, needed, &mut self.met.seen);
            desk.resumed |= after_cut && place != 0;
            desk.due.cut |= after_cut && named;
        }
    }
    /// A recovery, and another after each that is cut.
    pub(super) fn recoveries(&mut self, r: &mut Rng, mut cut: bool) {
        loop {
            self.met.cuts += cut as u64;
            self.p = Working { step: [9; 8], turn: [3; 8], held: !self.p.held };
            let left = if r.chance(50) { r.below(30) } else { u64::MAX };
            self.recover(left, cut);
            cut = left != u64::MAX;
            if !cut {
                return;
            }
        }
    }
    /// A hand-in, its arguments small or near the ends.
    fn hand_in(&mut self, r: &mut Rng, bays: u64, ends: bool, cut: bool) {
        let d = r.below(self.desks as u64) as usize;
        let mut args = std::array::from_fn(|_| if ends { near(r) } else { r.below(3) });
        if ends && r.chance(50) {
            args[7] = !args[r.below(7) as usize]; // their sum is just 2^64 - 1
        }
        let t = Ticket { args, steps: ticket(r, bays) };
        let last = self.record(d, LAST);
        let number = match r.below(20) {
            0 => last.saturating_sub(r.below(3)),
            1 if r.chance(50) => near(r),
            _ => last.saturating_add(1 + r.below(2)),
        };
        let busy = !self.p.idle(d) || self.record(d, COUNT) != 0 || self.place(d) != 0;
        let stores = 10 + t.steps.len() as u64;
        let left = if cut { r.below(stores + 1) } else { u64::MAX };
        let (a, p) = hand_in(&mut self.w, self.p, d as u64, number, &t.args, &t.steps, left);
        assert_eq!(p.held, self.p.held);
        self.p = p;
        match a {
            Ok(()) => {
                assert!(!busy && number > last);
                let desk = &mut self.desk[d];
                (desk.open, desk.number) = (Some(t), number);
                (desk.count, desk.resumed) = (Count::taken(), false);
            }
            Err(no) => {
                let cause = if busy { 2 } else { 3 };
                assert_eq!((no.number, busy || number <= last), (cause, true));
                self.met.numbers += (cause == 3) as u64;
            }
        }
    }
    /// Some turns of one desk.
    fn turns(&mut self, r: &mut Rng, cut: bool) {
        let d = r.below(self.desks as u64) as usize;
        let mut left = if cut { r.below(2) } else { 1 };
        for _ in 0..r.below(12) {
            self.turn(d, &mut left);
            if cut {
                break;
            }
            left = 1;
        }
    }
    /// A run, which is its turns one by one, so long as these go by the rule that it has; gives whether it ran out of stores.
    fn rounds(&mut self, r: &mut Rng, cut: bool) -> bool {
        let rounds = r.below(80) as u16;
        let mut left = if cut { r.below(300) } else { u64::MAX };
        let mut w2 = self.w.clone();
        let mut t2 = Tally { turns: 99, waits: 99, stores: 99, already_free: 99, others: 99 };
        let (end, p2) = run(&mut w2, self.p, rounds, left, &mut t2);
        let end = end.unwrap();
        let (mine, t) = self.one_by_one(rounds, &mut left);
        if self.rule == Rule::Stop {
            assert!(self.w == w2);
            // where it ran out of stores its answer and its working record count for nothing
            if left != 0 {
                assert_eq!((end, p2, t2), (mine, self.p, t));
            }
        }
        left == 0
    }
    /// The turns of a run, up to where it runs out of stores.
    fn one_by_one(&mut self, rounds: u16, left: &mut u64) -> (End, Tally) {
        let mut t = Tally::default();
        let mut round = 0;
        let end = 'rounds: loop {
            if (0..self.desks).all(|d| self.p.idle(d)) {
                break End::Idle;
            }
            if round == rounds {
                break End::Spent;
            }
            round += 1;
            for d in 0..self.desks {
                if self.p.idle(d) {
                    continue;
                }
                t.turns += 1;
                match self.turn(d, left) {
                    Answer::Waiting(_) => t.waits += 1,
                    Answer::Stored(_) => t.stores += 1,
                    Answer::Passed(Passing::AlreadyFree) => t.already_free += 1,
                    Answer::Passed(Passing::Others) => t.others += 1,
                    Answer::Passed(Passing::Jump) | Answer::Idle => (),
                }
                if *left == 0 {
                    break 'rounds End::Spent;
                }
            }
        };
        (end, t)
    }
    /// So many calls, cut or not, with the recoveries that are due; a recovery may come without a cut too.
    pub fn play(&mut self, r: &mut Rng, calls: u64, bays: u64, ends: bool) {
        for _ in 0..calls {
            let mut cut = r.chance(25);
            match r.below(3) {
                0 => self.hand_in(r, bays, ends, cut),
                1 => self.turns(r, cut),
                _ => cut |= self.rounds(r, cut),
            }
            if cut || r.chance(5) {
                self.recoveries(r, cut);
            }
            self.held();
        }
    }
    /// All desks to their ends by turns; then the image is at rest, and its board the plain machine's.
    pub fn finish(&mut self) {
        while (0..self.desks).fold(false, |any, d| self.turn(d, &mut { u64::MAX }) != Answer::Idle || any) {}
        self.held();
        assert!(self.w[LOCKS..HEAD].iter().all(|&lock| lock == 0));
        for d in 0..self.desks {
            let masks = [COUNT, PLACE, INTENT, OWNER].map(|offset| self.record(d, offset));
            assert_eq!((masks, self.record(d, LAST)), ([0; 4], self.desk[d].last));
        }
        assert!(self.plain.ended());
        assert!(self.plain.board[..] == self.w[BOARD..LOCKS]);
        if self.rule == Rule::Stop && self.pure {
            let again = Plain::from_board(self.start, &self.begun).run(&self.order).expect("allowed");
            assert!(again == self.plain.board);
        }
    }
}
