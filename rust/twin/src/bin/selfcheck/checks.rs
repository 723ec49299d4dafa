//! The check alone, and the hand-in, which does it behind causes 10, 1, 2 and 3 (6/14): drawn tickets and those of
//! `sentences`, right and wrong, at desks that are free, busy, done with the number or not there, and on wrong images.
mod sentences;

use crate::sets::{slow, step};
use crate::{ticket, Rng};
use sentences::{rows, steps};
use twin::*;

/// Whether step i fails one of causes 5 to 9, asked of this one alone, given the held sets.
fn fails(steps: &[u64], sets: &[u64; 64], i: usize, cause: u8) -> bool {
    let (w, n, held) = (steps[i], steps.len() as u64, sets[i]);
    let [kind, a, b, c] = [48, 32, 16, 0].map(|shift| w >> shift & 0xffff);
    let holds = |bay: u64| held >> bay & 1 == 1;
    let words = match kind {
        3 | 7 => vec![a],
        4..=6 => vec![a, b, c],
        _ => vec![],
    };
    match cause {
        5 => {
            let right = match kind {
                1 | 2 => a < 64 && b == 0 && c == 0,
                3..=6 => words.iter().all(|&word| word < 520),
                7 => a < 520 && b > i as u64 && b < n && c == 0,
                8 => a == 0 && b == 0 && c == 0,
                _ => false,
            };
            !right || (kind == 8) != (i as u64 == n - 1)
        }
        6 if i == 0 => kind != 1,
        6 => (kind == 8) == (held != 0),
        7 => kind == 1 && (a..64).any(holds) || kind == 2 && !holds(a),
        8 => words.iter().any(|&word| word < 512 && !holds(word / 8)),
        _ => kind == 7 && sets[b as usize] != held,
    }
}

/// The check by another way: "4; 5 over all steps; then step by step 6, 7, 8, 9".
fn verdict(steps: &[u64]) -> Result<(), Refusal> {
    if steps.len() < 3 || steps.len() > 64 {
        return Err(Refusal { number: 4, at: 0 });
    }
    let sets = slow(steps);
    let all = || 0..steps.len();
    let order = all().map(|i| (5, i)).chain(all().flat_map(|i| (6..=9).map(move |cause| (cause, i))));
    match order.into_iter().find(|&(cause, i)| fails(steps, &sets, i, cause)) {
        Some((number, i)) => Err(Refusal { number, at: i as u8 }),
        None => Ok(()),
    }
}

/// A right ticket with something else in one place or two.
fn spoilt(r: &mut Rng, mut steps: Vec<u64>) -> Vec<u64> {
    for _ in 0..1 + r.below(2) {
        let n = steps.len() as u64;
        let [i, j] = [(); 2].map(|()| r.below(n) as usize);
        let shift = 16 * r.below(3);
        let values = [0, 1, 63, 64, 511, 512, 519, 520, 65535, r.below(64), i as u64, n - 1, n];
        let value = values[r.below(values.len() as u64) as usize];
        match r.below(9) {
            0 => steps.swap(i, j),
            1 => steps.insert(i, steps[j]),
            2 => drop(steps.remove(i)),
            3 => steps[i] = (steps[i] & 0xffff_ffff_ffff) | (r.below(10) << 48),
            _ => steps[i] = (steps[i] & !(0xffff << shift)) | (value << shift),
        }
    }
    steps
}

/// Right, spoilt, right as far as 4 and 5 go, or of any words.
fn draw(r: &mut Rng) -> Vec<u64> {
    let bays = [1, 2, 5, 20, 64][r.below(5) as usize];
    let right = ticket(r, bays);
    match r.below(8) {
        0 => right,
        1..=4 => spoilt(r, right),
        5 | 6 => {
            let n = 3 + r.below(62);
            (0..n - 1).map(|s| step(r, s, n, bays)).chain([Step::word(8, 0, 0, 0)]).collect()
        }
        _ => {
            let n = [r.below(6), 60 + r.below(8), r.below(400)][r.below(3) as usize];
            let high = 12 * r.below(2); // of sixteen kinds, or of any
            (0..n).map(|_| r.next() >> high).collect()
        }
    }
}

/// Where a ticket is handed in.
#[derive(Clone)]
struct At {
    w: Vec<u64>,
    p: Working,
    desk: u64,
    number: u64,
}

impl At {
    /// A free desk and a number above its last finished one; other words behind the header and other places are any.
    fn free(r: &mut Rng) -> At {
        let desks = 1 + r.below(8);
        let desk = r.below(desks);
        let mut w: Vec<u64> = (0..584 + 82 * desks).map(|_| r.next()).collect();
        w[..8].copy_from_slice(&[1, desks, 0, 0, 0, 0, 0, 0]);
        let last = (r.next() >> r.below(64)).min(u64::MAX - 1);
        let more = (r.next() >> r.below(64)) % (u64::MAX - last);
        let mut p = Working {
            step: [(); 8].map(|()| r.next() as u8),
            turn: [(); 8].map(|()| r.next() as u8),
            held: r.next(),
        };
        p.turn[desk as usize] = IDLE;
        let mut at = At { w, p, desk, number: last + 1 + more };
        for (offset, value) in [(0, 0), (1, 0), (9, last)] {
            *at.record(offset) = value;
        }
        at
    }
    fn record(&mut self, offset: usize) -> &mut u64 {
        &mut self.w[584 + 82 * self.desk as usize + offset]
    }
    /// Makes one of causes 1, 2, 3 and 10 so.
    fn spoil(&mut self, r: &mut Rng, cause: u8) {
        let any = r.next() | 1 << r.below(64); // but not 0
        match (cause, r.below(3)) {
            (3, _) => self.number = self.record(9).saturating_sub(r.below(3)),
            (2, 0) => self.p.turn[self.desk as usize] = r.below(IDLE as u64) as u8,
            (2, 1) => *self.record(0) = any,
            (2, _) => *self.record(1) = any,
            (1, 0) => self.desk = self.w[1] + r.below(9),
            (1, 1) => self.desk += 256 << r.below(56),
            (1, _) => self.desk = u64::MAX,
            (_, 0) => self.w.truncate(r.below(self.w.len() as u64) as usize),
            (_, 1) => self.w.extend(vec![0; [1, 82][r.below(2) as usize]]),
            (_, _) => self.w[r.below(8) as usize] ^= any,
        }
    }
    /// What a hand-in that is taken stores, as far as its stores last, and the place that it gives.
    fn load(&mut self, args: &[u64; 8], steps: &[u64], left: u64) {
        let words = [&[self.number], &args[..], steps, &[steps.len() as u64]].concat();
        let offsets = [8].into_iter().chain(10..18 + steps.len()).chain([0]);
        for (offset, word) in offsets.zip(words).take(left as usize) {
            *self.record(offset) = word;
        }
        (self.p.step[self.desk as usize], self.p.turn[self.desk as usize]) = (0, 0);
    }
    /// The hand-in answers this; refused it leaves image and places.
    fn answers(&self, r: &mut Rng, steps: &[u64], answer: Result<(), Refusal>) {
        let args = [(); 8].map(|()| r.next());
        let left = [0, 1, r.below(80), u64::MAX][r.below(4) as usize];
        let mut after = self.clone();
        if answer.is_ok() {
            after.load(&args, steps, left);
        }
        let mut w = self.w.clone();
        let (is, p) = hand_in(&mut w, self.p, self.desk, self.number, &args, steps, left);
        assert_eq!((is, p), (answer, after.p), "{steps:x?}");
        assert!(w == after.w, "{steps:x?}");
    }
}

/// A ticket handed in with each choice of causes 10, 1, 2 and 3 made so: the first of these in this order is the answer
/// whatever the steps, and with none it is what the check alone says.
fn handed_in(r: &mut Rng, steps: &[u64], alone: Result<(), Refusal>) {
    let free = At::free(r);
    for choice in 0..16 {
        let mut at = free.clone();
        let so: Vec<u8> = (0..4).filter(|i| choice >> i & 1 == 1).map(|i| [10, 1, 2, 3][i]).collect();
        // from the last on: what spoils a desk's record needs an image that has it
        so.iter().rev().for_each(|&cause| at.spoil(r, cause));
        at.answers(r, steps, so.first().map_or(alone, |&number| Err(Refusal { number, at: 0 })));
    }
}

/// The rows by hand: checked alone, told, and handed in.
pub fn by_hand() {
    let mut r = Rng(0x9e3779b97f4a7c15);
    for row in rows() {
        let steps = &row.steps[..];
        assert_eq!((check(steps), verdict(steps)), (row.verdict, row.verdict), "{steps:x?}");
        assert_eq!(sentence::of(steps).as_deref(), row.sentence);
        for _ in 0..20 {
            handed_in(&mut r, steps, row.verdict);
        }
    }
}

/// What no other sentence has, with its cause.
const PHRASES: [(u8, &str); 16] = [
    (4, "a ticket has 3 to 64 steps, and this one has "),
    (5, ", and the kinds are 1 to 8"),
    (5, ", and the bays are 0 to 63"),
    (5, ", and the words are 0 to 519"),
    (5, ", and a skip goes to a later step of its ticket"),
    (5, ", which is 0 for kind "),
    (5, " ends the ticket, and is not its last step"),
    (5, " is the last, and does not end the ticket"),
    (6, "step 0 takes no bay, and a ticket starts by taking one"),
    (6, " ends the ticket with bay"),
    (6, "no bay is held at step "),
    (7, " is held already at step "),
    (7, " is below bay "),
    (7, ", which drops it"),
    (8, ", which is not held at step "),
    (9, " held and skips to step "),
];

/// A ticket that passes has no sentence; another has one of these, which is its cause's and has its step.
fn told(steps: &[u64], verdict: Result<(), Refusal>, met: &mut [u64; 16]) {
    let sentence = sentence::of(steps);
    let (Some(text), Err(no)) = (&sentence, verdict) else {
        return assert_eq!((sentence, verdict), (None, Ok(())), "{steps:x?}");
    };
    let is: Vec<usize> = (0..16).filter(|&i| text.contains(PHRASES[i].1)).collect();
    assert!(is.len() == 1 && PHRASES[is[0]].0 == no.number, "{text}: {no:?}");
    let at = [" ", ","].map(|end| format!("step {}{end}", no.at));
    let step = at.iter().any(|at| format!("{text} ").contains(at));
    assert!(step || no.number == 4, "{text}: {no:?}");
    assert!(!text.contains('.') && !text.starts_with(char::is_uppercase), "{text}");
    met[is[0]] += 1;
}

/// Drawn tickets: the check against the other way, their sentences, and hand-ins.
pub fn drawn() {
    let mut r = Rng(0x2545f4914f6cdd1d);
    let (tickets, mut met, mut seen) = (6000, [0; 16], [0; 10]);
    for _ in 0..tickets {
        let steps = draw(&mut r);
        let alone = check(&steps);
        assert_eq!(alone, verdict(&steps), "{steps:x?}");
        told(&steps, alone, &mut met);
        handed_in(&mut r, &steps, alone);
        seen[alone.map_or_else(|no| no.number, |()| 0) as usize] += 1;
    }
    let [passed, .., four, five, six, seven, eight, nine] = seen;
    let causes = format!("4 {four} 5 {five} 6 {six} 7 {seven} 8 {eight} 9 {nine}");
    println!("checked and handed in: tickets {tickets} passed {passed} refused with {causes}: fine");
    assert!(passed > 0 && met.iter().all(|&n| n > 0), "{passed} {met:?}");
}

/// A desk working on document 01's ticket, then done with it: 2 behind each turn but the last, whatever is handed in;
/// then 3, and above the finished number what the check says, as at the other desk all the time.
pub fn working() {
    let mut w = vec![0; 584 + 82 * 2];
    let (_, p) = format(&mut w, 2, u64::MAX);
    let (taken, mut p) = hand_in(&mut w, p, 1, 1, &[0; 8], &steps("1 3 / 3 24 0 5 / 2 3 / 8"), u64::MAX);
    assert_eq!(taken, Ok(()));
    let mut r = Rng(0x9e3779b97f4a7c15);
    for turns in 0..=19 {
        let no = |number| Err(Refusal { number, at: 0 });
        for row in rows() {
            let at = |desk, number| At { w: w.clone(), p, desk, number };
            for number in [0, 1] {
                at(1, number).answers(&mut r, &row.steps, no(if turns < 19 { 2 } else { 3 }));
            }
            at(1, 2).answers(&mut r, &row.steps, if turns < 19 { no(2) } else { row.verdict });
            at(0, 1).answers(&mut r, &row.steps, row.verdict);
        }
        let (a, q) = turn(&mut w, p, 1, 1);
        assert_eq!(a == Ok(Answer::Idle), turns == 19);
        p = q;
    }
}
