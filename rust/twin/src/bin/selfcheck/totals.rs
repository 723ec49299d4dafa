//! Totals that stop at the ends (5/14): rows worked out by hand, values that an old program logged, and boards changed over from
//! the rule before. Every sum and difference of the lists is worked out here once more, in numbers with room for it.
use crate::world::{Met, World};
use crate::Rng;
use twin::plain::{Plain, Ticket};
use twin::*;

/// How a sum or a difference is kept in a word.
#[derive(Clone, Copy, PartialEq, Eq, Debug)]
pub enum Rule {
    /// Modulo 2^64, as before 5/14.
    Round = 0,
    /// At the end that it passed.
    Stop = 1,
}

const ROUND: i128 = 1 << 64;

/// b + c of kind 4, b - c of kind 5.
pub fn whole(kind: u16, b: u64, c: u64) -> i128 {
    let (b, c) = (b as i128, c as i128);
    if kind == 4 {
        b + c
    } else {
        b - c
    }
}

/// Past an end.
pub fn out(total: i128) -> bool {
    !(0..ROUND).contains(&total)
}

impl Rule {
    /// What a word keeps of a total.
    pub fn of(self, total: i128) -> u64 {
        let kept = match (self, out(total)) {
            (Rule::Round, _) => total.rem_euclid(ROUND),
            (Rule::Stop, false) => total,
            (Rule::Stop, true) => {
                if total < 0 {
                    0
                } else {
                    ROUND - 1
                }
            }
        };
        u64::try_from(kept).unwrap()
    }
    /// A step's value in the plain machine: by the new rule it is the library's.
    pub fn value(self, s: Step, load: &dyn Fn(u16) -> u64) -> u64 {
        match (self, s.kind) {
            (Rule::Round, 4 | 5) => self.of(whole(s.kind, load(s.b), load(s.c))),
            _ => s.value(load),
        }
    }
}

/// Sums and differences, each counted when the plain machine did it.
#[derive(Clone, Copy, Default)]
pub struct Totals {
    sums: u64,
    /// Past 2^64 - 1; just there, of two words that aren't 0; and past 2^63 - 1 and not there.
    over: u64,
    top: u64,
    upper: u64,
    differences: u64,
    /// Below 0; and just 0, of two words that aren't.
    under: u64,
    level: u64,
    /// Past an end in a ticket that a cut had fallen on before.
    resumed: u64,
    /// Past an end, and the target store made after a cut that found it logged.
    pub carried: u64,
}

impl Totals {
    pub fn add(&mut self, kind: u16, b: u64, c: u64, resumed: bool) {
        let total = whole(kind, b, c);
        let some = b != 0 && c != 0;
        let end = ROUND - 1;
        match kind {
            4 => {
                self.sums += 1;
                self.over += (total > end) as u64;
                self.top += (total == end && some) as u64;
                self.upper += (total < end && total >= ROUND / 2) as u64;
            }
            _ => {
                self.differences += 1;
                self.under += (total < 0) as u64;
                self.level += (total == 0 && some) as u64;
            }
        }
        self.resumed += (resumed && out(total)) as u64;
    }
    /// Tells them; each must have been met.
    pub fn tell(&self) {
        let Totals { sums, over, top, upper, differences, under, level, resumed, carried } = *self;
        let met = [over, top, upper, under, level, resumed, carried];
        let sums = format!("sums {sums} stopped {over} just the top {top} past the middle {upper}");
        let differences = format!("differences {differences} stopped {under} just 0 {level}");
        println!(
            "totals: {sums}, {differences}, resumed and stopped {resumed} stored as logged {carried}: fine"
        );
        assert!(met.iter().all(|&n| n > 0), "{met:?}");
    }
    /// Those past an end.
    fn past(&self) -> u64 {
        self.over + self.under
    }
}

const H: u64 = 1 << 63;
const M: u64 = u64::MAX;
const TAKE: u64 = Step::word(1, 3, 0, 0);
const DROP: u64 = Step::word(2, 3, 0, 0);
const END: u64 = Step::word(8, 0, 0, 0);

/// A formatted board with these as words 24 to 26 and as the first arguments, and take 3, this step, drop 3, end handed in.
fn handed_in(step: u64, words: [u64; 3]) -> (Vec<u64>, Working, Plain) {
    let mut w = vec![7; HEAD + REC];
    let (_, p) = format(&mut w, 1, M);
    w[BOARD + 24..BOARD + 27].copy_from_slice(&words);
    let mut args = [0; 8];
    args[..3].copy_from_slice(&words);
    let steps = vec![TAKE, step, DROP, END];
    let (a, p) = hand_in(&mut w, p, 0, 1, &args, &steps, M);
    assert_eq!(a, Ok(()));
    let board = w[BOARD..LOCKS].try_into().unwrap();
    (w, p, Plain::from_board(board, &[vec![Ticket { args, steps }]]))
}

fn turns(w: &mut [u64], mut p: Working, n: u64) -> Working {
    for _ in 0..n {
        let (a, q) = turn(w, p, 0, 1);
        assert!(matches!(a, Ok(Answer::Stored(_) | Answer::Passed(_))));
        p = q;
    }
    p
}

/// Where word a is.
fn index(a: u16) -> usize {
    if a < 512 {
        BOARD + a as usize
    } else {
        HEAD + OWN + a as usize - 512
    }
}

/// Kind, b, c and what a is then, worked out by hand.
const BY_HAND: [(u16, u64, u64, u64); 36] = [
    (4, M, 0, M),
    (4, 0, M, M),
    (4, M - 1, 1, M),
    (4, 1, M - 1, M),
    (4, M, 1, M),
    (4, 1, M, M),
    (4, M, M, M),
    (4, M - 1, 2, M),
    (4, H, H, M),
    (4, H, H - 1, M),
    (4, H - 1, H, M),
    (4, H - 1, H - 1, M - 1),
    (4, H, 5, H + 5),
    (4, H - 1, 1, H),
    (4, 0xffff_ffff, 1, 1 << 32),
    (4, 2, 3, 5),
    (4, 0, 0, 0),
    (5, 0, 1, 0),
    (5, 5, 7, 0),
    (5, 7, 5, 2),
    (5, 6, 6, 0),
    (5, 0, M, 0),
    (5, M, 0, M),
    (5, M, M, 0),
    (5, M, M - 1, 1),
    (5, M - 1, M, 0),
    (5, M, 1, M - 1),
    (5, H, H + 1, 0),
    (5, H + 1, H, 1),
    (5, H - 1, H, 0),
    (5, H, H - 1, 1),
    (5, 0, H, 0),
    (5, H, 0, H),
    (5, M, H, H - 1),
    (5, 1 << 32, 1, 0xffff_ffff),
    (5, 0, 0, 0),
];

/// Each sum and difference, by `Step::value`, in the plain machine and by turns: the value is the eighth turn's, in entry 0, and
/// the tenth stores it. Over board words, over own words, over both, and with the target as an operand.
pub fn rows() {
    for (kind, b, c, is) in BY_HAND {
        let words = [b, c, 0x1234];
        let mut names =
            vec![[26, 24, 25], [514, 512, 513], [26, 512, 25], [514, 24, 513], [24, 24, 25], [513, 24, 513]];
        if b == c {
            names.extend([[24, 24, 24], [512, 512, 512], [26, 24, 24]]);
        }
        for [x, y, z] in names {
            let step = Step::word(kind, x, y, z);
            let load = |w: u16| words[w as usize % 8];
            assert_eq!((Step::of(step).value(load), Rule::Stop.of(whole(kind, b, c))), (is, is));
            let (mut w, p, mut plain) = handed_in(step, words);
            let p = turns(&mut w, p, 8);
            assert_eq!(w[HEAD + ENTRY..HEAD + ENTRY + 2], [index(x) as u64, is], "{kind} {b:x} {c:x}");
            let p = turns(&mut w, p, 2);
            assert_eq!(w[index(x)], is);
            assert!(plain.entry(0) && plain.entry(0));
            assert_eq!(plain.word(0, x), is);
            turns(&mut w, p, 9);
            assert!(plain.entry(0) && plain.entry(0) && plain.ended());
            assert!(plain.board[..] == w[BOARD..LOCKS]);
        }
    }
}

/// The power goes in an old program behind a sum or difference that went round, and the recovery is the new one's. Where place
/// names the step, the value is stored as it was logged; where it doesn't yet, it is worked out by the new rule.
pub fn logged() {
    let sum = Step::word(4, 26, 24, 513);
    let difference = Step::word(5, 514, 512, 25);
    let rows = [(sum, M, 4, 3, M), (sum, H, H, 0, M), (difference, 5, 7, M - 1, 0), (difference, 0, M, 1, 0)];
    for (step, b, c, old, new) in rows {
        let at = index(Step::of(step).a);
        for made in 8..=10 {
            let (mut w, p, _) = handed_in(step, [b, c, 0x1234]);
            let p = turns(&mut w, p, 8);
            assert_eq!(w[HEAD + ENTRY + 1], new);
            w[HEAD + ENTRY + 1] = old;
            turns(&mut w, p, made - 8);
            assert_eq!(w[at], if made == 10 { old } else { 0x1234 });
            // the words that it was made of don't matter any more, once it is named
            if made > 8 {
                w[BOARD + 24..BOARD + 26].copy_from_slice(&[1, 1]);
                w[HEAD + OWN..HEAD + OWN + 2].copy_from_slice(&[1, 1]);
            }
            let (a, p) = recover(&mut w, M);
            let on = if made > 8 { (1, 3) } else { (0, 5) };
            assert_eq!((a, (p.step[0], p.turn[0])), (Ok(()), on));
            // the target store, or the take's and the four of the step
            let (more, is) = if made > 8 { (1, old) } else { (5, new) };
            let p = turns(&mut w, p, more);
            assert_eq!((w[at], w[HEAD + ENTRY + 1]), (is, is));
            let p = turns(&mut w, p, 9);
            assert_eq!((w[at], p), (is, Working::ALL_IDLE));
        }
    }
}

/// Lists by the old rule until every desk is idle, then lists by the new one on that image, measured from there.
pub fn changed_over(lists: u64, seed: u64) {
    let mut met = Met::default();
    let (mut ended, mut refused) = (0, 0);
    for list in 0..lists {
        let mut r = Rng::of(seed, 1 << 31 | list);
        let bays = [1, 2, 3, 6, 20][r.below(5) as usize];
        let mut k = World::formatted(&mut r, Rule::Round, met);
        let calls = 10 + r.below(40);
        k.play(&mut r, calls, bays, true);
        k.finish();
        ended += k.met.ended - met.ended;
        k.change_over(&mut r);
        let before = k.met.numbers;
        for _ in 0..1 + r.below(2) {
            let calls = 5 + r.below(40);
            let ends = r.chance(50);
            k.play(&mut r, calls, bays, ends);
            k.finish();
        }
        met = k.met;
        refused += met.numbers - before;
    }
    let [old, new] = met.totals;
    let before = format!("tickets ended {ended} gone round {}", old.past());
    let after =
        format!("tickets ended {} refused with 3 {refused} stopped {}", met.ended - ended, new.past());
    println!("changed over: lists {lists} cuts {}, {before}, then {after}: fine", met.cuts);
    let counts = [old.past(), new.past(), new.carried, refused];
    assert!(counts.iter().all(|&n| n > 0), "{counts:?}");
}

/// Lists by the old rule that change over at a cut, whatever is open, which isn't promised and not refused.
pub fn changed_amid(lists: u64, seed: u64) {
    let mut met = Met::default();
    let (mut begun, mut round) = (0, 0);
    for list in 0..lists {
        let mut r = Rng::of(seed, 1 << 30 | list);
        let bays = [1, 2, 3, 6, 20][r.below(5) as usize];
        let mut k = World::formatted(&mut r, Rule::Round, met);
        let calls = 5 + r.below(20);
        k.play(&mut r, calls, bays, true);
        let (b, c) = k.change_amid(&mut r);
        (begun, round) = (begun + b, round + c);
        let calls = 5 + r.below(20);
        k.play(&mut r, calls, bays, true);
        k.finish();
        met = k.met;
    }
    let [old, new] = met.totals;
    let open = format!("begun {begun}, of which at one gone round {round}");
    println!(
        "changed over amid tickets: lists {lists} cuts {}, {open}, tickets ended {}: fine",
        met.cuts, met.ended
    );
    let counts = [old.carried, new.past(), begun, round];
    assert!(counts.iter().all(|&n| n > 0), "{counts:?}");
}
