//! Turns to the end (4/14): every section that ends in a list of calls against the plain machine's path, all ways of drawn
//! sections, and rows worked out by hand. Document 01's ticket is a section here, its desk a worker, its place a pc, its drop a
//! release and its skip a jump.
use crate::{ticket, Rng};
use twin::turns::*;
use twin::*;

/// The turn table written out once more: take, drop, kinds 3 to 6, skip, end.
fn by_hand(word: u64) -> u64 {
    match word >> 48 {
        1 | 2 => 6,
        3..=6 => 4,
        7 => 1,
        8 => 3,
        kind => panic!("kind {kind}"),
    }
}

fn sum(words: &[u64], path: &[u64]) -> u64 {
    let turns = path.iter().map(|&s| by_hand(words[s as usize])).sum();
    assert_eq!(turns_of_path(words, path), Ok(turns));
    turns
}

/// From where a section's turns are counted.
#[derive(Clone, Copy)]
enum Since {
    /// No section is open, or the last one was withdrawn.
    Nothing,
    Taken,
    /// A recovery, `gone` instructions having been gone through, and what `turns_left` said then.
    Recovered {
        gone: usize,
        left: (u64, u64),
    },
}

/// What one worker's section has gone through.
#[derive(Clone)]
pub struct Count {
    since: Since,
    /// Its turns since then that didn't wait, and those that did.
    moved: u64,
    waited: u64,
    /// The steps that the plain machine did for it, from the first on.
    pub path: Vec<u64>,
}

/// The sections compared.
#[derive(Clone, Copy, Default)]
pub struct Seen {
    uncut: u64,
    resumed: u64,
    /// Of the resumed, those whose pc named a release.
    releases: u64,
    /// Of all, those that waited, and those that left steps out.
    waited: u64,
    jumped: u64,
    /// Begun sections that were not compared: the power went between the last two turns of their finish.
    unclosed: u64,
}

impl Count {
    pub fn none() -> Count {
        Count { since: Since::Nothing, moved: 0, waited: 0, path: vec![] }
    }
    pub fn taken() -> Count {
        Count { since: Since::Taken, ..Count::none() }
    }
    pub fn turn(&mut self, answer: Answer) {
        match answer {
            Answer::Stored(_) | Answer::Passed(_) => self.moved += 1,
            Answer::Waiting(_) => self.waited += 1,
            Answer::Idle => (),
        }
    }
    /// A recovery left this pc, and `turns_left` says this of it.
    pub fn recovered(&mut self, pc: u64, left: (u64, u64), seen: &mut Seen) {
        (self.moved, self.waited) = (0, 0);
        if pc == 0 {
            assert_eq!(left, (0, 0));
            seen.unclosed += !self.path.is_empty() as u64;
            *self = Count::none();
            return;
        }
        // the plain machine has done the instruction that the pc names, and none behind it
        assert_eq!(self.path.last(), Some(&((pc & !TOP) - 1)));
        self.since = Since::Recovered { gone: self.path.len(), left };
    }
    /// The third turn of its finish was made: the two statements of 4/14, and that the bounds given before are bounds.
    pub fn ended(&self, words: &[u64], seen: &mut Seen) {
        let all = sum(words, &self.path);
        let (turns, (fewest, most)) = match self.since {
            Since::Nothing => panic!("a section ended that was not open"),
            Since::Taken => (all, turns_from(words, 0).unwrap()),
            Since::Recovered { gone, left } => {
                let release = words[self.path[gone - 1] as usize] >> 48 == 2;
                seen.resumed += 1;
                seen.releases += release as u64;
                (if release { 3 } else { 1 } + sum(words, &self.path[gone..]), left)
            }
        };
        assert_eq!(self.moved, turns, "{words:x?} by {:?}", self.path);
        assert!(fewest <= turns && turns <= most, "{words:x?} by {:?}", self.path);
        seen.uncut += matches!(self.since, Since::Taken) as u64;
        seen.waited += (self.waited > 0) as u64;
        seen.jumped += (self.path.len() < words.len()) as u64;
    }
}

impl Seen {
    /// Tells what was compared of as many begun sections as these.
    pub fn tell(&self, begun: u64) {
        let Seen { uncut, resumed, releases, waited, jumped, unclosed } = self;
        assert_eq!(uncut + resumed + unclosed, begun);
        let kinds = format!("uncut {uncut} resumed {resumed}, at a release {releases}");
        println!("turns to the end: {kinds}, waited {waited} jumped {jumped}, not closed {unclosed}: fine");
    }
}

/// The path from a step on whose k-th jump, in the order gone through, is taken where bit k of `ways` is set.
fn walk(words: &[u64], mut step: usize, mut ways: u64) -> Vec<u64> {
    let mut path = vec![];
    while step < words.len() {
        path.push(step as u64);
        let s = Step::of(words[step]);
        step += 1;
        if s.kind == 7 {
            step = if ways & 1 == 1 { s.b as usize } else { step };
            ways >>= 1;
        }
    }
    path
}

/// The fewest and the most turns from each step of drawn sections against all of their ways, one by one.
pub fn ways() {
    let mut r = Rng(0x9e3779b97f4a7c15);
    let (mut sections, mut walked, mut spread, mut greedy) = (0u64, 0u64, 0u64, 0u64);
    let mut causes = [0; 10];
    while sections < 2000 {
        let words = if r.chance(50) { ticket(&mut r, 6) } else { jumping(&mut r) };
        assert_eq!(check(&words), Ok(()));
        let jumps = |from: usize| words[from..].iter().filter(|&&w| w >> 48 == 7).count();
        if jumps(0) > 10 {
            continue;
        }
        sections += 1;
        for step in 0..words.len() {
            let ways = 0..1u64 << jumps(step);
            let all: Vec<u64> = ways.map(|ways| sum(&words, &walk(&words, step, ways))).collect();
            let (fewest, most) = (*all.iter().min().unwrap(), *all.iter().max().unwrap());
            assert_eq!(turns_from(&words, step as u64), Ok((fewest, most)), "{words:x?} from {step}");
            walked += all.len() as u64;
            spread += (fewest < most) as u64;
            // taking each jump isn't always the shortest way
            greedy += (all[all.len() - 1] > fewest) as u64;
        }
        let n = words.len() as u64;
        for step in [n, n + 1, 64, 256 + n - 1, 1 << 32, u64::MAX] {
            assert_eq!(turns_from(&words, step), Err(AtStep { number: 5, step }));
        }
        causes[refused(&mut r, words) as usize] += 1;
    }
    assert!(causes[4..].iter().all(|&seen| seen > 0), "{causes:?}");
    let totals = format!("fewest below most {spread} times, and below taking each jump {greedy} times");
    println!("turns from each step: sections {sections} ways {walked}, {totals}: fine");
}

/// A section with two steps exchanged, or cut off: the cause that its check answers, 0 if none, is answered at any step.
fn refused(r: &mut Rng, mut words: Vec<u64>) -> u8 {
    let [a, b] = [(); 2].map(|()| r.below(words.len() as u64) as usize);
    words.swap(a, b);
    words.truncate(if r.chance(5) { 2 } else { 64 });
    let Err(no) = check(&words) else { return 0 };
    for step in [0, a as u64, 64, u64::MAX] {
        let as_check = AtStep { number: no.number, step: no.at as u64 };
        assert_eq!(turns_from(&words, step), Err(as_check), "{words:x?} from {step}");
    }
    no.number
}

/// A section under lock 3, mostly of jumps.
fn jumping(r: &mut Rng) -> Vec<u64> {
    let n = 3 + r.below(14);
    let mut words = vec![Step::word(1, 3, 0, 0)];
    for s in 1..n - 2 {
        // behind itself, to the release at the most
        let to = s + 1 + r.below(n - 2 - s);
        words.push(match r.chance(60) {
            true => Step::word(7, 512 + r.below(8) as u16, to as u16, 0),
            false => Step::word(3, 24, 0, 5),
        });
    }
    words.extend([Step::word(2, 3, 0, 0), Step::word(8, 0, 0, 0)]);
    words
}

const END: u64 = Step::word(8, 0, 0, 0);
const TAKE: u64 = Step::word(1, 3, 0, 0);
const FIVE: u64 = Step::word(3, 24, 0, 5);
const DROP: u64 = Step::word(2, 3, 0, 0);
/// Of no kind.
const BAD: u64 = Step::word(9, 0, 0, 0);

fn jump(to: u16) -> u64 {
    Step::word(7, 512, to, 0)
}

/// Paths along words that need not be a section.
pub fn paths() {
    let is = |words: &[u64], path: &[u64], turns| assert_eq!(turns_of_path(words, path), Ok(turns));
    let no = |words: &[u64], path: &[u64], step| {
        assert_eq!(turns_of_path(words, path), Err(AtStep { number: 5, step }))
    };
    let listing = [TAKE, FIVE, DROP, END];
    is(&listing, &[0, 1, 2, 3], 19);
    is(&listing, &[3, 1, 1, 0], 17);
    is(&listing, &[], 0);
    is(&[], &[], 0);
    no(&[], &[0], 0);
    no(&listing, &[0, 4, 5], 4);
    no(&listing, &[0, 5, 4], 5);
    no(&listing, &[u64::MAX], u64::MAX);
    no(&listing, &[1 << 32], 1 << 32);
    // a step that fails 5 matters where the path comes by it
    let spoilt = [TAKE, BAD, DROP, jump(3), jump(5), FIVE];
    is(&spoilt, &[0, 2, 4], 13);
    for (path, step) in [([0, 1, 3], 1), ([3, 2, 1], 3), ([5, 6, 3], 5), ([6, 5, 1], 6)] {
        no(&spoilt, &path, step);
    }
    no(&[TAKE, END, DROP, END], &[0, 1], 1);
    // one word; and 66, of which a jump may go to step 63 and to none above, since no ticket has more than 64 steps
    is(&[END], &[0, 0], 6);
    let mut long = vec![FIVE; 66];
    (long[1], long[2], long[64], long[65]) = (jump(64), jump(63), DROP, END);
    is(&long, &[0, 2, 64, 65], 14);
    no(&long, &[0, 1, 64], 1);
    long[63] = jump(66);
    no(&long, &[62, 63], 63);
    no(&long[..65], &[2, 64], 64);
}

/// What each of 19 cuts leaves of document 01's section, and the refusals.
pub fn left() {
    let no = |number| Err(Refusal { number, at: 0 });
    let mut w = vec![0; HEAD + REC * 2];
    assert_eq!(turns_left(&mut w, 0), no(10));
    let (_, p) = format(&mut w, 2, u64::MAX);
    let (a, mut p) = hand_in(&mut w, p, 1, 1, &[0; 8], &[TAKE, FIVE, DROP, END], u64::MAX);
    assert_eq!(a, Ok(()));
    for turns in 0..=19 {
        let left = match turns {
            5..=8 => 14,
            9..=12 => 10,
            13..=17 => 6,
            _ => 0,
        };
        let before = w.clone();
        assert_eq!((turns_left(&mut w, 1), turns_left(&mut w, 0)), (Ok((left, left)), Ok((0, 0))));
        for worker in [2, 8, 257, u64::MAX] {
            assert_eq!(turns_left(&mut w, worker), no(1));
        }
        // the owner words aren't asked, nor the other worker's record; its own is, and the header before all
        (w[LOCKS + 9], w[HEAD + OWNER]) = (9, 1);
        assert_eq!((turns_left(&mut w, 0), turns_left(&mut w, 1)), (no(12), Ok((left, left))));
        w[HEAD + REC + OWNER] ^= 1;
        assert_eq!(turns_left(&mut w, 1), no(12));
        w[7] = 1;
        assert_eq!([0, 1, 2].map(|d| turns_left(&mut w, d)), [no(10); 3]);
        w = before;
        p = turn(&mut w, p, 1, 1).1;
    }
}
