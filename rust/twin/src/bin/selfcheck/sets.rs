//! The pass that works out the held sets, called by itself (3/14): rows worked out by hand, and drawn tickets against another way.
use crate::{ticket, Rng};
use twin::*;

const END: u64 = Step::word(8, 0, 0, 0);
/// Own word 512 := 0, which needs no bay.
const OWN_0: u64 = Step::word(3, 512, 0, 0);
/// Of no kind.
const BAD: u64 = Step::word(9, 0, 0, 0);

fn take(bay: u16) -> u64 {
    Step::word(1, bay, 0, 0)
}
fn dropped(bay: u16) -> u64 {
    Step::word(2, bay, 0, 0)
}
fn skip(to: u16) -> u64 {
    Step::word(7, 512, to, 0)
}
fn filled(n: usize, step: u64) -> Vec<u64> {
    let mut steps = vec![step; n];
    (steps[0], steps[n - 2], steps[n - 1]) = (take(3), dropped(3), END);
    steps
}

/// 4 before 5; then 5, by the lowest step that fails it, whatever the steps before it fail.
pub fn refused() {
    let no = |steps: &[u64], number, at| {
        let refusal = Refusal { number, at };
        assert_eq!((held_sets(steps), check(steps)), (Err(refusal), Err(refusal)), "{steps:x?}");
    };
    for n in [0, 1, 2, 65, 66, 80] {
        no(&vec![BAD; n], 4, 0);
    }
    no(&[take(3), END], 4, 0);
    no(&filled(65, OWN_0), 4, 0);
    no(&[BAD; 3], 5, 0);
    no(&[BAD; 64], 5, 0);
    // the lowest of several
    no(&[take(3), dropped(64), BAD, dropped(3), END], 5, 1);
    no(&[take(3), OWN_0, skip(2), BAD, dropped(3), dropped(3)], 5, 2);
    no(&[take(3), END, dropped(3)], 5, 1);
    // behind steps that fail 6, 7, 7, 8 and 9
    no(&[OWN_0, take(3), BAD, END], 5, 2);
    no(&[take(3), take(2), BAD, END], 5, 2);
    no(&[take(3), dropped(4), BAD, END], 5, 2);
    no(&[take(3), Step::word(3, 32, 0, 5), BAD, END], 5, 2);
    no(&[take(3), skip(4), dropped(3), BAD, END], 5, 3);
    // the last step, an end that isn't last, bay 64, and the skips that go nowhere
    no(&[take(3), dropped(3), dropped(3)], 5, 2);
    no(&[take(3), dropped(3), END + 1], 5, 2);
    no(&filled(65, OWN_0)[..64], 5, 63);
    no(&[take(3), END, dropped(3), END], 5, 1);
    no(&[take(64), dropped(64), END], 5, 0);
    no(&[take(3), skip(1), dropped(3), END], 5, 1);
    no(&[take(3), skip(4), dropped(3), END], 5, 1);
}

/// A ticket, the cause and step that its check answers if it does, and the sets before its steps: behind these all words are 0.
fn is(steps: &[u64], no: Option<(u8, u8)>, sets: &[u64]) {
    let refusal = no.map(|(number, at)| Refusal { number, at });
    assert_eq!((check(steps).err(), steps.len()), (refusal, sets.len()), "{steps:x?}");
    let mut all = [0; 64];
    all[..sets.len()].copy_from_slice(sets);
    assert_eq!(held_sets(steps), Ok(all), "{steps:x?}");
}

/// The sets of tickets that pass, and of some that fail 6 to 9. Bay 2 is 4, bay 3 is 8, bay 4 is 16.
pub fn given() {
    is(&[take(3), dropped(3), END], None, &[0, 8, 0]);
    is(&[take(3), Step::word(3, 24, 0, 5), dropped(3), END], None, &[0, 8, 8, 0]);
    is(&[take(3), take(4), dropped(3), dropped(4), END], None, &[0, 8, 24, 16, 0]);
    is(&[take(3), skip(4), take(4), dropped(4), dropped(3), END], None, &[0, 8, 8, 24, 8, 0]);
    is(&[take(0), take(63), dropped(0), dropped(63), END], None, &[0, 1, TOP + 1, TOP, 0]);
    // 6: first step no take, nothing held, and bays held behind the last step
    is(&[OWN_0, take(3), dropped(3), END], Some((6, 0)), &[0, 0, 8, 0]);
    is(&[dropped(3), take(3), dropped(3), END], Some((6, 0)), &[0, 0, 8, 0]);
    is(&[OWN_0, OWN_0, END], Some((6, 0)), &[0, 0, 0]);
    is(&[take(3), dropped(3), take(4), dropped(4), END], Some((6, 2)), &[0, 8, 0, 16, 0]);
    is(&[take(3), OWN_0, END], Some((6, 2)), &[0, 8, 8]);
    is(&[take(0), take(63), END], Some((6, 2)), &[0, 1, TOP + 1]);
    // 7: a take below, one of a bay that is held, which one drop removes, and drops of a bay that isn't
    is(&[take(3), take(2), dropped(3), dropped(2), END], Some((7, 1)), &[0, 8, 12, 4, 0]);
    is(&[take(63), take(0), dropped(63), END], Some((7, 1)), &[0, TOP, TOP + 1, 1]);
    is(&[take(3), take(3), dropped(3), END], Some((7, 1)), &[0, 8, 8, 0]);
    is(&[take(3), take(3), dropped(3), dropped(3), END], Some((7, 1)), &[0, 8, 8, 0, 0]);
    is(&[take(3), dropped(4), dropped(3), END], Some((7, 1)), &[0, 8, 8, 0]);
    is(&[take(63), dropped(0), dropped(63), END], Some((7, 1)), &[0, TOP, TOP, 0]);
    // 8: a board word written, read, and skipped on
    let (word, sum) = (Step::word(3, 32, 0, 5), Step::word(4, 512, 24, 32));
    is(&[take(3), word, dropped(3), END], Some((8, 1)), &[0, 8, 8, 0]);
    is(&[take(3), sum, take(4), dropped(3), END], Some((8, 1)), &[0, 8, 8, 24, 16]);
    is(&[take(3), Step::word(7, 32, 2, 0), dropped(3), END], Some((8, 1)), &[0, 8, 8, 0]);
    // 9: to a bay less, a bay more, and past the steps that are left out
    is(&[take(3), skip(3), dropped(3), END], Some((9, 1)), &[0, 8, 8, 0]);
    is(&[take(3), skip(3), take(4), dropped(4), dropped(3), END], Some((9, 1)), &[0, 8, 8, 24, 8, 0]);
    is(&[take(3), skip(4), dropped(3), take(4), END], Some((9, 1)), &[0, 8, 8, 0, 16]);
    // each of them at once
    is(&[word, take(3), take(2), sum, skip(6), dropped(3), END], Some((6, 0)), &[0, 0, 8, 12, 12, 12, 4]);
}

/// 64 steps: the last word is one of the sets.
pub fn long() {
    let mut under = [8; 64];
    (under[0], under[63]) = (0, 0);
    is(&filled(64, OWN_0), None, &under);
    is(&filled(64, skip(62)), None, &under);
    is(&filled(64, skip(63)), Some((9, 1)), &under);
    for low in [0, 1] {
        let takes: Vec<u64> = (low..63 + low).map(take).chain([END]).collect();
        let sets: Vec<u64> = (0..64).map(|s| ((1u64 << s) - 1) << low).collect();
        is(&takes, Some((6, 63)), &sets);
    }
}

/// The held set before each step by another way: a bay is in it if the last step before that takes or drops it takes it.
pub fn slow(steps: &[u64]) -> [u64; 64] {
    let moves = |w: u64, bay| matches!(w >> 48, 1 | 2) && w >> 32 & 0xffff == bay;
    let held = |s: usize, bay| {
        let last = steps.get(..s).and_then(|before| before.iter().rfind(|&&w| moves(w, bay)));
        s < steps.len() && last.is_some_and(|w| w >> 48 == 1)
    };
    std::array::from_fn(|s| (0..64).filter(|&bay| held(s, bay)).map(|bay| 1u64 << bay).sum())
}

/// A step that passes 5 as step s of n, not the last.
pub fn step(r: &mut Rng, s: u64, n: u64, bays: u64) -> u64 {
    // own words, or any
    let (low, words) = if r.chance(80) { (512, 8) } else { (0, 520) };
    let mut below = |n: u64| r.below(n) as u16;
    let bay = below(bays) + below(2) * (64 - bays as u16);
    let [a, b, c] = [(); 3].map(|()| low + below(words));
    match below(12) {
        0..=3 => take(bay),
        4..=6 => dropped(bay),
        7 => Step::word(7, a, s as u16 + 1 + below(n - s - 1), 0),
        8 => Step::word(3, a, below(1 << 16), below(1 << 16)),
        k => Step::word(k - 5, a, b, c),
    }
}

/// Tickets that pass; then any that pass 4 and 5, some of their steps then spoilt.
pub fn drawn() {
    let mut r = Rng(0x9e3779b97f4a7c15);
    let mut seen = [0; 10];
    for i in 0..6000 {
        let bays = [1, 2, 5, 20, 64][r.below(5) as usize];
        let mut steps = ticket(&mut r, bays);
        if i % 4 != 0 {
            let n = 3 + r.below(62);
            steps = (0..n - 1).map(|s| step(&mut r, s, n, bays)).chain([END]).collect();
        }
        assert_eq!(held_sets(&steps), Ok(slow(&steps)), "{steps:x?}");
        seen[check(&steps).map_or_else(|no| no.number as usize, |_| 0)] += 1;
        let mut at = 64;
        for _ in 0..1 + r.below(4) {
            let s = r.below(steps.len() as u64);
            steps[s as usize] = [0, BAD, take(64), dropped(3) + 1, skip(s as u16)][r.below(5) as usize];
            at = at.min(s as u8);
        }
        assert_eq!(held_sets(&steps), Err(Refusal { number: 5, at }), "{steps:x?}");
    }
    assert!([0, 6, 7, 8, 9].iter().all(|&no| seen[no] > 0), "{seen:?}");
}
