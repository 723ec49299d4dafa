//! Damage to an image: words that no call would have left there.

use crate::rng::Rng;
use crate::sections;
use twin::{COUNT, ENTRY, HEAD, INTENT, LAST, LOCKS, NUMBER, OWNER, PLACE, REC, STEPS};

/// The sorts of damage, for the report.
pub const DAMAGES: [&str; 8] = [
    "header",
    "owner word",
    "count or pc",
    "log entry",
    "intent or owned",
    "number or finished",
    "instruction",
    "cell",
];

/// Words changed: an index and its new word.
pub type Change = (usize, u64);

fn in_record(r: &mut Rng, image: &[u64], offset: usize) -> usize {
    let records = (image.len().saturating_sub(HEAD) / REC).max(1) as u64;
    HEAD + REC * r.below(records) as usize + offset
}

fn one_bit(r: &mut Rng, word: u64) -> u64 {
    word ^ 1 << r.below(64)
}

/// A pc: no section, or a step of either log entry, in range or a little past it.
fn pc(r: &mut Rng) -> u64 {
    match r.below(4) {
        0 => 0,
        1 => r.word(),
        _ => r.below(20) | r.below(2) << 63,
    }
}

fn word_at(image: &[u64], index: usize) -> u64 {
    image.get(index).copied().unwrap_or(0)
}

/// An owner word, most often one that is not 0: a lock lost, or held by another or by nobody.
fn owner(r: &mut Rng, image: &[u64]) -> Change {
    let taken: Vec<usize> = (LOCKS..HEAD).filter(|&i| word_at(image, i) != 0).collect();
    let locks = if r.chance(70) { 6 } else { 64 };
    let index = match taken.is_empty() || r.chance(40) {
        true => LOCKS + r.below(locks) as usize,
        false => r.pick(&taken),
    };
    (index, if r.chance(70) { 0 } else { r.word() })
}

fn count_or_pc(r: &mut Rng, image: &[u64]) -> Change {
    if r.chance(50) {
        let count = r.pick(&[0, 1, 2, 3, 4, 5, 63, 64, 65, u64::MAX]);
        return (in_record(r, image, COUNT), count);
    }
    (in_record(r, image, PLACE), pc(r))
}

fn log_entry(r: &mut Rng, image: &[u64]) -> Change {
    let offset = ENTRY + r.below(4) as usize;
    let index = in_record(r, image, offset);
    let was = word_at(image, index);
    let near = [was.wrapping_add(1), one_bit(r, was), r.word(), 0, 8 + r.below(512)];
    (index, r.pick(&near))
}

fn lock_set(r: &mut Rng, image: &[u64]) -> Change {
    let offset = r.pick(&[INTENT, OWNER]);
    let index = in_record(r, image, offset);
    let was = word_at(image, index);
    let near = [was ^ 1 << r.below(6), one_bit(r, was), 0, u64::MAX];
    (index, r.pick(&near))
}

fn step(r: &mut Rng, image: &[u64]) -> Change {
    let offset = STEPS + r.below(12) as usize;
    let index = in_record(r, image, offset);
    let mut one = vec![word_at(image, index)];
    sections::spoil(r, &mut one);
    (index, one.first().copied().unwrap_or(0))
}

/// One damage of a sort: where, and what stands there then.
fn change(r: &mut Rng, image: &[u64], sort: usize) -> Change {
    match sort {
        0 => (r.below(8) as usize, r.word()),
        1 => owner(r, image),
        2 => count_or_pc(r, image),
        3 => log_entry(r, image),
        4 => lock_set(r, image),
        5 => {
            let offset = r.pick(&[NUMBER, LAST]);
            (in_record(r, image, offset), r.word())
        }
        6 => step(r, image),
        _ => (8 + r.below(512) as usize, r.word()),
    }
}

/// A damage that the image has room for, and its sort.
pub fn drawn(r: &mut Rng, image: &[u64], only_owners: bool) -> Option<(usize, Change)> {
    let sort = match r.below(16) {
        _ if only_owners => 1,
        0 => 0,
        1..=3 => 1,
        4..=5 => 2,
        6..=7 => 3,
        8..=10 => 4,
        11 => 5,
        12..=13 => 6,
        _ => 7,
    };
    let (index, word) = change(r, image, sort);
    (index < image.len()).then_some((sort, (index, word)))
}
