//! Sections that are wrong in one place, each meant for one of causes 4 to 9. Nothing is asked whether it is so: what
//! was met is counted.

use crate::rng::Rng;
use crate::sections;
use zilpanud::instruction;

const FINISH: u64 = instruction(8, 0, 0, 0);

/// The held set before each step, by position.
fn held_sets(section: &[u64]) -> Vec<u64> {
    let mut held = 0u64;
    let mut sets = vec![];
    for word in section {
        sets.push(held);
        let lock = word >> 32 & 63;
        match word >> 48 {
            1 => held |= 1 << lock,
            2 => held &= !(1 << lock),
            _ => {}
        }
    }
    sets
}

/// A step between the first and the last; puts the word there, or before it if an acquire or a release is there.
fn put(section: &mut Vec<u64>, step: usize, word: u64) {
    match section[step] >> 48 {
        3..=7 => section[step] = word,
        _ => section.insert(step, word),
    }
}

/// A step between the first and the last.
fn inner(r: &mut Rng, section: &[u64]) -> usize {
    1 + r.below(section.len() as u64 - 2) as usize
}

fn own(r: &mut Rng) -> u16 {
    512 + r.below(8) as u16
}

/// Lengths that are wrong or just right.
fn length(r: &mut Rng) -> usize {
    match r.below(8) {
        0..=3 => r.below(4) as usize,
        4 => 64,
        5 => 65,
        6 => 66 + r.below(10) as usize,
        _ => 100 + r.below(600) as usize,
    }
}

/// As many steps as that: from a passing section's, over and over, most often with a finish and a release before it.
pub fn odd_length(r: &mut Rng) -> Vec<u64> {
    let steps = length(r);
    let passing = sections::passing(r, 5, false);
    let mut section: Vec<u64> = match r.below(4) {
        0 => (0..steps).map(|_| r.next()).collect(),
        1 => passing.iter().cycle().take(steps).copied().collect(),
        _ => [&[passing[0]], &vec![instruction(3, own(r), 0, 5); steps][..]].concat()[..steps].to_vec(),
    };
    if steps > 1 && r.chance(80) {
        let lock = section[0] >> 32 & 63;
        section[steps - 2] = instruction(2, lock as u16, 0, 0);
        section[steps - 1] = FINISH;
    }
    section
}

/// 5: a kind, a field, a jump's target, a finish, or the last step.
fn malform(r: &mut Rng, section: &mut Vec<u64>) {
    let count = section.len() as u64;
    let any = r.below(count) as usize;
    let step = inner(r, section);
    match r.below(6) {
        0 => section[any] = section[any] & !(0xffff << 48) | r.pick(&[0, 9, 10, 256, 65_535]) << 48,
        1 => {
            let shift = 16 * r.below(3);
            let values = [1, 63, 64, 65, 511, 519, 520, 521, 65_535, r.below(1 << 16)];
            section[any] = section[any] & !(0xffff << shift) | r.pick(&values) << shift;
        }
        2 => {
            let targets = [0, step as u64, r.below(step as u64 + 1), count, count + 1, 65_535];
            let target = r.pick(&targets) as u16;
            put(section, step, instruction(7, own(r), target, r.below(2) as u16));
        }
        3 => put(section, step, instruction(7, own(r), count as u16 - 1, 1 + r.below(9) as u16)),
        4 => put(section, step, FINISH),
        _ => {
            let last = section.len() - 1;
            section[last] = instruction(3, own(r), 0, 5);
        }
    }
}

/// 6: no acquire first, a release too few, or a step where nothing is held.
fn unbracket(r: &mut Rng, section: &mut Vec<u64>) {
    let last = section.len() - 1;
    match r.below(4) {
        0 => {
            section[0] =
                r.pick(&[instruction(3, 512, 0, 5), instruction(2, 1, 0, 0), instruction(7, 512, 1, 0)])
        }
        1 => section[last - 1] = instruction(3, own(r), 0, 5),
        2 => section.insert(last, instruction(3, own(r), 0, 5)),
        _ => section.insert(last, instruction(1, r.below(64) as u16, 0, 0)),
    }
}

/// 7: an acquire of a lock that is held, or below one that is; a release of one that is not.
fn unorder(r: &mut Rng, section: &mut Vec<u64>) {
    let step = inner(r, section);
    let held = held_sets(section)[step];
    let highest = held.checked_ilog2().unwrap_or(0) as u64;
    let (kind, lock) = match r.below(3) {
        0 => (1, highest),
        1 => (1, r.below(highest + 1)),
        _ => (2, r.below(64)),
    };
    put(section, step, instruction(kind, lock as u16, 0, 0));
}

/// 8: a cell of any lock in one of the fields that name words.
fn unguard(r: &mut Rng, section: &mut Vec<u64>) {
    let step = inner(r, section);
    let cell = |r: &mut Rng| r.below(512) as u16;
    let word = |r: &mut Rng| if r.chance(50) { 512 + r.below(8) as u16 } else { r.below(512) as u16 };
    let later = section.len() as u16 - 1;
    let wrong = match r.below(7) {
        0 => instruction(3, cell(r), word(r), word(r)),
        1 => instruction(7, cell(r), later, 0),
        2 => instruction(4, own(r), own(r), cell(r)),
        3 => instruction(5, own(r), cell(r), word(r)),
        _ => instruction(4 + r.below(3) as u16, word(r), word(r), word(r)),
    };
    put(section, step, wrong);
}

/// 9: a jump to a later step, most often one with another held set.
fn unlevel(r: &mut Rng, section: &mut Vec<u64>) {
    let step = inner(r, section);
    let sets = held_sets(section);
    let others: Vec<usize> = (step + 1..section.len()).filter(|&j| sets[j] != sets[step]).collect();
    let target = match others.is_empty() {
        true => section.len() - 1,
        false => r.pick(&others),
    };
    put(section, step, instruction(7, own(r), target as u16, 0));
}

/// A wrong section.
pub fn section(r: &mut Rng) -> Vec<u64> {
    let locks = r.pick(&[2, 3, 5, 8, 64]);
    let mut section = sections::passing(r, locks, false);
    match r.below(7) {
        0 => return odd_length(r),
        1 => malform(r, &mut section),
        2 => unbracket(r, &mut section),
        3 => unorder(r, &mut section),
        4..=5 => unguard(r, &mut section),
        _ => unlevel(r, &mut section),
    }
    section
}
