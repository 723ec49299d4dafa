//! Random sections: a good share passes the check, and the rest fails it in every way.

use crate::rng::Rng;
use zilpanud::instruction;

const FINISH: u64 = instruction(8, 0, 0, 0);

fn locks_of(held: u64) -> Vec<u16> {
    (0..64).filter(|b| held >> b & 1 == 1).collect()
}

/// A word number under a held lock, or an own word.
fn word(r: &mut Rng, held: u64) -> u16 {
    if held != 0 && r.chance(70) {
        let lock = r.pick(&locks_of(held));
        let cells = if r.chance(80) { 2 } else { 8 };
        return 8 * lock + r.below(cells) as u16;
    }
    512 + r.below(8) as u16
}

/// An instruction of kinds 3 to 7; a jump is aimed later. A third of them are sums and differences, or most.
fn use_of(r: &mut Rng, held: u64, totals: bool) -> u64 {
    let kind = match totals {
        true => r.pick(&[3, 4, 4, 4, 4, 5, 5, 5, 5, 6, 7]),
        false => r.pick(&[3, 4, 5, 6, 6, 7]),
    };
    match kind {
        3 => instruction(3, word(r, held), r.below(3) as u16, r.below(4) as u16),
        7 => instruction(7, word(r, held), 0, 0),
        _ => instruction(kind, word(r, held), word(r, held), word(r, held)),
    }
}

/// Gives each jump a later step with the same held set, or turns it into a literal where there is none.
fn aim_jumps(r: &mut Rng, section: &mut [u64], held: &[u64]) {
    for i in 0..section.len() {
        if section[i] >> 48 != 7 {
            continue;
        }
        let a = (section[i] >> 32) as u16;
        let to: Vec<usize> = (i + 1..section.len()).filter(|&j| held[j] == held[i]).collect();
        section[i] = match to.is_empty() {
            true => instruction(3, a, 0, 1),
            false => instruction(7, a, r.pick(&to) as u16, 0),
        };
    }
}

fn length(r: &mut Rng) -> usize {
    match r.below(20) {
        0 => 64,
        1 => 3,
        2 => 3 + r.below(62) as usize,
        _ => 4 + r.below(14) as usize,
    }
}

/// A section that passes the check, on locks below `locks` (at least 2). `totals`: with many sums and differences.
pub fn passing(r: &mut Rng, locks: u64, totals: bool) -> Vec<u64> {
    let n = length(r);
    let (mut section, mut befores) = (vec![], vec![]);
    let mut held = 0u64;
    while section.len() + 1 < n {
        befores.push(held);
        let room = n - 1 - section.len();
        let highest = 64 - held.leading_zeros() as u64;
        let count = held.count_ones() as usize;
        let may_acquire = highest < locks && count + 2 <= room;
        if held == 0 && !may_acquire {
            befores.pop();
            break;
        }
        let drops = count >= room || (count > 1 && r.chance(15));
        if !drops && (held == 0 || (may_acquire && r.chance(20))) {
            let lock = highest + r.below((locks - highest).min(3));
            held |= 1 << lock;
            section.push(instruction(1, lock as u16, 0, 0));
        } else if drops {
            let lock = r.pick(&locks_of(held));
            held &= !(1 << lock);
            section.push(instruction(2, lock, 0, 0));
        } else {
            section.push(use_of(r, held, totals));
        }
    }
    section.push(FINISH);
    befores.push(held);
    aim_jumps(r, &mut section, &befores);
    section
}

/// Raises the locks of a section by so many, and its cells with them.
pub fn raise(section: &mut [u64], by: u16) {
    let cell = |field: u16| if field < 512 { field + 8 * by } else { field };
    for word in section {
        let [kind, a, b, c] = [48, 32, 16, 0].map(|shift| (*word >> shift) as u16);
        *word = match kind {
            1 | 2 => instruction(kind, a.wrapping_add(by), b, c),
            3 | 7 => instruction(kind, cell(a), b, c),
            4..=6 => instruction(kind, cell(a), cell(b), cell(c)),
            _ => *word,
        };
    }
}

/// Changes a section in one place: a field, a kind, a whole word, a step more or less, two steps exchanged.
pub fn spoil(r: &mut Rng, section: &mut Vec<u64>) {
    if section.is_empty() {
        return;
    }
    let i = r.below(section.len() as u64) as usize;
    match r.below(8) {
        0 => section[i] = r.next(),
        1 => drop(section.remove(i)),
        2 => section.insert(i, section[i]),
        3 => {
            let j = r.below(section.len() as u64) as usize;
            section.swap(i, j);
        }
        4 => section[i] = section[i] & !(0xffff << 48) | r.below(10) << 48,
        _ => {
            let shift = 16 * r.below(3);
            let near = [r.below(64), r.below(70), 505 + r.below(20), r.below(1 << 16)];
            section[i] = section[i] & !(0xffff << shift) | r.pick(&near) << shift;
        }
    }
}

/// 0 to 70 instructions of known kinds with fields in or near their ranges, in no order.
fn unordered(r: &mut Rng) -> Vec<u64> {
    let n = r.below(71);
    let mut section: Vec<u64> = (0..n).map(|_| shaped(r)).collect();
    if r.chance(70) {
        section.push(FINISH);
    }
    section
}

fn shaped(r: &mut Rng) -> u64 {
    let any = |r: &mut Rng| r.pick(&[0, 1, 8, 24, 63, 64, 511, 512, 519, 520]);
    match 1 + r.below(8) as u16 {
        kind @ 1..=2 => instruction(kind, r.below(65) as u16, 0, 0),
        7 => instruction(7, any(r), r.below(65) as u16, 0),
        8 => FINISH,
        kind => instruction(kind, any(r), any(r), any(r)),
    }
}

/// The section of a call.
pub fn section(r: &mut Rng, locks: u64, totals: bool) -> Vec<u64> {
    let mut section = match r.below(20) {
        0 => return unordered(r),
        1 => return (0..r.below(71)).map(|_| r.next()).collect(),
        _ => passing(r, locks, totals),
    };
    if r.chance(35) {
        for _ in 0..1 + r.below(2) {
            spoil(r, &mut section);
        }
    }
    section
}
