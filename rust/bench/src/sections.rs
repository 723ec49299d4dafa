//! The sections that are measured.

use zilpanud::instruction;

pub const FINISH: u64 = instruction(8, 0, 0, 0);

pub fn acquire(lock: u16) -> u64 {
    instruction(1, lock, 0, 0)
}

pub fn release(lock: u16) -> u64 {
    instruction(2, lock, 0, 0)
}

fn sum(a: u16, b: u16, c: u16) -> u64 {
    instruction(4, a, b, c)
}

/// Acquire, kinds 3 to 6 by turns on cells and own words, release, finish: n steps, 4n + 3 turns.
pub fn sums(lock: u16, n: u16) -> Vec<u64> {
    let mut section = vec![acquire(lock)];
    for i in 0..n - 3 {
        let (x, y) = (8 * lock + i % 8, 512 + i % 8);
        section.push(match i % 4 {
            0 => instruction(3, x, i, i),
            1 => sum(x, x, y),
            2 => instruction(5, y, x, y),
            _ => instruction(6, y, y, x),
        });
    }
    section.extend([release(lock), FINISH]);
    section
}

/// 31 acquires, one sum, 31 releases, finish: 379 turns, the most that 64 steps can have.
pub fn locks() -> Vec<u64> {
    let mut section: Vec<u64> = (0..31).map(acquire).collect();
    section.push(sum(0, 8, 512));
    section.extend((0..31).map(release));
    section.push(FINISH);
    section
}

/// Sums under one lock after the other, each acquired before the last is released, in 64 steps.
pub fn hand_over_hand() -> Vec<u64> {
    let mut section = vec![acquire(0)];
    for b in 0..11u16 {
        section.extend((0..3).map(|k| sum(8 * b + k, 8 * b + k, 512 + k)));
        section.extend([acquire(b + 1), release(b)]);
    }
    section.extend((section.len()..62).map(|_| sum(88, 88, 512)));
    section.extend([release(11), FINISH]);
    section
}

/// Acquire, jumps on cells that are 0, each some steps ahead, release, finish: n steps.
pub fn jumps(n: u16) -> Vec<u64> {
    let mut section = vec![acquire(3)];
    for i in 1..n - 2 {
        section.push(instruction(7, 24 + i % 8, (i + 1 + i % 7).min(n - 2), 0));
    }
    section.extend([release(3), FINISH]);
    section
}

/// Worker d's part of a full image: seven locks of its own, 49 sums, the releases, finish.
pub fn seven_locks(d: u16) -> Vec<u64> {
    let mut section: Vec<u64> = (0..7).map(|b| acquire(8 * d + b)).collect();
    section.extend([sum(64 * d, 64 * d + 8, 512); 49]);
    section.extend((0..7).map(|b| release(8 * d + b)));
    section.push(FINISH);
    section
}

/// The same with jumps in the place of the sums, so that the check looks a held set up at each of them.
pub fn seven_locks_jumps(d: u16) -> Vec<u64> {
    let mut section = seven_locks(d);
    for i in 8..56u16 {
        section[i as usize] = instruction(7, 512, (i + 1 + i % 7).min(56), 0);
    }
    section
}

/// Moves own word 512 from cell 24 to cell 25, both under lock 3: 23 turns.
pub fn one_lock_move() -> Vec<u64> {
    vec![acquire(3), instruction(5, 24, 24, 512), sum(25, 25, 512), release(3), FINISH]
}

/// Moves own word 512 from cell 24 to cell 40, under locks 3 and 5, and counts the move in cell 41: 39 turns.
pub fn two_lock_move() -> Vec<u64> {
    move_between(3, 5)
}

/// The same between the first cells of two locks, the second above the first.
pub fn move_between(from: u16, to: u16) -> Vec<u64> {
    let (giving, getting) = (8 * from, 8 * to);
    vec![
        acquire(from),
        acquire(to),
        instruction(5, giving, giving, 512),
        sum(getting, getting, 512),
        sum(getting + 1, getting + 1, 512),
        release(to),
        release(from),
        FINISH,
    ]
}
