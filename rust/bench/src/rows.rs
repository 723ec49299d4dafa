//! The rows of the table.

use crate::sections::*;
use crate::work::Work;

pub struct Row {
    pub name: String,
    /// What is timed: a turn, a step, a call, a move.
    pub unit: &'static str,
    pub work: Work,
}

fn row(name: impl Into<String>, unit: &'static str, work: Work) -> Row {
    Row { name: name.into(), unit, work }
}

fn run(workers: u64, sections: Vec<Vec<u64>>) -> Work {
    Work::Run { workers, sections }
}

fn one_worker(workers: u64, section: Vec<u64>) -> Work {
    let worker = workers as usize - 1;
    Work::OneWorker { workers, worker, section }
}

fn turns() -> Vec<Row> {
    let calls = |name, section| row(name, "turn", one_worker(1, section));
    let sections = vec![hand_over_hand(); 8];
    vec![
        calls("turn calls, 1 worker, sums", sums(3, 64)),
        calls("turn calls, 1 worker, acquires and releases", locks()),
        calls("turn calls, 1 worker, jumps", jumps(64)),
        row("turn calls, 8 workers contending, hand over hand", "turn", Work::Turns { workers: 8, sections }),
    ]
}

/// Sections with a lock each, of which the first goes on when the others are done.
fn one_longer(workers: u16) -> Vec<Vec<u64>> {
    (0..workers).map(|d| sums(d, if d == 0 { 64 } else { 8 })).collect()
}

fn runs() -> Vec<Row> {
    let of = |name, workers, sections| row(name, "turn", run(workers, sections));
    vec![
        of("run, 1 worker, sums", 1, vec![sums(3, 64)]),
        of("run, 1 worker, acquires and releases", 1, vec![locks()]),
        of("run, 8 workers, a lock each, sums", 8, (0..8).map(|d| sums(d, 64)).collect()),
        of("run, 8 workers contending, hand over hand", 8, vec![hand_over_hand(); 8]),
        of("run, 8 workers contending for one lock", 8, vec![sums(3, 64); 8]),
        of("run, 8 workers, one with a section", 8, vec![sums(3, 64)]),
        of("run, 8 workers, one of 64 steps and seven of 8", 8, one_longer(8)),
    ]
}

fn checks() -> Vec<Row> {
    let submit = |name, section| row(name, "submit", Work::Submit { section });
    let check = |name, section| row(name, "check", Work::Check { section, units: 1 });
    let sets = |name, section| row(name, "pass", Work::HeldSets { section });
    vec![
        submit("submit, 64 steps full of jumps", jumps(64)),
        submit("submit, 64 steps, sums", sums(3, 64)),
        check("check, 64 steps full of jumps", jumps(64)),
        check("check, 64 steps, sums", sums(3, 64)),
        check("check, 64 steps, acquires and releases", locks()),
        sets("held sets, 64 steps full of jumps", jumps(64)),
        sets("held sets, 64 steps, acquires and releases", locks()),
    ]
}

fn whole_images() -> Vec<Row> {
    let recover = |name, sections, rounds| row(name, "recovery", Work::Recover { sections, rounds });
    let (sums, jumps) = (seven_locks, seven_locks_jumps);
    vec![
        recover("recovery, 8 workers at 64 steps, 56 locks held", (0..8).map(sums).collect(), 100),
        recover("recovery, the same with sections full of jumps", (0..8).map(jumps).collect(), 100),
        recover("recovery, 8 idle workers", vec![], 0),
        row("format, 8 workers", "format", Work::Format { workers: 8 }),
    ]
}

fn moves() -> Vec<Row> {
    let of = |section| Work::Move { section };
    vec![
        row("move between two cells of one lock", "move", of(one_lock_move())),
        row("move between two locks, with a count", "move", of(two_lock_move())),
    ]
}

pub fn against_twin() -> Vec<Row> {
    [turns(), runs(), checks(), counts(), whole_images(), moves()].into_iter().flatten().collect()
}

fn counts() -> Vec<Row> {
    let path = |name, section| row(name, "path", Work::TurnsOfPath { section });
    let from = |name, section| row(name, "question", Work::TurnsFrom { section });
    let left = |name, sections, rounds| row(name, "question", Work::TurnsLeft { sections, rounds });
    vec![
        path("turns of a path, all 64 steps, sums", sums(3, 64)),
        path("turns of a path, all 64 steps, acquires and releases", locks()),
        from("turns from step 0, 64 steps full of jumps", jumps(64)),
        from("turns from step 0, 64 steps, sums", sums(3, 64)),
        // a turn a round: seven acquires and the first sum
        left("turns left, 64 steps, 48 jumps ahead", (0..8).map(seven_locks_jumps).collect(), 46),
        left("turns left, 64 steps, 48 sums ahead", (0..8).map(seven_locks).collect(), 46),
        left("turns left, idle worker", vec![], 0),
    ]
}

/// The same turns on images of more workers and in longer sections, and the same check a step of longer sections.
pub fn by_size() -> Vec<Row> {
    let mut rows = vec![];
    for n in [1, 2, 4, 8] {
        let name = format!("turn calls, workers of the image: {n}");
        rows.push(row(name, "turn", one_worker(n, sums(3, 64))));
    }
    for n in [1u16, 2, 4, 8] {
        let name = format!("run, a lock each, workers: {n}");
        let sections = (0..n).map(|d| sums(d, 64)).collect();
        rows.push(row(name, "turn", run(n as u64, sections)));
    }
    for steps in [8, 16, 32, 64] {
        let name = format!("turn calls, section of {steps} steps");
        rows.push(row(name, "turn", one_worker(1, sums(3, steps))));
    }
    for steps in [8, 16, 32, 64] {
        let name = format!("run, section of {steps} steps");
        rows.push(row(name, "turn", run(1, vec![sums(3, steps)])));
    }
    for steps in [8, 16, 32, 64] {
        let name = format!("check, section of {steps} steps full of jumps");
        rows.push(row(name, "step", Work::Check { section: jumps(steps), units: steps as u64 }));
    }
    rows
}

/// The frames of a recorded day.
pub const FRAMES: u64 = 100_000;

/// A whole recorded day: long work, which is done less often than the other rows.
pub fn days() -> Vec<Row> {
    vec![row("day sums, 8 workers, 100,000 frames", "frame", Work::Day { frames: FRAMES })]
}

impl Row {
    /// How often its work is done to count its instructions: few times, and many.
    pub fn few_and_many(&self) -> (u64, u64) {
        match self.work {
            Work::Day { .. } => (1, 2),
            _ => (10, 110),
        }
    }
}

pub fn all() -> Vec<Row> {
    [against_twin(), by_size(), days()].into_iter().flatten().collect()
}
