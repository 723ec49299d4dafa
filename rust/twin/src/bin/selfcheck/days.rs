//! Frame kind 04 and the sums of a day (7/14): days by hand, numbers that stop, and drawn days, played line by line, turn by turn, and by calls.
use crate::{ticket, Rng};
use twin::days::{day_sums, DaySums};
use twin::player::Watch;
use twin::*;

/// A line of a day.
enum Line {
    HandIn(u64, u64, [u64; 8], Vec<u64>),
    Turns(u64, u16),
    Cut,
    Rounds(u16),
}

impl Line {
    fn text(&self) -> String {
        match self {
            Line::HandIn(desk, number, args, steps) => {
                let words: String = args.iter().chain(steps).map(|w| format!("{w:016x}")).collect();
                format!("01{desk:02x}{number:016x}{words}\n")
            }
            Line::Turns(desk, turns) => format!("02{desk:02x}{turns:04x}\n"),
            Line::Cut => "03\n".to_string(),
            Line::Rounds(rounds) => format!("04{rounds:04x}\n"),
        }
    }
}

/// Document 01's ticket at a desk: its first turn intends bay 3, its second takes it or waits, its fifth begins it, its fifteenth
/// of nineteen frees the bay.
fn handed_in(desk: u64) -> String {
    let steps = [(1, 3, 0), (3, 24, 5), (2, 3, 0), (8, 0, 0)].map(|(kind, a, c)| Step::word(kind, a, 0, c));
    Line::HandIn(desk, 1, [0; 8], steps.to_vec()).text()
}

/// A day's sums are these of desks 0 and 1, all waits at bay 3, and the reading ended so.
fn is(day: &str, waited: [u64; 2], moved: [u64; 2], (cause, read): (u64, u64)) {
    let mut sums = DaySums { cause, read, ..DaySums::NONE };
    sums.bays[3] = waited[0] + waited[1];
    sums.waited[..2].copy_from_slice(&waited);
    sums.moved[..2].copy_from_slice(&moved);
    assert_eq!(day_sums(day.as_bytes()), sums, "{day}");
}

/// Days of which nothing is played, and how their reading ends.
fn nothing_played() {
    is("", [0, 0], [0, 0], (0, 0));
    for day in ["01", "01\n"] {
        is(day, [0, 0], [0, 0], (0, 1));
    }
    for day in ["\n", "\n040001\n", "0A\n", "1\n040001", "040001\n040001\n"] {
        is(day, [0, 0], [0, 0], (14, 1));
    }
    for day in ["00\n04ffff\n", "09", "ff\n02000001\n"] {
        is(day, [0, 0], [0, 0], (10, 1));
    }
    is("01\n\n", [0, 0], [0, 0], (14, 2));
    is("02\n040005\n0201ffff\n03\n04ffff", [0, 0], [0, 0], (0, 5));
}

pub fn by_hand() {
    nothing_played();
    let two = format!("02\n{}{}", handed_in(0), handed_in(1));
    // desk 1 waits in rounds 2 to 14, and goes behind desk 0 in the fifteenth, which frees the bay
    is(&format!("{two}040000\n"), [0, 0], [0, 0], (0, 4));
    is(&format!("{two}04000e\n"), [0, 13], [14, 1], (0, 4));
    is(&format!("{two}04000e\n040001"), [0, 13], [15, 2], (0, 5));
    is(&format!("{two}04ffff\n040001\n"), [0, 13], [19, 19], (0, 5));
    // desk 0 waits in rounds 2 to 13 where desk 1 has had two turns: the bay is freed behind it in the thirteenth
    is(&format!("{two}02010002\n04000d\n"), [12, 0], [1, 15], (0, 5));
    is(&format!("{two}02010002\n04ffff\n"), [12, 0], [19, 19], (0, 5));
    // in turns, of desk 2 too, which is not there; of desk 1's first line one turn stores
    let turns = "02000002\n0201ffff\n0201ffff\n0202ffff\n";
    is(&format!("{two}{turns}040001\n"), [0, 2 * 65535], [3, 1], (0, 8));
    // a refused turn ends its line
    assert_eq!(printed("01\n0201ffff\n04ffff\n0208ffff"), "ffff 0000000000000001\n".repeat(2).as_bytes());
    // desk 1 is not begun, and withdrawn; desk 0 has fourteen turns left
    is(&format!("{two}040005\n03\n04ffff\n"), [0, 4], [19, 1], (0, 6));
    // a drop that is resumed behind its lock store passes there, each time
    let one = format!("01\n{}", handed_in(0));
    is(&format!("{one}04000f\n03\n040002\n03\n04ffff\n"), [0, 0], [15 + 2 + 6, 0], (0, 7));
    // the sums up to the line that is malformed
    let long = "0".repeat(5000);
    for bad in ["", "04", "04000", "0400000", "04000000", "04000A", "040001 ", " 40001", "050001", &long] {
        is(&format!("{one}040003\n{bad}\n040003\n"), [0, 0], [3, 0], (14, 4));
    }
}

/// Each number stops by itself.
pub fn stops() {
    let mut sums = DaySums::NONE;
    (sums.bays[5], sums.waited[2], sums.moved[2]) = (u64::MAX, u64::MAX - 1, u64::MAX - 1);
    let mut then = sums;
    sums.turned(2, Answer::Waiting(5));
    then.waited[2] = u64::MAX;
    assert_eq!(sums, then);
    sums.turned(2, Answer::Waiting(6));
    sums.turned(1, Answer::Waiting(5));
    (then.bays[6], then.waited[1]) = (1, 1);
    assert_eq!(sums, then);
    sums.turned(2, Answer::Stored(9));
    sums.turned(2, Answer::Passed(Passing::Jump));
    sums.turned(1, Answer::Passed(Passing::Others));
    sums.turned(1, Answer::Idle);
    (then.moved[2], then.moved[1]) = (u64::MAX, 1);
    assert_eq!(sums, then);
}

/// The lines of a day after the first.
fn draw(r: &mut Rng, desks: u64) -> Vec<Line> {
    let bays = [1, 2, 3, 64][r.below(4) as usize];
    let lines = 4 + r.below(40);
    (0..lines)
        .map(|i| match r.below(10) {
            0..=3 => Line::HandIn(r.below(desks), i, [(); 8].map(|()| r.below(3)), ticket(r, bays)),
            4 => Line::Turns(r.below(desks + 1), r.below(30) as u16),
            5 | 6 => Line::Cut,
            7 => Line::Rounds(400),
            _ => Line::Rounds(r.below(25) as u16),
        })
        .collect()
}

/// The same day with a line for each turn: a round is one of every desk, open or not.
fn single(lines: &[Line], desks: u64) -> String {
    let each = |lines: &mut dyn Iterator<Item = u64>| lines.map(|d| Line::Turns(d, 1).text()).collect();
    let text = |line: &Line| match line {
        Line::Turns(desk, turns) if *desk < desks => each(&mut (0..*turns).map(|_| *desk)),
        Line::Rounds(rounds) => each(&mut (0..*rounds).flat_map(|_| 0..desks)),
        _ => line.text(),
    };
    lines.iter().map(text).collect()
}

/// A day played by calls.
struct Calls {
    w: Vec<u64>,
    p: Working,
    desks: u64,
    sums: DaySums,
}

impl Calls {
    fn turn(&mut self, desk: u64) {
        let (answer, p) = turn(&mut self.w, self.p, desk, u64::MAX);
        self.p = p;
        match answer {
            Ok(Answer::Waiting(bay)) => {
                self.sums.bays[bay as usize] += 1;
                self.sums.waited[desk as usize] += 1;
            }
            Ok(Answer::Stored(_) | Answer::Passed(_)) => self.sums.moved[desk as usize] += 1,
            Ok(Answer::Idle) => (),
            Err(no) => assert_eq!((no.number, desk), (1, self.desks)),
        }
    }
    /// By turns, and by a run of a copy: both end alike, and the run's tally has the same numbers.
    fn rounds(&mut self, rounds: u16) {
        let before = self.totals();
        let (mut w, mut tally) = (self.w.clone(), Tally::default());
        let (end, p) = run(&mut w, self.p, rounds, u64::MAX, &mut tally);
        for _ in 0..rounds {
            (0..self.desks).for_each(|desk| self.turn(desk));
        }
        assert!(end.is_ok() && p == self.p && w == self.w);
        let [waited, moved] = self.totals();
        assert_eq!([tally.waits, tally.turns - tally.waits], [waited - before[0], moved - before[1]]);
    }
    fn totals(&self) -> [u64; 2] {
        [self.sums.waited, self.sums.moved].map(|sums| sums.iter().sum())
    }
    fn play(&mut self, line: &Line) {
        match line {
            Line::HandIn(desk, number, args, steps) => {
                let (_, p) = hand_in(&mut self.w, self.p, *desk, *number, args, steps, u64::MAX);
                self.p = p;
            }
            Line::Turns(desk, turns) => (0..*turns).for_each(|_| self.turn(*desk)),
            Line::Cut => {
                let (done, p) = recover(&mut self.w, u64::MAX);
                assert_eq!(done, Ok(()));
                self.p = p;
            }
            Line::Rounds(rounds) => self.rounds(*rounds),
        }
    }
}

fn printed(day: &str) -> Vec<u8> {
    let mut out = vec![];
    frames::board(day.as_bytes(), &mut out).unwrap();
    out
}

/// What a day prints and counts is the same with a line for each turn, and counted by calls, and before a malformed line. The bays'
/// sums add up to the desks' waits. Gives the turns that waited and that did not, and the reports.
fn compared(desks: u64, lines: &[Line]) -> [u64; 3] {
    let mut w = vec![0; HEAD + REC * desks as usize];
    let (_, p) = format(&mut w, desks, u64::MAX);
    let mut calls = Calls { w, p, desks, sums: DaySums::NONE };
    lines.iter().for_each(|line| calls.play(line));
    let day = format!("{desks:02x}\n{}", lines.iter().map(Line::text).collect::<String>());
    let each = format!("{desks:02x}\n{}", single(lines, desks));
    let stops = format!("{day}04\n{day}");
    let read = 1 + lines.len() as u64;
    assert_eq!(day_sums(day.as_bytes()), DaySums { read, ..calls.sums }, "{day}");
    assert_eq!(day_sums(stops.as_bytes()), DaySums { cause: 14, read: read + 1, ..calls.sums }, "{day}");
    let read = each.lines().count() as u64;
    assert_eq!(day_sums(each.as_bytes()), DaySums { read, ..calls.sums }, "{day}");
    let out = printed(&day);
    assert!(out == printed(&each), "{day}");
    let [waited, moved] = calls.totals();
    assert_eq!(calls.sums.bays.iter().sum::<u64>(), waited);
    let reports = out.chunks_exact(22).filter(|line| line.starts_with(b"fffe")).count();
    [waited, moved, reports as u64]
}

/// Drawn days.
pub fn drawn() {
    let mut r = Rng(0x9e3779b97f4a7c15);
    let (days, mut met) = (1500, [0; 3]);
    for _ in 0..days {
        let desks = 1 + r.below(8);
        let lines = draw(&mut r, desks);
        let more = compared(desks, &lines);
        met = [0, 1, 2].map(|i| met[i] + more[i]);
    }
    let [waited, moved, reports] = met;
    println!("days {days} turns that waited {waited} that did not {moved} reports {reports}: fine");
    assert!(waited > 0 && reports > 0);
}
