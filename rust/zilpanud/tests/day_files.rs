//! The sums of the days of `crates/board_days`, of their beginnings, and of any bytes.

use std::collections::BTreeMap;
use std::fs;
use std::path::{Path, PathBuf};
use zilpanud::{DayEnd, DaySums, LOCKS, WORKERS};

unsafe extern "C" {
    /// As `include/zilpanud.h` declares it.
    fn zilpanud_day_sums(
        bytes: *const u8,
        length: usize,
        locks: *mut u64,
        waited: *mut u64,
        moved: *mut u64,
        detail: *mut u64,
    ) -> u64;
}

/// The days that were given with document 02, with sums of an independent program.
const GIVEN: (&str, usize) = ("request-07-", 52);

/// The days that have sums, as bytes, by where those are. The sums of our own days were worked out by hand.
fn days() -> BTreeMap<PathBuf, Vec<u8>> {
    let folder = Path::new(env!("CARGO_MANIFEST_DIR")).join("../../crates/board_days/data");
    let entries = fs::read_dir(&folder).unwrap().map(|entry| entry.unwrap().path());
    let sums = entries.filter(|path| path.extension().is_some_and(|ending| ending == "sums"));
    let days: BTreeMap<PathBuf, Vec<u8>> =
        sums.map(|path| (path.clone(), fs::read(path.with_extension("frames")).unwrap())).collect();
    let (start, count) = GIVEN;
    let names = days.keys().filter_map(|path| path.file_name()?.to_str());
    assert_eq!(names.filter(|name| name.starts_with(start)).count(), count, "in {}", folder.display());
    days
}

/// A line of so many numbers behind its name.
fn numbers<const COUNT: usize>(line: Option<&str>, name: &str) -> [u64; COUNT] {
    let mut words = line.unwrap().split(' ');
    assert_eq!(words.next(), Some(name));
    let numbers: Vec<u64> = words.map(|word| word.parse().unwrap()).collect();
    numbers.try_into().unwrap()
}

#[test]
fn days_have_their_sums() {
    let mut waits = 0;
    for (path, day) in days() {
        let text = fs::read_to_string(&path).unwrap();
        let mut lines = text.lines();
        let locks: [u64; LOCKS] = numbers(lines.next(), "bays");
        let waited: [u64; WORKERS] = numbers(lines.next(), "waited");
        let moved: [u64; WORKERS] = numbers(lines.next(), "moved");
        assert_eq!(lines.next(), None);
        let sums = zilpanud::day_sums(&day);
        let path = path.display();
        assert_eq!((sums.locks, sums.waited, sums.moved), (locks, waited, moved), "{path}");
        waits += waited.iter().sum::<u64>();
    }
    assert!(waits > 0);
}

/// Document 02: "the 64 bay sums add up to the desks' waits".
fn adds_up(sums: &DaySums) {
    assert_eq!(sums.locks.iter().sum::<u64>(), sums.waited.iter().sum::<u64>());
}

/// Whether no number of the first is above the second's.
fn within(first: &DaySums, second: &DaySums) -> bool {
    let all = |sums: &DaySums| [&sums.locks[..], &sums.waited, &sums.moved].concat();
    all(first).iter().zip(all(second)).all(|(a, b)| *a <= b)
}

fn counted(sums: &DaySums) -> ([u64; LOCKS], [u64; WORKERS], [u64; WORKERS]) {
    (sums.locks, sums.waited, sums.moved)
}

/// The last line is cut short: it is malformed, or a submit of fewer steps, which is no turn. Either way the sums are
/// those of the lines before it.
fn cut_short(bytes: &[u8], line: u64, before: &DaySums) {
    let sums = zilpanud::day_sums(bytes);
    assert_eq!(counted(&sums), counted(before), "{}", bytes.escape_ascii());
    assert_eq!(sums.lines, line);
    let digits = bytes.len() - bytes.iter().rposition(|&byte| byte == b'\n').map_or(0, |at| at + 1);
    let fewer_steps = line > 1 && digits >= 148 && digits % 16 == 148 % 16;
    match fewer_steps {
        true => assert_eq!(sums.end, DayEnd::Read),
        false => assert_eq!(sums.end, DayEnd::Malformed { line }),
    }
}

/// Every beginning of a day: the sums grow from line to line, whether the last byte 10 is there or not, and between two
/// lines they stay. Once a line has stopped the reading, they are those of the whole day.
fn grows(day: &[u8]) {
    let whole = zilpanud::day_sums(day);
    let mut before = zilpanud::day_sums(&[]);
    let mut start = 0;
    for (line, bytes) in (1..).zip(day.split_inclusive(|&byte| byte == b'\n')) {
        let digits = bytes.strip_suffix(b"\n").unwrap_or(bytes).len();
        if line > whole.lines {
            assert_eq!(zilpanud::day_sums(&day[..start + 1]), whole);
            break;
        }
        let stops = line == whole.lines && whole.end != DayEnd::Read;
        (1..digits).filter(|_| !stops).for_each(|at| cut_short(&day[..start + at], line, &before));
        let sums = zilpanud::day_sums(&day[..start + bytes.len()]);
        assert!(sums.lines == line && within(&before, &sums) && within(&sums, &whole));
        if digits > 0 {
            assert_eq!(zilpanud::day_sums(&day[..start + digits]), sums);
        }
        adds_up(&sums);
        before = sums;
        start += bytes.len();
    }
    assert_eq!(counted(&before), counted(&whole));
}

#[test]
fn sums_grow_from_line_to_line() {
    for day in days().into_values() {
        grows(&day);
    }
}

/// A malformed line stops the reading wherever it stands in a day.
#[test]
fn sums_up_to_a_malformed_line() {
    for day in days().into_values() {
        let whole = zilpanud::day_sums(&day);
        let lines: Vec<&[u8]> =
            day.split_inclusive(|&byte| byte == b'\n').take(whole.lines as usize - 1).collect();
        for before in 0..=lines.len() {
            let (read, behind) = (lines[..before].concat(), lines[before..].concat());
            let stopped = zilpanud::day_sums(&[&read[..], b"0z\n", &behind].concat());
            let line = before as u64 + 1;
            assert_eq!((stopped.lines, stopped.end), (line, DayEnd::Malformed { line }));
            assert_eq!(counted(&stopped), counted(&zilpanud::day_sums(&read)));
        }
    }
}

/// What stands in the words lent, before a call.
const FILLS: [u64; 3] = [0, u64::MAX, 0x8000_0100_0000_0bad];

/// The call itself: its answer, and the words lent, which lie between words that are not lent.
fn called(bytes: &[u8], fill: u64) -> (u64, DaySums) {
    const AROUND: usize = 8;
    const GUARD: u64 = 0x5a69_0f3c_96a5_c3f0;
    const COUNTS: [usize; 4] = [LOCKS, WORKERS, WORKERS, 1];
    let mut lent = [[GUARD; AROUND + LOCKS + AROUND]; 4];
    for (words, count) in lent.iter_mut().zip(COUNTS) {
        words[AROUND..][..count].fill(fill);
    }
    let [locks, waited, moved, detail] = lent.each_mut().map(|words| words[AROUND..].as_mut_ptr());
    // SAFETY: the bytes' pointer and length are their slice's; each of the others names as many words as the call asks
    // for, in an array of its own.
    let answer = unsafe { zilpanud_day_sums(bytes.as_ptr(), bytes.len(), locks, waited, moved, detail) };
    for (words, count) in lent.iter().zip(COUNTS) {
        let around = words[..AROUND].iter().chain(&words[AROUND + count..]);
        assert!(around.copied().all(|word| word == GUARD), "words that were not lent");
    }
    let [locks, waited, moved, detail] = lent.each_ref().map(|words| &words[AROUND..]);
    let end = match answer {
        0 => DayEnd::Read,
        10 => DayEnd::NoBoard,
        14 => DayEnd::Malformed { line: detail[0] },
        _ => panic!("the call answers {answer}"),
    };
    let (locks, lines) = (locks[..LOCKS].try_into().unwrap(), detail[0]);
    let [waited, moved] = [waited, moved].map(|words| words[..WORKERS].try_into().unwrap());
    (answer, DaySums { locks, waited, moved, lines, end })
}

/// All that is lent is written, whatever stood there, and is what the wrapper gives.
fn written(bytes: &[u8]) -> DaySums {
    let sums = zilpanud::day_sums(bytes);
    for fill in FILLS {
        assert_eq!(called(bytes, fill), (sums.end.number(), sums), "{fill:#x}: {}", bytes.escape_ascii());
    }
    sums
}

/// Random numbers that repeat (splitmix64).
struct Random(u64);

impl Random {
    fn below(&mut self, n: usize) -> usize {
        self.0 = self.0.wrapping_add(0x9e37_79b9_7f4a_7c15);
        let z = (self.0 ^ (self.0 >> 30)).wrapping_mul(0xbf58_476d_1ce4_e5b9);
        let z = (z ^ (z >> 27)).wrapping_mul(0x94d0_49bb_1331_11eb);
        ((z ^ (z >> 31)) >> 16) as usize % n
    }

    fn bytes(&mut self, of: &[u8], longest: usize) -> Vec<u8> {
        (0..self.below(longest)).map(|_| of[self.below(of.len())]).collect()
    }
}

/// By the first line alone: no more is read where it is not two digits, 01 to 08.
fn first_line(bytes: &[u8], sums: &DaySums) {
    let Some(line) = bytes.split(|&byte| byte == b'\n').next().filter(|_| !bytes.is_empty()) else {
        assert_eq!((sums.end, sums.lines), (DayEnd::Read, 0));
        return;
    };
    let is_digit = |byte: &u8| matches!(byte, b'0'..=b'9' | b'a'..=b'f');
    let two_digits = line.len() == 2 && line.iter().all(is_digit);
    let board = two_digits && line[0] == b'0' && (b'1'..=b'8').contains(&line[1]);
    let stopped = match two_digits {
        true => DayEnd::NoBoard,
        false => DayEnd::Malformed { line: 1 },
    };
    match board {
        true => assert_ne!(sums.end, DayEnd::NoBoard),
        false => assert_eq!((sums.end, sums.lines, counted(sums)), (stopped, 1, ([0; 64], [0; 8], [0; 8]))),
    }
}

#[test]
fn any_bytes_have_sums() {
    let mut random = Random(7);
    let every: Vec<u8> = (0..=255).collect();
    let alphabets: [&[u8]; 5] = [&every, b"\n", b"0123456789abcdef\n", b"01234\n", b"0z\n"];
    for alphabet in alphabets {
        for _ in 0..400 {
            let mut bytes = random.bytes(alphabet, 60);
            let sums = written(&bytes);
            first_line(&bytes, &sums);
            // and behind a first line that is read
            bytes.splice(0..0, *b"02\n");
            written(&bytes);
        }
    }
    for byte in 0..=255 {
        first_line(&[byte], &written(&[byte]));
        written(&[b'0', b'1', b'\n', byte]);
    }
    written(&random.bytes(&every, 100_000));
}

/// A byte of a day is changed, left out or put in, most often into something that is no digit.
#[test]
fn damaged_days_have_sums() {
    let mut random = Random(14);
    for day in days().into_values() {
        assert_eq!(written(&day), zilpanud::day_sums(&day.clone()));
        for _ in 0..100 {
            let (mut damaged, at) = (day.clone(), random.below(day.len()));
            match random.below(3) {
                0 => drop(damaged.remove(at)),
                1 => damaged.insert(at, b"\n0f\0"[random.below(4)]),
                _ => damaged[at] = b"\n0123456789abcdefA \xff"[random.below(20)],
            }
            adds_up(&written(&damaged));
        }
    }
}
