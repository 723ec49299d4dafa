//! The given days and ours, held against what independent programs print for them: the stores that are told are those
//! printed, and so are reports and refusals; a day in words and back is the same day.

mod common;

use stow::explain::{explain, End, How};
use stow::language::names::Names;
use stow::ticket::{ticket, words};
use zilpanud::{day_sums, DayEnd};

/// What `board` prints stands at the beginning of a line: four digits, a blank, sixteen digits.
fn printed(told: &str) -> String {
    let is_digit = |byte: &u8| matches!(byte, b'0'..=b'9' | b'a'..=b'f');
    let is_printed =
        |line: &&[u8]| line.len() >= 21 && line[..4].iter().all(is_digit) && line[5..21].iter().all(is_digit);
    let lines = told.lines().map(str::as_bytes).filter(is_printed);
    lines.map(|line| format!("{}\n", String::from_utf8_lossy(&line[..21]))).collect()
}

fn told(day: &[u8], how: How) -> (String, End) {
    let mut text = vec![];
    let end = explain(day, &Names::default(), how, &mut text).unwrap();
    (String::from_utf8(text).unwrap(), end)
}

/// The line that `board` prints for an end.
fn last_line(end: End) -> &'static str {
    match end {
        End::Read => "",
        End::Malformed { .. } => "ffff 000000000000000e\n",
        End::NoBoard { .. } => "ffff 000000000000000a\n",
    }
}

#[test]
fn every_store_is_told_as_it_is_printed() {
    for (name, day, output) in common::given_days() {
        let (text, end) = told(&day, How::Turns);
        assert_eq!(printed(&text) + last_line(end), output, "{name}");
        let (line, cause) = match end {
            End::Read => (None, 0),
            End::Malformed { line, .. } => (Some(line), 14),
            End::NoBoard { .. } => (Some(1), 10),
        };
        let sums = day_sums(&day);
        assert_eq!(sums.end.number(), cause, "{name}");
        assert!(line.is_none_or(|line| line == sums.lines), "{name}");
    }
}

/// The numbers of turns in a brief day add up to the day's sums, which are the library's.
#[test]
fn brief_days_add_up() {
    for (name, day, _) in common::given_days() {
        let (text, _) = told(&day, How::Brief);
        let sums = day_sums(&day);
        for desk in 0..8 {
            let of_desk = |line: &&str| line.contains(&format!(": desk {desk}, ticket"));
            let turns: u64 = text.lines().filter(of_desk).map(turns_of).sum();
            assert_eq!(turns, sums.moved[desk], "{name}, desk {desk}:\n{text}");
        }
    }
}

/// `.. ; 19 turns`, `.. ; 19 turns, and ..`
fn turns_of(line: &str) -> u64 {
    let behind = line.rsplit_once("; ").map_or("", |(_, behind)| behind);
    let mut words = behind.split([' ', ',']);
    let number = words.next().and_then(|word| word.parse().ok());
    number.filter(|_| words.next().is_some_and(|word| word.starts_with("turn"))).unwrap_or(0)
}

#[test]
fn steps_are_told_of_every_line() {
    for (name, day, _) in common::given_days() {
        let (text, end) = told(&day, How::Steps);
        let headed = text.lines().filter(|line| line.starts_with("line ")).count() as u64;
        let read = match end {
            End::Read => day_sums(&day).lines,
            End::Malformed { line, .. } => line - 1,
            End::NoBoard { .. } => 0,
        };
        assert_eq!(headed, read, "{name}");
    }
}

#[test]
fn a_day_in_words_and_back_is_the_same() {
    let mut there_and_back = 0;
    for (name, day, _) in common::given_days() {
        let (text, trouble) = words("", &day, &Names::default());
        if day_sums(&day).end == DayEnd::Read && !day.is_empty() {
            assert!(trouble.is_none(), "{name}");
            let (lines, _) = ticket("", text.as_bytes(), &mut Names::default())
                .unwrap_or_else(|trouble| panic!("{name}: {:?}\n{text}", trouble.lines()));
            let wanted = String::from_utf8(day).unwrap();
            assert_eq!(lines.trim_end(), wanted.trim_end(), "{name}");
            there_and_back += 1;
        }
    }
    assert!(there_and_back > 300, "{there_and_back}");
}
