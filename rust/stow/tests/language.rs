//! The language of tickets: what each statement says, by document 01's words for a step; and what is told of a mistake.

mod common;

use common::Draw;
use stow::frame::{frame, Frame, Ticket};
use stow::language::names::{Names, Thing};
use stow::language::{day, frame_words};
use stow::ticket::ticket;
use stow::trouble::Trouble;

/// The frame lines of a text.
fn lines(text: &str) -> Vec<String> {
    let items = day(text.as_bytes(), &mut Names::default()).unwrap_or_else(|found| panic!("{found:?}"));
    items.iter().map(|item| item.frame.to_string()).collect()
}

fn steps(text: &str) -> Vec<String> {
    let text = format!("desk 0 number 1; {text}");
    let lines = lines(&text);
    lines[0].as_bytes()[148..].chunks(16).map(|step| String::from_utf8(step.to_vec()).unwrap()).collect()
}

/// The steps of the manual's table of kinds, and of the papers' ticket.
#[test]
fn steps_by_their_digits() {
    for (text, digits) in [
        ("take 3", "0001000300000000"),
        ("take bay 3", "0001000300000000"),
        ("drop 3", "0002000300000000"),
        ("word 24 := 5", "0003001800000005"),
        ("word 24 := 4294967295", "00030018ffffffff"),
        ("word 40 := word 40 + own 0", "0004002800280200"),
        ("word 24 := word 24 - word 512", "0005001800180200"),
        ("own 2 := word 24 < own 0", "0006020200180200"),
        ("if own 2 is 0 go to step 5", "0007020200050000"),
        ("end", "0008000000000000"),
        ("code 0009000200030004", "0009000200030004"),
    ] {
        assert_eq!(steps(text), [digits], "{text}");
    }
}

#[test]
fn the_papers_day() {
    let text = "board of 1 desk\ndesk 0 number 1\ntake 3\nword 24 := 5\ndrop 3\nend\ndesk 0 turns 5\ncut\n";
    let hand_in = "01000000000000000001".to_string()
        + &"0".repeat(128)
        + "0001000300000000000300180000000500020003000000000008000000000000";
    assert_eq!(lines(text), ["01", &hand_in, "02000005", "03"]);
    assert_eq!(lines("rounds 65535; desk 255 turns 0"), ["04ffff", "02ff0000"]);
}

#[test]
fn arguments_left_out_are_0() {
    let args = |text: &str| {
        let Ok(Frame::HandIn(ticket)) = frame(lines(text)[0].as_bytes()) else { panic!("{text}") };
        ticket.args
    };
    assert_eq!(args("desk 0 number 7"), [0; 8]);
    assert_eq!(args("desk 0 number 7 with 40 0 0 .."), [40, 0, 0, 0, 0, 0, 0, 0]);
    assert_eq!(args("desk 0 number 7 with 1 2 3 4 5 6 7 8"), [1, 2, 3, 4, 5, 6, 7, 8]);
    assert_eq!(args("desk 0 number 7 with 18446744073709551615"), [u64::MAX, 0, 0, 0, 0, 0, 0, 0]);
}

#[test]
fn names_and_labels() {
    let text = "let shed = word 24; let north = bay 3; let amount = own 0\n\
                take north; if amount is 0 go to done; shed := shed + amount; done: drop north; end";
    let plain = "take 3; if own 0 is 0 go to step 3; word 24 := word 24 + own 0; drop 3; end";
    assert_eq!(steps(text), steps(plain));
    assert_eq!(steps("first: take 3\nsecond:\n\ndrop 3; end").len(), 3);
}

/// Texts, and of the first mistake its line, its column and a part of what is told.
#[rustfmt::skip]
const MISTAKES: &[(&str, usize, usize, &str)] = &[
    ("tkae 3", 1, 1, "no statement begins with 'tkae'; did you mean 'take'?"),
    ("desk 0 number 1\n  Take 3", 2, 3, "no statement begins with 'Take'; did you mean 'take'?"),
    ("desk 0 number 1\ntake", 2, 5, "the statement ends here, and the number of a bay is expected"),
    ("desk 0 number 1\ntake 70000", 2, 6, "'70000' is too large for a bay; the bays are 0 to 63"),
    ("desk 0 number 1\ntake 3 4", 2, 8, "'4' stands behind the 'take' statement, where nothing more is expected"),
    ("desk 0 number 1\ntake yard", 2, 6, "'yard' is no name here; names are given by '--names FILE', or by 'let'"),
    ("desk 0 number 1\ntoo_few := 5", 2, 1, "'too_few' is no name here; names are given by '--names FILE', or by 'let'"),
    ("desk 0 number 1\nword 24 = 5", 2, 9, "here is '=', and ':=' is expected; write ':='"),
    ("desk 0 number 1\nword 24 += own 0", 2, 9, "write 'word 24 := word 24 + own 0'"),
    ("desk 0 number 1\nword 24 := word 25", 2, 19, "to copy a word, add one that is 0"),
    ("desk 0 number 1\nword 24 := word 24 + 1", 2, 22, "give it as an argument and write 'own'"),
    ("desk 0 number 1\nown 1 := word 24 <= own 0", 2, 19, "there is '<' alone"),
    ("desk 0 number 1\nword 24 := -5", 2, 12, "there are no numbers below 0"),
    ("desk 0 number 1\nword 24 := 4294967296", 2, 12, "give a larger number as an argument"),
    ("desk 0 number 1\nown 8 := 5", 2, 5, "'8' is too large for an own word; a desk has own 0 to 7"),
    ("desk 0 number 1\nword 24x := 5", 2, 6, "'24x' is not a number; numbers are decimal"),
    ("desk 0 number 1\nif own 1 is 1 go to x", 2, 10, "a skip asks whether a word 'is 0', and nothing else; compare first"),
    ("desk 0 number 1\nif word 24 < own 0 go to x", 2, 12, "a skip asks whether a word 'is 0', and nothing else; compare first"),
    ("desk 0 number 1\nif own 1 is 0 go to x", 2, 21, "no step of this ticket has the label 'x'"),
    ("desk 0 number 1\ndone: end\nif own 1 is 0 go to dne", 3, 21, "did you mean 'done'?"),
    ("desk 0 number 1\nif own 1 is 0 go to 4", 2, 21, "write 'go to step 4'"),
    ("desk 0 number 1\nif own 1 is 0 go to x\nx:", 3, 1, "no step follows the label 'x'"),
    ("desk 0 number 1\nx: end\nx: end", 3, 1, "the label 'x' stands in line 2 already"),
    ("desk 0 number 1\nword: end", 2, 1, "'word' is a word of the language, and names nothing"),
    ("let shed = word 24\ndesk 0 number 1\nshet := 5", 3, 1, "did you mean 'shed'?"),
    ("let shed = word 24\nlet shed = word 25", 2, 5, "'shed' is word 24 already"),
    ("let shed = word 24\ndesk 0 number 1\ntake shed", 3, 6, "'shed' is word 24, and a bay is expected; it belongs to bay 3"),
    ("let shed = 24", 1, 12, "'word', 'own' or 'bay' and its number is expected"),
    ("let shed-two = word 24", 1, 9, "a name has letters, digits and '_'"),
    ("let shed = bay 64", 1, 5, "there is no such bay to be named; the bays are 0 to 63"),
    ("let shed = word 520", 1, 5, "there is no such word to be named"),
    ("take 3", 1, 1, "a step stands in a ticket, and none is begun here"),
    ("board of 1 desk\nboard of 1 desk", 2, 1, "a day has one board, and it stands first"),
    ("cut", 1, 1, "a cut is no beginning"),
    ("board of 300 desks", 1, 10, "'300' is too large for desks; a board has 1 to 8 desks"),
    ("desk 0 tuns 5", 1, 8, "did you mean 'turns'?"),
    ("desk 0 turns 65536", 1, 14, "a line has 0 to 65535 turns"),
    ("desk 0 number 1 with 1 2 3 4 5 6 7 8 9", 1, 38, "a ticket has eight arguments; this is the ninth"),
    ("desk 0 number 1 with 1, 2", 1, 23, "with blanks between them and no commas"),
    ("desk 0 number 1\ncode 00", 2, 6, "16 digits, 0 to 9 and a to f, are expected"),
    ("desk 0 number 1\nword 24 := word 24 \u{2212} own 0", 2, 20, "write '-' for a difference"),
    ("desk 0 number 1\nKõrge 5", 2, 1, "no statement begins with 'Kõrge'"),
];

#[test]
fn mistakes_say_where_and_what_was_meant() {
    for (text, line, column, told) in MISTAKES {
        let found = day(text.as_bytes(), &mut Names::default()).expect_err(text);
        assert_eq!((&found[0].line, &found[0].column), (line, column), "{text}: {}", found[0]);
        assert!(found[0].to_string().contains(told), "{text}: {}", found[0]);
    }
}

/// A line that was to begin a ticket is told, and not each step below it; and of a long number only its beginning.
#[test]
fn one_mistake_is_told_once() {
    for header in ["dsk 0 number 1", "desk 0 nmber 1", "desk 300 number 1", "desk 0 number x"] {
        let text = format!("{header}\ntake 3\nagain: word 24 := 5\ndrop 3\nend\ndesk 0 number 2\ntke 4\n");
        let found = day(text.as_bytes(), &mut Names::default()).unwrap_err();
        assert_eq!(found.iter().map(|mistake| mistake.line).collect::<Vec<_>>(), [1, 7], "{header}");
    }
    let found =
        day(format!("desk 0 number {}", "9".repeat(5_000)).as_bytes(), &mut Names::default()).unwrap_err();
    assert!(found[0].to_string().len() < 200, "{}", found[0]);
}

/// All mistakes of a text are told, in their order.
#[test]
fn several_mistakes() {
    let text = "desk 0 number 1\ntak 3\nwrd 24 := 5\nif own 1 is 0 go to nowhere\nend\n";
    let found = day(text.as_bytes(), &mut Names::default()).unwrap_err();
    assert_eq!(found.iter().map(|mistake| mistake.line).collect::<Vec<_>>(), [2, 3, 4]);
}

fn refusals(text: &str) -> Vec<String> {
    match ticket("", text.as_bytes(), &mut Names::default()) {
        Ok((_, refusals)) => refusals,
        Err(trouble) => panic!("{text}: {:?}", trouble.lines()),
    }
}

/// Steps that fail each of causes 4 to 9, and what is told of them: the ticket begins in line 2, its steps in line 3. The
/// sentence of cause 8 is the one that was asked for.
const REFUSED: &[(&str, &str)] = &[
    ("take 3\ndrop 3", "line 2: a ticket has 3 to 64 steps, and this one has 2 (cause 4)"),
    ("take 64\ndrop 64\nend", "line 3: there is no bay 64 (cause 5)"),
    ("take 3\nword 600 := 5\ndrop 3\nend", "line 4: there is no word 600 (cause 5)"),
    (
        "take 3\nback: word 24 := 5\nif own 0 is 0 go to back\ndrop 3\nend",
        "line 5: the skip goes to line 4, and no later",
    ),
    ("take 3\nif own 0 is 0 go to step 9\ndrop 3\nend", "line 4: the skip goes to step 9, and no later"),
    ("take 3\nend\ndrop 3\nend", "line 4: the ticket ends here, and steps follow (cause 5)"),
    ("take 3\nword 24 := 5\ndrop 3", "line 5: this is the ticket's last step, and it is no 'end' (cause 5)"),
    ("code 0009000000000000\ndrop 3\nend", "line 3: a step of kind 9: the kinds are 1 to 8 (cause 5)"),
    (
        "code 0001000300010000\ndrop 3\nend",
        "line 3: field b of this step is 1, and for kind 1 it is 0 (cause 5)",
    ),
    (
        "own 0 := 5\ntake 3\ndrop 3\nend",
        "line 3: a ticket starts by taking a bay, and this is no 'take' (cause 6)",
    ),
    ("take 3\nword 24 := 5\nend", "line 5: the ticket ends with bay 3 held (cause 6)"),
    ("take 3\ndrop 3\nown 0 := 5\nend", "line 5: no bay is held here, and this is not the end (cause 6)"),
    ("take 3\ntake 3\ndrop 3\nend", "line 4: bay 3 is held here already; held: bay 3 (cause 7)"),
    (
        "take 5\ntake 3\ndrop 5\nend",
        "line 4: bay 3 is below bay 5, which is held here; held: bay 5 (cause 7)",
    ),
    ("take 3\ndrop 4\ndrop 3\nend", "line 4: bay 4 is not held here; held: bay 3 (cause 7)"),
    (
        "take 3\nown 1 := 1\nown 1 := 1\nword 32 := 5\ndrop 3\nend",
        "line 6: word 32 belongs to bay 4, which is not held here; held: bay 3 (cause 8)",
    ),
    (
        "take 3\nif own 0 is 0 go to over\ndrop 3\nover: end",
        "line 4: the skip leaves with bay 3 held and goes to line 6, where no bay is held (cause 9)",
    ),
];

#[test]
fn refusals_say_the_line() {
    let ticket = |steps: &str| format!("# a ticket\ndesk 0 number 1\n{steps}");
    for (steps, told) in REFUSED {
        let refusals = refusals(&ticket(steps));
        assert!(refusals[0].starts_with(told), "{steps}:\n{refusals:?}");
        assert!(refusals[1].starts_with("  "), "{refusals:?}");
    }
    assert_eq!(refusals("board of 9 desks")[0], "line 1: no board has 9 desks (cause 10)");
    let steps = "take 3; word 24 := 5; drop 3; end";
    for (text, told) in [
        (format!("desk 0 number 0; {steps}"), "line 1: 0 is no ticket's number (cause 3)"),
        (format!("desk 8 number 1; {steps}"), "line 1: the board has no desk 8 (cause 1)"),
        (format!("board of 2 desks\ndesk 2 number 1; {steps}"), "line 2: the board has no desk 2 (cause 1)"),
        ("board of 2 desks\ndesk 5 turns 3".to_string(), "line 2: the board has no desk 5 (cause 1)"),
    ] {
        assert_eq!(refusals(&text)[0], told);
    }
    assert_eq!(refusals(&ticket("take 3\nword 24 := 5\ndrop 3\nend")), Vec::<String>::new());
}

#[test]
fn nothing_is_no_ticket() {
    for text in ["", "\n\n# nothing\n", "let shed = word 24"] {
        let Err(Trouble::Wrong(told)) = ticket("", text.as_bytes(), &mut Names::default()) else {
            panic!("{text}")
        };
        assert_eq!(told, ["there is no ticket in it; 'desk 0 number 1' begins one"]);
    }
}

/// Any words as steps, with names for some of what they name: there and back is the same frame.
#[test]
fn any_frame_there_and_back() {
    let mut draw = Draw(7);
    let mut names = Names::default();
    for (name, thing) in [
        ("shed", Thing::Word(24)),
        ("s5", Thing::Word(25)),
        ("amount", Thing::Word(512)),
        ("north", Thing::Bay(3)),
    ] {
        names.give(name, thing).unwrap();
    }
    for _ in 0..20_000 {
        let frame = any_frame(&mut draw);
        let text = frame_words(&frame, &names);
        let items =
            day(text.as_bytes(), &mut names.clone()).unwrap_or_else(|found| panic!("{text}\n{found:?}"));
        assert_eq!(items.iter().map(|item| &item.frame).collect::<Vec<_>>(), [&frame], "{text}");
    }
}

/// A frame with steps of every kind, their fields small, near their ends or any.
fn any_frame(draw: &mut Draw) -> Frame {
    let field = |draw: &mut Draw| match draw.below(6) {
        0 => 0,
        1 => draw.below(10),
        2 => draw.of(&[24, 25, 63, 64, 511, 512, 519, 520]),
        3 => 512 + draw.below(10),
        _ => draw.below(1 << 16),
    };
    let step = |draw: &mut Draw| match draw.one_in(20) {
        true => draw.next(),
        false => {
            let (a, b, c) = (field(draw), field(draw), field(draw));
            let (b, c) = if draw.one_in(2) { (b, 0) } else { (b, c) };
            let b = if draw.one_in(3) { 0 } else { b };
            draw.below(10) << 48 | a << 32 | b << 16 | c
        }
    };
    match draw.below(8) {
        0 => Frame::Turns { desk: draw.next() as u8, turns: draw.next() as u16 },
        1 => Frame::Rounds { rounds: draw.next() as u16 },
        2 => Frame::Board { desks: draw.next() as u8 },
        _ => {
            let args = std::array::from_fn(|_| if draw.one_in(2) { 0 } else { draw.next() });
            let steps = (0..draw.below(12)).map(|_| step(draw)).collect();
            Frame::HandIn(Ticket { desk: draw.next() as u8, number: draw.next(), args, steps })
        }
    }
}
