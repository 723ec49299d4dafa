//! What is told of days that are worked out by hand from document 01's turns: an acquire and a release have six, kinds 3
//! to 6 four, a skip one, an end three.

use stow::explain::{explain, How};
use stow::language::names::Names;
use stow::look::Look;
use stow::player::Player;
use stow::show;
use stow::ticket::ticket;
use zilpanud::code;

/// The lines that are told of a day in words, from the one that begins with this text to the empty one.
fn told(day: &str, how: How, from: &str) -> Vec<String> {
    let mut names = Names::default();
    let (lines, _) = ticket("", day.as_bytes(), &mut names).unwrap();
    let mut text = vec![];
    explain(lines.as_bytes(), &names, how, &mut text).unwrap();
    let text = String::from_utf8(text).unwrap();
    let lines = text.lines().skip_while(|line| !line.starts_with(from)).take_while(|line| !line.is_empty());
    lines.map(str::to_string).collect()
}

const PAPERS: &str = "take 3; word 24 := 5; drop 3; end";

/// Desk 0 has bay 3 with its second turn and frees it with its fifteenth, before desk 1's in that round: desk 1 waits in
/// rounds 2 to 14. What it does then stands behind what ended its wait.
#[test]
fn two_desks_at_one_bay() {
    let day = format!(
        "board of 2 desks\ndesk 0 number 1; {PAPERS}\ndesk 1 number 1; {PAPERS}\nrounds 65535\nrounds 1"
    );
    let wanted = [
        "line 4: rounds 65535",
        "    desk 0, ticket 1, step 0 (take 3): has bay 3, the ticket is begun",
        "    desk 1, ticket 1, step 0 (take 3): means to have bay 3, waits for bay 3, which desk 0 has (13 turns)",
        "    desk 0, ticket 1, step 1 (word 24 := 5): word 24 is 5, was 0",
        "    desk 0, ticket 1, step 2 (drop 3): frees bay 3",
        "    desk 1, ticket 1, step 0 (take 3): has bay 3, the ticket is begun",
        "    desk 0, ticket 1, step 3 (end): ticket 1 is finished",
        "    desk 1, ticket 1, step 1 (word 24 := 5): word 24 is 5, as before",
        "    desk 1, ticket 1, step 2 (drop 3): frees bay 3",
        "    desk 1, ticket 1, step 3 (end): ticket 1 is finished",
        "line 5: rounds 1",
        "    all desks are idle, and nothing is done",
    ];
    assert_eq!(told(&day, How::Steps, "line 4"), wanted);
    let brief = [
        "line 2: desk 0, ticket 1: begun in line 4, finished in line 4; 19 turns",
        "line 3: desk 1, ticket 1: begun in line 4, finished in line 4; 19 turns, and 13 that waited for bay 3",
    ];
    assert_eq!(told(&day, How::Brief, "line 2"), brief);
}

/// Document 01's cuts, by the turns before them, and what is told of the cut and of what follows: after turn 4 the ticket is
/// withdrawn, after 5 it goes on at its take, after 15 at its drop, whose bay is free by then; after 18 it is finished.
#[rustfmt::skip]
const CUTS: &[(u64, &[&str])] = &[
    (4, &[
        "    the power goes; what the desks were about is lost:",
        "      desk 0 was at step 0 of ticket 1 (take 3), before turn 5; not begun",
        "    the recovery makes 3 stores:",
        "      bay 3, which desks meant to have, is freed",
        "      desk 0: ticket 1 was not begun and is withdrawn",
        "        hand it in again, under the same number",
        "line 5: rounds 65535",
        "    all desks are idle, and nothing is done",
    ]),
    (5, &[
        "    the power goes; what the desks were about is lost:",
        "      desk 0 was at step 0 of ticket 1 (take 3), before turn 6; begun",
        "    the recovery makes 3 stores:",
        "      bay 3, which desks meant to have, is freed",
        "      desk 0 is owed bay 3 and has it again",
        "        ticket 1 goes on at step 0 (take 3) with the store that it noted: owns bay 3",
        "line 5: rounds 65535",
        "    desk 0, ticket 1, step 0 (take 3): owns bay 3",
        "    desk 0, ticket 1, step 1 (word 24 := 5): word 24 is 5, was 0",
        "    desk 0, ticket 1, step 2 (drop 3): frees bay 3",
        "    desk 0, ticket 1, step 3 (end): ticket 1 is finished",
    ]),
    (15, &[
        "    the power goes; what the desks were about is lost:",
        "      desk 0 was at step 2 of ticket 1 (drop 3), before turn 6; begun",
        "    the recovery makes 2 stores:",
        "      bay 3, which desks meant to have, is freed",
        "      desk 0 is owed no bay",
        "        ticket 1 goes on at step 2 (drop 3) with the store that it noted: owns no bay",
        "line 5: rounds 65535",
        "    desk 0, ticket 1, step 2 (drop 3): owns no bay, as before, finds bay 3 already free, means to have no bay, as before",
        "    desk 0, ticket 1, step 3 (end): ticket 1 is finished",
    ]),
    (18, &[
        "    the power goes; what the desks were about is lost:",
        "      desk 0 was at step 3 of ticket 1 (end), before turn 3; finished, but for its last turns",
        "    the recovery makes 2 stores:",
        "      desk 0: ticket 1 is finished, and its last store is made",
        "line 5: rounds 65535",
        "    all desks are idle, and nothing is done",
    ]),
];

#[test]
fn the_papers_cuts() {
    for (turns, wanted) in CUTS {
        let day =
            format!("board of 1 desk\ndesk 0 number 1; {PAPERS}\ndesk 0 turns {turns}\ncut\nrounds 65535");
        assert_eq!(told(&day, How::Steps, "line 4")[1..], **wanted, "{turns}");
    }
}

/// A skip by its word; a desk without a ticket; a desk that there is not; a refusal by the ticket and by the board.
#[test]
fn skips_and_refusals() {
    let day = "board of 1 desk\ndesk 0 turns 3\n\
               desk 0 number 1 with 1; take 3; if own 0 is 0 go to step 3; if own 1 is 0 go to step 4; end; drop 3; end\n\
               desk 0 number 1 with 1; take 3; if own 0 is 0 go to step 3; if own 1 is 0 go to step 4; own 2 := 1; drop 3; end\n\
               desk 0 number 2; take 3; drop 3; end\ndesk 1 turns 1\ndesk 0 turns 8";
    let wanted = [
        "line 2: desk 0 turns 3",
        "    the desk is idle, and nothing is done",
        "line 3: desk 0 number 1 with 1: take 3; if own 0 is 0 go to s3; if own 1 is 0 go to s4; s3: end; s4: drop 3; end",
        "    refused with 5: at step 3 (end), the ticket ends here, and steps follow; \
         a ticket has one end, its last step; 'desk' begins the next",
        "line 4: desk 0 number 1 with 1: take 3; if own 0 is 0 go to s3; if own 1 is 0 go to s4; s3: own 2 := 1; s4: drop 3; end",
        "    desk 0 has ticket 1: 6 steps, 17 to 21 turns",
        "line 5: desk 0 number 2: take 3; drop 3; end",
        "    refused with 2: desk 0 still has ticket 1; let it end first: turns of desk 0, or rounds",
        "line 6: desk 1 turns 1",
        "    refused with 1: the board has no desk 1; its desks are 0 to 0",
        "line 7: desk 0 turns 8",
        "    desk 0, ticket 1, step 0 (take 3): has bay 3, the ticket is begun",
        "    desk 0, ticket 1, step 1 (if own 0 is 0 go to step 3): own 0 is not 0: goes on at step 2",
        "    desk 0, ticket 1, step 2 (if own 1 is 0 go to step 4): own 1 is 0: goes on at step 4",
    ];
    assert_eq!(told(day, How::Steps, "line 2"), wanted);
}

/// The papers' ticket after each of its turns: begun with the fifth, finished with the seventeenth.
#[test]
fn a_ticket_is_shown_as_it_stands() {
    let mut player = Player::fresh(1).unwrap();
    let steps = [code::acquire(3), code::set(24, 5), code::release(3), code::finish()];
    zilpanud::submit(&mut player.image, &mut player.cursors, 0, 1, &[0; 8], &steps).unwrap();
    for turns in 0..=19 {
        let text = show::text(&Look::of(&player.image).unwrap(), &Names::default());
        let recorded = match turns {
            5..=8 => 0,
            9..=12 => 1,
            _ => 2,
        };
        let wanted = match turns {
            0..=4 => "ticket 1 of 4 steps is handed in and not begun; no ticket finished yet".to_string(),
            5..=16 => format!("ticket 1 is begun, step {recorded} of 4 is recorded; no ticket finished yet"),
            17 | 18 => "ticket 1 is finished, and the last turns of its end are to be made".to_string(),
            _ => "idle; ticket 1 is finished".to_string(),
        };
        assert_eq!(text.lines().nth(1), Some(format!("  desk 0: {wanted}").as_str()), "{turns}");
        zilpanud::turn(&mut player.image, &mut player.cursors, 0).unwrap();
    }
}
