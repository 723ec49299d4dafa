//! Tickets with what their check answers and the sentence that goes with it, each worked out by hand.
use twin::*;

/// A ticket, its first cause with its step, and its sentence; none of both where it passes.
pub struct Row {
    pub steps: Vec<u64>,
    pub verdict: Result<(), Refusal>,
    pub sentence: Option<&'static str>,
}

/// Steps by kind and fields, those left out 0, '* n' repeating one; the answer; the sentence.
const ROWS: &str = "\
8 | 4 0 | a ticket has 3 to 64 steps, and this one has 1
 | 4 0 | a ticket has 3 to 64 steps, and this one has 0
1 3 / 8 | 4 0 | a ticket has 3 to 64 steps, and this one has 2
1 3 / 3 512 * 62 / 2 3 / 8 | 4 0 | a ticket has 3 to 64 steps, and this one has 65
9 * 66 | 4 0 | a ticket has 3 to 64 steps, and this one has 66
1 3 / 3 512 * 510 / 2 3 / 8 | 4 0 | a ticket has 3 to 64 steps, and this one has 513
0 * 3 | 5 0 | step 0 has kind 0, and the kinds are 1 to 8
1 3 / 9 / 2 3 / 8 | 5 1 | step 1 has kind 9, and the kinds are 1 to 8
1 3 / 2 3 / 65535 1 600 65535 | 5 2 | step 2 has kind 65535, and the kinds are 1 to 8
1 3 / 3 512 * 62 / 256 | 5 63 | step 63 has kind 256, and the kinds are 1 to 8
1 64 / 2 64 / 8 | 5 0 | step 0 names bay 64, and the bays are 0 to 63
1 3 / 2 65535 / 2 3 / 8 | 5 1 | step 1 names bay 65535, and the bays are 0 to 63
1 3 / 2 3 / 1 67 1 1 | 5 2 | step 2 names bay 67, and the bays are 0 to 63
1 3 / 3 520 / 2 3 / 8 | 5 1 | step 1 names word 520, and the words are 0 to 519
1 3 / 4 519 520 521 / 2 3 / 8 | 5 1 | step 1 names word 520, and the words are 0 to 519
1 3 / 5 512 513 65535 / 2 3 / 8 | 5 1 | step 1 names word 65535, and the words are 0 to 519
1 3 / 6 600 700 800 / 2 3 / 8 | 5 1 | step 1 names word 600, and the words are 0 to 519
1 3 / 7 521 1 1 / 2 3 / 8 | 5 1 | step 1 names word 521, and the words are 0 to 519
1 3 / 7 512 0 / 2 3 / 8 | 5 1 | step 1 skips to step 0, and a skip goes to a later step of its ticket
1 3 / 7 512 1 / 2 3 / 8 | 5 1 | step 1 skips to step 1, and a skip goes to a later step of its ticket
1 3 / 7 24 4 9 / 2 3 / 8 | 5 1 | step 1 skips to step 4, and a skip goes to a later step of its ticket
1 3 / 7 512 65535 / 2 3 / 8 | 5 1 | step 1 skips to step 65535, and a skip goes to a later step of its ticket
1 3 / 2 3 / 7 512 3 | 5 2 | step 2 skips to step 3, and a skip goes to a later step of its ticket
1 3 1 / 2 3 / 8 | 5 0 | step 0 has 1 in field b, which is 0 for kind 1
1 3 / 1 4 5 6 / 2 4 / 2 3 / 8 | 5 1 | step 1 has 5 in field b, which is 0 for kind 1
1 3 / 2 3 0 7 / 8 | 5 1 | step 1 has 7 in field c, which is 0 for kind 2
1 3 / 7 512 2 9 / 2 3 / 8 | 5 1 | step 1 has 9 in field c, which is 0 for kind 7
1 3 / 2 3 / 8 3 2 1 | 5 2 | step 2 has 3 in field a, which is 0 for kind 8
1 3 / 2 3 / 8 0 2 1 | 5 2 | step 2 has 2 in field b, which is 0 for kind 8
1 3 / 8 0 0 65535 / 2 3 / 8 | 5 1 | step 1 has 65535 in field c, which is 0 for kind 8
8 * 3 | 5 0 | step 0 ends the ticket, and is not its last step
1 3 / 8 / 2 3 / 8 | 5 1 | step 1 ends the ticket, and is not its last step
1 3 / 2 3 / 2 3 | 5 2 | step 2 is the last, and does not end the ticket
1 3 / 3 512 * 61 / 2 3 / 3 512 600 65535 | 5 63 | step 63 is the last, and does not end the ticket
1 3 / 2 64 / 9 / 2 3 / 8 | 5 1 | step 1 names bay 64, and the bays are 0 to 63
1 3 / 9 / 2 64 / 2 3 | 5 1 | step 1 has kind 9, and the kinds are 1 to 8
3 24 / 1 3 / 9 / 8 | 5 2 | step 2 has kind 9, and the kinds are 1 to 8
1 3 / 1 3 / 2 3 1 / 8 | 5 2 | step 2 has 1 in field b, which is 0 for kind 2
1 3 / 3 32 0 5 / 2 3 / 3 512 | 5 3 | step 3 is the last, and does not end the ticket
1 3 / 7 512 4 / 2 3 / 7 512 3 / 8 | 5 3 | step 3 skips to step 3, and a skip goes to a later step of its ticket
3 512 / 1 3 / 2 3 / 8 | 6 0 | step 0 takes no bay, and a ticket starts by taking one
2 3 / 1 3 / 2 3 / 8 | 6 0 | step 0 takes no bay, and a ticket starts by taking one
7 24 3 / 1 3 / 2 3 / 8 | 6 0 | step 0 takes no bay, and a ticket starts by taking one
1 3 / 3 24 0 5 / 8 | 6 2 | step 2 ends the ticket with bay 3 held
1 3 / 1 5 / 8 | 6 2 | step 2 ends the ticket with bays 3 and 5 held
1 3 / 1 5 / 1 9 / 8 | 6 3 | step 3 ends the ticket with bays 3, 5 and 9 held
1 0 / 1 1 / 1 62 / 1 63 / 8 | 6 4 | step 4 ends the ticket with bays 0, 1, 62 and 63 held
1 3 / 2 3 / 3 512 / 8 | 6 2 | no bay is held at step 2, which is not the end
1 3 / 2 3 / 3 24 0 5 / 8 | 6 2 | no bay is held at step 2, which is not the end
1 3 / 2 3 / 1 4 / 2 4 / 8 | 6 2 | no bay is held at step 2, which is not the end
1 3 / 2 3 / 7 24 4 / 1 4 / 8 | 6 2 | no bay is held at step 2, which is not the end
1 3 / 1 3 / 2 3 / 8 | 7 1 | bay 3 is held already at step 1, which takes it
1 3 / 1 5 / 1 3 / 2 5 / 2 3 / 8 | 7 2 | bay 3 is held already at step 2, which takes it
1 3 / 1 2 / 2 2 / 2 3 / 8 | 7 1 | bay 2 is below bay 3, which is held at step 1
1 3 / 1 9 / 1 5 / 2 3 / 8 | 7 2 | bay 5 is below bay 9, which is held at step 2
1 63 / 1 0 / 2 63 / 8 | 7 1 | bay 0 is below bay 63, which is held at step 1
1 3 / 2 4 / 2 3 / 8 | 7 1 | bay 4 is not held at step 1, which drops it
1 0 / 1 9 / 2 63 / 2 0 / 8 | 7 2 | bay 63 is not held at step 2, which drops it
1 3 / 3 32 0 5 / 2 3 / 8 | 8 1 | word 32 is in bay 4, which is not held at step 1
1 3 / 4 24 512 32 / 2 3 / 8 | 8 1 | word 32 is in bay 4, which is not held at step 1
1 3 / 5 24 40 32 / 2 3 / 8 | 8 1 | word 40 is in bay 5, which is not held at step 1
1 3 / 6 511 0 23 / 2 3 / 8 | 8 1 | word 511 is in bay 63, which is not held at step 1
1 3 / 1 4 / 2 3 / 3 31 / 2 4 / 8 | 8 3 | word 31 is in bay 3, which is not held at step 3
1 3 / 7 7 3 / 2 3 / 8 | 8 1 | word 7 is in bay 0, which is not held at step 1
1 3 / 1 4 / 7 511 3 / 2 3 / 2 4 / 8 | 8 2 | word 511 is in bay 63, which is not held at step 2
1 3 / 7 512 3 / 2 3 / 8 | 9 1 | step 1 has bay 3 held and skips to step 3, which has no bay held
1 3 / 7 24 3 / 1 4 / 2 4 / 2 3 / 8 | 9 1 | step 1 has bay 3 held and skips to step 3, which has bays 3 and 4 held
1 3 / 1 4 / 7 24 4 / 2 3 / 2 4 / 8 | 9 2 | step 2 has bays 3 and 4 held and skips to step 4, which has bay 4 held
1 3 / 7 512 4 / 2 3 / 1 4 / 8 | 9 1 | step 1 has bay 3 held and skips to step 4, which has bay 4 held
1 3 / 2 4 / 3 32 0 5 / 8 | 7 1 | bay 4 is not held at step 1, which drops it
1 3 / 3 32 0 5 / 7 512 5 / 1 3 / 2 3 / 8 | 8 1 | word 32 is in bay 4, which is not held at step 1
1 3 / 7 512 3 / 1 2 / 8 | 9 1 | step 1 has bay 3 held and skips to step 3, which has bays 2 and 3 held
1 3 / 3 24 0 5 / 2 3 / 8
1 3 / 2 3 / 8
1 63 / 2 63 / 8
1 3 / 3 24 32 65535 / 2 3 / 8
1 3 / 3 512 * 61 / 2 3 / 8
1 3 / 7 24 4 / 1 4 / 2 4 / 4 24 31 519 / 2 3 / 8";

/// The steps that one piece of a row says.
fn piece(text: &str) -> Vec<u64> {
    let (step, times) = text.split_once('*').unwrap_or((text, "1"));
    let mut fields = step.split_whitespace().map(|word| word.parse().unwrap());
    let [kind, a, b, c] = [(); 4].map(|()| fields.next().unwrap_or(0));
    vec![Step::word(kind, a, b, c); times.trim().parse().unwrap()]
}

pub fn steps(text: &str) -> Vec<u64> {
    text.split('/').filter(|piece| !piece.trim().is_empty()).flat_map(piece).collect()
}

fn row(line: &'static str) -> Row {
    let parts: Vec<&str> = line.split(" | ").collect();
    let (verdict, sentence) = match parts[1..] {
        [] => (Ok(()), None),
        [answer, sentence] => {
            let (number, at) = answer.split_once(' ').unwrap();
            let refusal = Refusal { number: number.parse().unwrap(), at: at.parse().unwrap() };
            (Err(refusal), Some(sentence))
        }
        _ => panic!("{line}"),
    };
    Row { steps: steps(parts[0]), verdict, sentence }
}

pub fn rows() -> Vec<Row> {
    ROWS.lines().map(row).collect()
}
