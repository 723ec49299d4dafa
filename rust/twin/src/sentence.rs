//! What a planner is told of a ticket that fails the check (6/14): one sentence to each refusal, in the papers' words.
use crate::check::{check, held_sets};
use crate::step::{bays, bit, loose, Step};

/// The sentence of the first of causes 4 to 9 that the steps fail, without a full stop; none where they pass.
pub fn of(steps: &[u64]) -> Option<String> {
    let refusal = check(steps).err()?;
    let (count, s) = (steps.len(), refusal.at as usize);
    if refusal.number == 4 {
        return Some(format!("a ticket has 3 to 64 steps, and this one has {count}"));
    }
    let step = Step::of(steps[s]);
    if refusal.number == 5 {
        return Some(malformed(step, s, count));
    }
    // what passes 4 and 5 has held sets
    let before = held_sets(steps).ok()?;
    let held = before[s];
    Some(match refusal.number {
        6 => nothing_or_left(step, s, held),
        7 => out_of_order(step, s, held),
        8 => not_under(step, s, held),
        _ => {
            let (here, there) = (named(held), named(before[step.b as usize]));
            format!("step {s} has {here} held and skips to step {}, which has {there} held", step.b)
        }
    })
}

/// What a field is to a kind.
#[derive(Clone, Copy)]
enum Field {
    Bay,
    Word,
    /// The step that a skip goes to.
    Target,
    Zero,
    /// A half of kind 3's value.
    Any,
}

/// a, b and c, kind by kind.
const FIELDS: [[Field; 3]; 8] = {
    use Field::*;
    [
        [Bay, Zero, Zero],
        [Bay, Zero, Zero],
        [Word, Any, Any],
        [Word, Word, Word],
        [Word, Word, Word],
        [Word, Word, Word],
        [Word, Target, Zero],
        [Zero, Zero, Zero],
    ]
};

/// Cause 5 at step s: its kind, else its first field that is wrong, else its position.
fn malformed(step: Step, s: usize, count: usize) -> String {
    let kind = step.kind;
    let Some(row) = FIELDS.get((kind as usize).wrapping_sub(1)) else {
        return format!("step {s} has kind {kind}, and the kinds are 1 to 8");
    };
    for (field, (name, v)) in row.iter().zip([('a', step.a), ('b', step.b), ('c', step.c)]) {
        let later = (s + 1..count).contains(&(v as usize));
        match field {
            Field::Bay if v > 63 => return format!("step {s} names bay {v}, and the bays are 0 to 63"),
            Field::Word if v > 519 => return format!("step {s} names word {v}, and the words are 0 to 519"),
            Field::Target if !later => {
                return format!("step {s} skips to step {v}, and a skip goes to a later step of its ticket")
            }
            Field::Zero if v != 0 => {
                return format!("step {s} has {v} in field {name}, which is 0 for kind {kind}")
            }
            _ => (),
        }
    }
    match kind {
        8 => format!("step {s} ends the ticket, and is not its last step"),
        _ => format!("step {s} is the last, and does not end the ticket"),
    }
}

/// Cause 6.
fn nothing_or_left(step: Step, s: usize, held: u64) -> String {
    match (s, step.kind) {
        (0, _) => "step 0 takes no bay, and a ticket starts by taking one".into(),
        (_, 8) => format!("step {s} ends the ticket with {} held", named(held)),
        _ => format!("no bay is held at step {s}, which is not the end"),
    }
}

/// Cause 7, which takes and drops alone can fail.
fn out_of_order(step: Step, s: usize, held: u64) -> String {
    let bay = step.a;
    match (step.kind, bays(held).last()) {
        (1, _) if held & bit(bay) != 0 => format!("bay {bay} is held already at step {s}, which takes it"),
        (1, Some(highest)) => format!("bay {bay} is below bay {highest}, which is held at step {s}"),
        _ => format!("bay {bay} is not held at step {s}, which drops it"),
    }
}

/// Cause 8. Of kinds 3 and 7 only a is a word.
fn not_under(step: Step, s: usize, held: u64) -> String {
    let words = [step.a, step.b, step.c];
    let words = &words[..if matches!(step.kind, 4..=6) { 3 } else { 1 }];
    let word = words.iter().find(|&&w| loose(held, w)).unwrap_or(&step.a);
    format!("word {word} is in bay {}, which is not held at step {s}", word / 8)
}

/// The bays of a set, rising.
fn named(set: u64) -> String {
    let names: Vec<String> = bays(set).map(|bay| bay.to_string()).collect();
    match &names[..] {
        [] => "no bay".into(),
        [one] => format!("bay {one}"),
        [others @ .., last] => format!("bays {} and {last}", others.join(", ")),
    }
}
