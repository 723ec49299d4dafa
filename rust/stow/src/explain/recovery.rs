//! A cut and its recovery in words: what was lost, what is done again, what is withdrawn.

use super::phrase::noted;
use crate::language::names::Names;
use crate::player::{Player, Store};
use crate::say::{bays, counted, is_are, listed, step};
use zilpanud::Place;

/// What a cut takes: where the desks stood.
pub fn cut(names: &Names, player: &Player) -> Vec<String> {
    let open: Vec<String> = (0..player.desks).filter_map(|desk| stood(names, player, desk)).collect();
    match open.is_empty() {
        true => vec!["the power goes; all desks are idle, and nothing is lost".to_string()],
        false => {
            let mut said = vec!["the power goes; what the desks were about is lost:".to_string()];
            said.extend(open.into_iter().map(|one| format!("  {one}")));
            said
        }
    }
}

fn stood(names: &Names, player: &Player, desk: usize) -> Option<String> {
    let (at, record) = (player.at(desk)?, player.record(desk)?);
    let instruction = record.steps.get(at.step).copied().unwrap_or(0);
    let begun = match (record.pc, record.number <= record.finished) {
        (_, true) => "finished, but for its last turns",
        (0, false) => "not begun",
        _ => "begun",
    };
    let (number, words) = (at.number, step(names, instruction));
    Some(format!(
        "desk {desk} was at step {} of ticket {number} ({words}), before turn {}; {begun}",
        at.step,
        at.turn + 1
    ))
}

/// What a recovery did, desk by desk.
pub fn recovered(names: &Names, before: &Player, after: &Player, stores: &[Store]) -> Vec<String> {
    let mut said = vec![format!("the recovery makes {}:", counted(stores.len() as u64, "store"))];
    let freed = stores.iter().filter_map(|store| match Place::of(store.index) {
        Some(Place::Owner(bay)) if store.value == 0 => Some(1 << bay),
        _ => None,
    });
    let freed: u64 = freed.fold(0, |all, bay| all | bay);
    if freed != 0 {
        said.push(format!("  {}, which desks meant to have, {} freed", bays(names, freed), is_are(freed)));
    }
    let mut idle = vec![];
    for desk in 0..after.desks {
        match on(names, before, after, desk) {
            Some(lines) => said.extend(lines.into_iter().map(|line| format!("  {line}"))),
            None => idle.push(desk.to_string()),
        }
    }
    match idle.len() {
        0 => {}
        1 => said.push(format!("  desk {} had no ticket", idle[0])),
        _ => said.push(format!("  desks {} had no ticket", listed(idle))),
    }
    said
}

/// How a desk goes on; none if it had no ticket.
fn on(names: &Names, before: &Player, after: &Player, desk: usize) -> Option<Vec<String>> {
    let (was, is) = (before.record(desk)?, after.record(desk)?);
    if was.count == 0 && was.pc == 0 {
        return None;
    }
    let number = was.number;
    let Some(at) = after.at(desk) else {
        return Some(match was.number <= was.finished {
            true => vec![format!("desk {desk}: ticket {number} is finished, and its last store is made")],
            false => vec![
                format!("desk {desk}: ticket {number} was not begun and is withdrawn"),
                "  hand it in again, under the same number".to_string(),
            ],
        });
    };
    let owed = match (is.intent, is.intent.count_ones()) {
        (_, 0) => "is owed no bay".to_string(),
        (mask, 1) => format!("is owed {} and has it again", bays(names, mask)),
        (mask, _) => format!("is owed {} and has them again", bays(names, mask)),
    };
    let (entry, words) = (is.active(), step(names, is.steps.get(at.step).copied().unwrap_or(0)));
    let noted = noted(names, entry.address, entry.value);
    Some(vec![
        format!("desk {desk} {owed}"),
        format!(
            "  ticket {number} goes on at step {} ({words}) with the store that it noted: {noted}",
            at.step
        ),
    ])
}
