//! `stow waits`: how long desks waited for bays in a recorded day.

use crate::language::names::{Names, Thing};
use zilpanud::DaySums;

/// Rows under their heads, in columns that are as wide as they must be; the last column, of names, to the left.
fn table<const COLUMNS: usize>(heads: [&str; COLUMNS], rows: &[[String; COLUMNS]]) -> String {
    let mut lines = vec![heads.map(String::from)];
    lines.extend_from_slice(rows);
    let width = |column: usize| lines.iter().map(|line| line[column].chars().count()).max().unwrap_or(0);
    let widths: Vec<usize> = (0..COLUMNS).map(width).collect();
    let mut text = String::new();
    for line in &lines {
        let entries = line.iter().zip(&widths).map(|(entry, &width)| format!("{entry:>width$}"));
        text.push_str(&entries.collect::<Vec<_>>().join("  "));
        text.push('\n');
    }
    text
}

/// A table, or a line if it has no row.
fn table_or<const COLUMNS: usize>(none: &str, heads: [&str; COLUMNS], rows: &[[String; COLUMNS]]) -> String {
    match rows {
        [] => format!("{none}\n"),
        _ => table(heads, rows),
    }
}

/// The bays that were waited for, and the desks that made turns.
pub fn text(sums: &DaySums, names: &Names) -> String {
    let waited_for = (0u16..).zip(sums.locks).filter(|(_, waits)| *waits > 0);
    let name = |bay: u16| names.shown(Thing::Bay(bay)).unwrap_or("").to_string();
    let bays: Vec<(u16, u64)> = waited_for.collect();
    let (none, heads) = ("no bay was waited for", ["bay", "turns that waited for it", "name"]);
    let bays = if bays.iter().any(|(bay, _)| !name(*bay).is_empty()) {
        let rows: Vec<[String; 3]> =
            bays.iter().map(|(bay, waits)| [bay.to_string(), waits.to_string(), name(*bay)]).collect();
        table_or(none, heads, &rows)
    } else {
        let rows: Vec<[String; 2]> =
            bays.iter().map(|(bay, waits)| [bay.to_string(), waits.to_string()]).collect();
        table_or(none, [heads[0], heads[1]], &rows)
    };
    let desks = (0..8).map(|desk| (desk, sums.waited[desk], sums.moved[desk]));
    let desks: Vec<[String; 3]> = desks
        .filter(|(_, waited, moved)| *waited > 0 || *moved > 0)
        .map(|(desk, waited, moved)| [desk.to_string(), waited.to_string(), moved.to_string()])
        .collect();
    let heads = ["desk", "turns that waited", "turns that did not"];
    format!("{bays}\n{}", table_or("no desk made a turn", heads, &desks))
}
