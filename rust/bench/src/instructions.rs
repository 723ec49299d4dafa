//! Instructions a unit of work, counted by valgrind: a number that does not change with the machine's other load.

use crate::rows::{self, Row};
use std::env;
use std::process::Command;

/// Instructions that the program executes for a row's work done so many times, and the units of it.
fn counted(name: &str, side: &str, times: u64) -> Option<(f64, f64)> {
    let ran = Command::new("valgrind")
        .args(["--tool=cachegrind", "--cache-sim=no", "--cachegrind-out-file=/dev/null"])
        .arg(env::current_exe().ok()?)
        .args(["once", name, side, &times.to_string()])
        .output()
        .ok()?;
    let told = String::from_utf8_lossy(&ran.stderr).into_owned();
    let refs = told.lines().find(|line| line.contains("refs:"))?;
    let (_, refs) = refs.split_once("refs:")?;
    let refs: String = refs.lines().next()?.chars().filter(char::is_ascii_digit).collect();
    let units = String::from_utf8_lossy(&ran.stdout).split(' ').next()?.parse().ok()?;
    Some((refs.parse().ok()?, units))
}

/// Instructions a unit: the difference between few and many times, so that the start is left out.
fn each(row: &Row, side: &str) -> Option<f64> {
    let (few, many) = row.few_and_many();
    let (few, many) = (counted(&row.name, side, few)?, counted(&row.name, side, many)?);
    Some((many.0 - few.0) / (many.1 - few.1))
}

pub fn table() {
    println!("| work | unit | ours, instructions | twin, instructions | twin / ours |");
    println!("|---|---|---:|---:|---:|");
    for row in rows::all() {
        let name = &row.name;
        let (Some(ours), Some(twin)) = (each(&row, "ours"), each(&row, "twin")) else {
            println!("valgrind did not run: Debian has it as valgrind");
            return;
        };
        println!("| {name} | {} | {ours:.0} | {twin:.0} | {:.2} |", row.unit, twin / ours);
    }
}
