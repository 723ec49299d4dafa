//! Our engine, through the wrapper crate, against the twin and against stores that others have built. See usage().

mod day;
mod engine;
mod instructions;
mod measure;
mod rows;
mod sections;
mod stores;
mod work;

use engine::{Ours, Twin};
use measure::Measured;
use rows::Row;
use std::env;
use std::os::unix::process::CommandExt;
use std::process::{exit, Command};

const ROUNDS: usize = 201;

/// A whole day takes long: it is measured in fewer rounds.
const DAY_ROUNDS: usize = 21;

fn usage() -> ! {
    eprintln!(
        "usage: bench [rounds]         the tables ({ROUNDS} rounds by default)
       bench instructions     instructions a unit by valgrind, which no other load disturbs
       bench once ROW SIDE N  the work of a row, N times, on 'ours' or 'twin', for a profiler"
    );
    exit(2)
}

/// Times a row on both engines and compares what they leave.
fn compared(row: &Row, rounds: usize) -> Measured {
    let (mut ours, mut twin) = (row.work.clone().on::<Ours>(), row.work.clone().on::<Twin>());
    let measured = measure::compared(&mut |n| ours.batch(n), &mut |n| twin.batch(n), rounds);
    let most = ours.times.max(twin.times);
    ours.batch(most - ours.times);
    twin.batch(most - twin.times);
    if ours.image != twin.image {
        eprintln!("{}: the images differ", row.name);
        exit(1);
    }
    measured
}

const HEAD: &str = "| work | unit | ours, ns | twin, ns | twin time / our time |
|---|---|---:|---:|---:|";

fn table(title: &str, rows: Vec<Row>, rounds: usize) {
    println!("\n{title}\n");
    println!("{HEAD}");
    for row in rows {
        line(&row, &compared(&row, rounds));
    }
}

fn line(Row { name, unit, .. }: &Row, m: &Measured) {
    println!("| {name} | {unit} | {:.2} | {:.2} | {:.2} |", m.first, m.second, m.ratio);
}

/// Whole days: in nanoseconds a frame, and in seconds.
fn days(rounds: usize) {
    println!("\nA recorded day, in {rounds} rounds\n");
    println!("{HEAD}");
    for row in rows::days() {
        let m = compared(&row, rounds);
        line(&row, &m);
        let [ours, twin] = [m.first, m.second].map(|frame| frame * rows::FRAMES as f64 / 1e9);
        println!("\nThe whole day: ours {ours:.4} s, twin {twin:.4} s.");
    }
}

fn tables(rounds: usize) {
    with_pmdk_settings();
    println!(
        "{rounds} rounds a row, ours and the other by turns; times a unit and ratios are medians over them."
    );
    println!("A ratio of 1.00 is equal speed; above 1 ours is faster. Images were compared after each row.");
    table("Ours against the twin", rows::against_twin(), rounds);
    let title = "The cost of a turn, and of a checked step, by workers and by length";
    table(title, rows::by_size(), rounds);
    days(rounds.min(DAY_ROUNDS));
    stores::table(rounds);
}

/// PMDK reads these when it is loaded, before `main`: the program starts itself again with them.
fn with_pmdk_settings() {
    const FORCE: &str = "PMEM_IS_PMEM_FORCE";
    if cfg!(have_pmemobj) && env::var_os(FORCE).is_none() {
        let Ok(program) = env::current_exe() else {
            return;
        };
        let mut again = Command::new(program);
        again.args(env::args_os().skip(1)).env(FORCE, "1").env("PMEM_NO_FLUSH", "1");
        eprintln!("not started again: {}", again.exec());
    }
}

fn once(name: &str, side: &str, times: u64) {
    let row = rows::all().into_iter().find(|r| r.name == name);
    let work = row.unwrap_or_else(|| usage()).work;
    let mut side = match side {
        "ours" => work.on::<Ours>(),
        "twin" => work.on::<Twin>(),
        _ => usage(),
    };
    println!("{} units", side.batch(times));
}

fn main() {
    let args: Vec<String> = env::args().skip(1).collect();
    let args: Vec<&str> = args.iter().map(String::as_str).collect();
    match args[..] {
        ["instructions"] => instructions::table(),
        ["once", row, side, times] => once(row, side, times.parse().unwrap_or_else(|_| usage())),
        [] => tables(ROUNDS),
        [rounds] => tables(rounds.parse().unwrap_or_else(|_| usage())),
        _ => usage(),
    }
}
