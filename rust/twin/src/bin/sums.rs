//! The sums of the day on standard input: a line of 64 bays' waits, one of 8 desks' turns that waited, one of those that did not.
use std::io::{self, Read, Write};

fn line(name: &str, sums: &[u64]) -> String {
    sums.iter().fold(name.to_string(), |text, sum| format!("{text} {sum}"))
}

fn main() -> io::Result<()> {
    let mut day = Vec::new();
    io::stdin().lock().read_to_end(&mut day)?;
    let sums = twin::days::day_sums(&day);
    let lines = [line("bays", &sums.bays), line("waited", &sums.waited), line("moved", &sums.moved)];
    writeln!(io::stdout(), "{}", lines.join("\n"))
}
