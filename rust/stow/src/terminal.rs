//! What a terminal is told: a text of its size, and a bar.

use std::io::{self, IsTerminal, Write};

/// A text cut to a terminal's size, the last row left free; where rows are left out, the last one says how many.
pub fn fitted(text: &str, (rows, columns): (usize, usize)) -> String {
    let lines: Vec<&str> = text.lines().collect();
    let room = rows.saturating_sub(1).max(1);
    let shown = if lines.len() > room { room - 1 } else { lines.len() };
    let mut fitted: Vec<String> =
        lines[..shown].iter().map(|line| line.chars().take(columns).collect()).collect();
    if shown < lines.len() {
        let more = format!(".. {} lines more", lines.len() - shown);
        fitted.push(more.chars().take(columns).collect());
    }
    fitted.join("\n")
}

/// Clears the screen and draws a text on it.
pub fn redraw(text: &str) -> io::Result<()> {
    let mut out = io::stdout().lock();
    writeln!(out, "\x1b[H\x1b[2J{text}")?;
    out.flush()
}

/// A bar on standard error, if that is a terminal: how much of a whole is done.
pub struct Progress {
    whole: usize,
    shown: Option<usize>,
}

impl Progress {
    const WIDTH: usize = 40;

    pub fn new(whole: usize) -> Progress {
        let shown = io::stderr().is_terminal().then_some(usize::MAX);
        Progress { whole: whole.max(1), shown }
    }

    /// Draws the bar if it has moved since.
    pub fn at(&mut self, done: usize) {
        let Some(shown) = self.shown else {
            return;
        };
        let thousandths = done.min(self.whole) as u128 * 1_000 / self.whole as u128;
        if shown != thousandths as usize {
            self.shown = Some(thousandths as usize);
            let full = Self::WIDTH * thousandths as usize / 1_000;
            let bar = format!("{}{}", "#".repeat(full), ".".repeat(Self::WIDTH - full));
            let _ = write!(io::stderr(), "\r[{bar}] {done} of {} lines", self.whole);
        }
    }
}

/// Takes the bar away.
impl Drop for Progress {
    fn drop(&mut self) {
        if self.shown.is_some_and(|shown| shown != usize::MAX) {
            let _ = write!(io::stderr(), "\r\x1b[K");
        }
    }
}

#[cfg(test)]
mod tests {
    use super::*;

    #[test]
    fn a_text_fits_its_terminal() {
        assert_eq!(fitted("one\ntwo\n", (24, 80)), "one\ntwo");
        assert_eq!(fitted("one\ntwo\nthree\nfour", (4, 2)), "on\ntw\n..");
        assert_eq!(fitted("a\nb\nc", (3, 80)), "a\n.. 2 lines more");
        assert_eq!(fitted("a\nb\nc", (1, 80)), ".. 3 lines more");
        assert_eq!(fitted("", (0, 0)), "");
    }
}
