//! What goes wrong, and the status that a command then ends with.

use std::fmt::Display;
use std::io;
use std::path::Path;

/// Why a command ends with another status than 0. It is told on standard error.
#[derive(Debug)]
pub enum Trouble {
    /// What was given is wrong, and the lines say how: 1.
    Wrong(Vec<String>),
    /// The command cannot be carried out: 2.
    Cannot(String),
    /// Nobody reads what is printed any more, as when `head` has had enough: nothing is told.
    Unread,
}

impl Trouble {
    pub fn wrong(line: impl Into<String>) -> Trouble {
        Trouble::Wrong(vec![line.into()])
    }

    pub fn cannot(what: impl Into<String>) -> Trouble {
        Trouble::Cannot(what.into())
    }

    /// What the system says of a file.
    pub fn file(path: &Path, error: &io::Error) -> Trouble {
        Trouble::Cannot(format!("{}: {error}", path.display()))
    }

    pub fn status(&self) -> u8 {
        match self {
            Trouble::Wrong(_) => 1,
            Trouble::Cannot(_) => 2,
            Trouble::Unread => 0,
        }
    }

    /// The lines for standard error.
    pub fn lines(&self) -> Vec<String> {
        match self {
            Trouble::Wrong(lines) => lines.clone(),
            Trouble::Cannot(what) => vec![what.clone()],
            Trouble::Unread => vec![],
        }
    }
}

/// Standard output's troubles.
impl From<io::Error> for Trouble {
    fn from(error: io::Error) -> Trouble {
        match error.kind() {
            io::ErrorKind::BrokenPipe => Trouble::Unread,
            _ => Trouble::Cannot(format!("standard output: {error}")),
        }
    }
}

/// `move.ticket: line 3`, or without a name for standard input.
pub fn located(source: &str, what: impl Display) -> String {
    match source {
        "" => what.to_string(),
        source => format!("{source}: {what}"),
    }
}
