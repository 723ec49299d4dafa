//! The commands of `stow`, from their arguments to their status.

use crate::arguments::{flag, value, Arguments, Known};
use crate::commands;
use crate::language::{self, did_you_mean};
use crate::trouble::Trouble;
use std::ffi::OsString;
use std::io::{self, Write};

const USAGE: &str = "\
stow: tickets in words, days explained, boards as pictures

  stow ticket [--anyway] [FILE]         tickets in words to frame lines
  stow words [FILE]                     frame lines to words
  stow explain [--brief|--turns] [DAY]  what happens in a day of frame lines
  stow show [--svg FILE] [--watch] IMAGE
                                        what a board's file shows
  stow waits [--svg FILE] [DAY]         how long desks waited for bays
  stow run [--pause MS] IMAGE [DAY]     plays a day on a board's file
  stow help [language], stow version    these lines, or the language of tickets on a card

Without a FILE or DAY, or with '-' for it, standard input is read. All take --names FILE, with names for words and bays
('let shed = word 24'). The status is 0; 1 if what was given is wrong; 2 if it cannot be had.
stow(1) and docs/STOW.md have examples.
";

/// A command and the options that it has.
struct Command {
    name: &'static str,
    options: &'static [Known],
    files: &'static [&'static str],
    /// The last file may be left out, for standard input.
    reads_input: bool,
    does: fn(&Arguments) -> Result<(), Trouble>,
}

const NAMES: Known = value("--names");
const SVG: Known = value("--svg");

const COMMANDS: [Command; 6] = [
    Command {
        name: "ticket",
        options: &[NAMES, flag("--anyway")],
        files: &["FILE"],
        reads_input: true,
        does: commands::ticket,
    },
    Command { name: "words", options: &[NAMES], files: &["FILE"], reads_input: true, does: commands::words },
    Command {
        name: "explain",
        options: &[NAMES, flag("--brief"), flag("--turns")],
        files: &["DAY"],
        reads_input: true,
        does: commands::explain,
    },
    Command {
        name: "show",
        options: &[NAMES, SVG, flag("--watch")],
        files: &["IMAGE"],
        reads_input: false,
        does: commands::show,
    },
    Command {
        name: "waits",
        options: &[NAMES, SVG],
        files: &["DAY"],
        reads_input: true,
        does: commands::waits,
    },
    Command {
        name: "run",
        options: &[NAMES, value("--pause")],
        files: &["IMAGE", "DAY"],
        reads_input: true,
        does: commands::run,
    },
];

/// Carries a command out; what goes wrong is told on standard error. The status.
pub fn main(arguments: impl IntoIterator<Item = OsString>) -> u8 {
    let (name, done) = command(arguments);
    let Err(trouble) = done else {
        return 0;
    };
    let mut error = io::stderr().lock();
    for line in trouble.lines() {
        let _ = match line.starts_with(' ') {
            true => writeln!(error, "{line}"),
            false if name.is_empty() => writeln!(error, "stow: {line}"),
            false => writeln!(error, "stow {name}: {line}"),
        };
    }
    trouble.status()
}

fn command(arguments: impl IntoIterator<Item = OsString>) -> (String, Result<(), Trouble>) {
    let mut arguments = arguments.into_iter();
    let name = arguments.next().unwrap_or_default().to_string_lossy().into_owned();
    let done = match name.as_str() {
        "help" | "--help" | "-h" => help(arguments.next()),
        "version" | "--version" | "-V" => commands::print(&format!("stow {}\n", env!("CARGO_PKG_VERSION"))),
        "" => Err(Trouble::cannot(format!("what is to be done?\n\n{USAGE}"))),
        _ => match COMMANDS.iter().find(|command| command.name == name) {
            Some(command) => command.carry_out(arguments),
            None => {
                let meant = did_you_mean(&name, COMMANDS.iter().map(|command| command.name));
                let meant = meant.unwrap_or_else(|| "'stow help' lists them".to_string());
                return (
                    String::new(),
                    Err(Trouble::cannot(format!("there is no command '{name}'; {meant}"))),
                );
            }
        },
    };
    (name, done)
}

fn help(about: Option<OsString>) -> Result<(), Trouble> {
    match about.as_ref().map(|about| about.to_string_lossy()).as_deref() {
        None => commands::print(USAGE),
        Some("language") => commands::print(language::CARD),
        Some(about) if COMMANDS.iter().any(|command| command.name == about) => commands::print(USAGE),
        Some(about) => {
            Err(Trouble::cannot(format!("there is no help on '{about}'; 'stow help' lists the commands")))
        }
    }
}

impl Command {
    fn carry_out(&self, arguments: impl IntoIterator<Item = OsString>) -> Result<(), Trouble> {
        let arguments: Vec<OsString> = arguments.into_iter().collect();
        if arguments.iter().any(|argument| argument == "--help" || argument == "-h") {
            return commands::print(USAGE);
        }
        let arguments = Arguments::read(self.options, arguments)?;
        let (least, most) = (self.files.len() - self.reads_input as usize, self.files.len());
        match (least..=most).contains(&arguments.files.len()) {
            true => (self.does)(&arguments),
            false => Err(Trouble::cannot(self.usage())),
        }
    }

    /// `usage: stow run [OPTION ..] IMAGE [DAY]`
    fn usage(&self) -> String {
        let last = self.files.len() - 1;
        let file = |(at, file): (usize, &&str)| match self.reads_input && at == last {
            true => format!(" [{file}]"),
            false => format!(" {file}"),
        };
        let files: String = self.files.iter().enumerate().map(file).collect();
        format!("usage: stow {} [OPTION ..]{files}", self.name)
    }
}
