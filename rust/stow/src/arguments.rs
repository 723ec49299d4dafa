//! The arguments of a command: options by name, and files.

use crate::language::did_you_mean;
use crate::trouble::Trouble;
use std::ffi::OsString;
use std::path::PathBuf;

/// An option, and whether a value follows it.
#[derive(Clone, Copy, PartialEq, Eq, Debug)]
pub struct Known {
    pub name: &'static str,
    pub has_value: bool,
}

pub const fn flag(name: &'static str) -> Known {
    Known { name, has_value: false }
}

pub const fn value(name: &'static str) -> Known {
    Known { name, has_value: true }
}

#[derive(Clone, PartialEq, Eq, Debug, Default)]
pub struct Arguments {
    options: Vec<(&'static str, OsString)>,
    pub files: Vec<PathBuf>,
}

impl Arguments {
    /// Reads what stands behind a command. `--` ends the options; `-` alone is a file, standard input.
    pub fn read(known: &[Known], given: impl IntoIterator<Item = OsString>) -> Result<Arguments, Trouble> {
        let (mut arguments, mut given, mut only_files) = (Arguments::default(), given.into_iter(), false);
        while let Some(argument) = given.next() {
            let text = argument.to_string_lossy().into_owned();
            if only_files || !text.starts_with('-') || text == "-" {
                arguments.files.push(argument.into());
            } else if text == "--" {
                only_files = true;
            } else {
                let option = option(known, &text)?;
                let value = match (option.has_value, text.split_once('=')) {
                    (true, Some((_, value))) => value.into(),
                    (true, None) => given
                        .next()
                        .ok_or_else(|| Trouble::cannot(format!("{text} wants a value behind it")))?,
                    (false, None) => OsString::new(),
                    (false, Some(_)) => {
                        return Err(Trouble::cannot(format!("{} takes no value", option.name)))
                    }
                };
                arguments.options.push((option.name, value));
            }
        }
        Ok(arguments)
    }

    pub fn has(&self, name: &str) -> bool {
        self.options.iter().any(|(option, _)| *option == name)
    }

    /// The last value that an option was given.
    pub fn value<'a>(&'a self, name: &'a str) -> Option<&'a OsString> {
        self.values(name).next_back()
    }

    pub fn values<'a>(&'a self, name: &'a str) -> impl DoubleEndedIterator<Item = &'a OsString> {
        self.options.iter().filter(move |(option, _)| *option == name).map(|(_, value)| value)
    }
}

fn option(known: &[Known], text: &str) -> Result<Known, Trouble> {
    let name = text.split('=').next().unwrap_or(text);
    known.iter().copied().find(|option| option.name == name).ok_or_else(|| {
        let meant = did_you_mean(name, known.iter().map(|option| option.name));
        let meant = meant.map_or(String::new(), |meant| format!("; {meant}"));
        Trouble::cannot(format!("there is no option '{name}' here{meant}"))
    })
}

#[cfg(test)]
mod tests {
    use super::*;

    const KNOWN: [Known; 2] = [flag("--brief"), value("--names")];

    fn read(given: &[&str]) -> Result<Arguments, String> {
        Arguments::read(&KNOWN, given.iter().map(OsString::from)).map_err(|trouble| trouble.lines().concat())
    }

    #[test]
    fn options_and_files() {
        let read_all = read(&["--names", "a", "day", "--names=b", "--brief", "-", "--", "--brief"]).unwrap();
        assert_eq!(read_all.values("--names").collect::<Vec<_>>(), ["a", "b"]);
        assert_eq!(read_all.files, ["day", "-", "--brief"].map(PathBuf::from));
        assert!(read_all.has("--brief") && !read(&["day"]).unwrap().has("--brief"));
    }

    #[test]
    fn wrong_options() {
        assert_eq!(
            read(&["--breif"]).unwrap_err(),
            "there is no option '--breif' here; did you mean '--brief'?"
        );
        assert_eq!(read(&["--names"]).unwrap_err(), "--names wants a value behind it");
        assert_eq!(read(&["--brief=1"]).unwrap_err(), "--brief takes no value");
        assert_eq!(read(&["-x"]).unwrap_err(), "there is no option '-x' here");
    }
}
