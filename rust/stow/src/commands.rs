//! What each command does, with files and standard input and output.

use crate::arguments::Arguments;
use crate::explain::{End, How};
use crate::frame;
use crate::language::names::Names;
use crate::language::names_file;
use crate::look::Look;
use crate::refusal::of_image;
use crate::run::Run;
use crate::trouble::{located, Trouble};
use crate::{day_file, picture, system, terminal};
use std::fs;
use std::io::{self, BufWriter, IsTerminal, Read, Write};
use std::path::{Path, PathBuf};
use std::thread;
use std::time::Duration;
use zilpanud::{image_len, DayEnd, WORKERS};

/// The bytes of a file, or of standard input, and the name that mistakes are told by.
fn input(file: Option<&PathBuf>) -> Result<(String, Vec<u8>), Trouble> {
    match file.filter(|file| file.as_os_str() != "-") {
        Some(file) => {
            let bytes = fs::read(file).map_err(|error| Trouble::file(file, &error))?;
            Ok((file.display().to_string(), bytes))
        }
        None => {
            let mut bytes = vec![];
            let read = io::stdin().read_to_end(&mut bytes);
            read.map_err(|error| Trouble::cannot(format!("standard input: {error}")))?;
            Ok((String::new(), bytes))
        }
    }
}

fn names(arguments: &Arguments) -> Result<Names, Trouble> {
    let mut names = Names::default();
    for file in arguments.values("--names") {
        let (source, bytes) = input(Some(&file.into()))?;
        names_file(&bytes, &mut names).map_err(|found| crate::ticket::mistakes(&source, &found))?;
    }
    Ok(names)
}

pub fn print(text: &str) -> Result<(), Trouble> {
    let mut out = io::stdout().lock();
    out.write_all(text.as_bytes())?;
    Ok(out.flush()?)
}

pub fn ticket(arguments: &Arguments) -> Result<(), Trouble> {
    let mut names = names(arguments)?;
    let (source, bytes) = input(arguments.files.first())?;
    let (lines, refusals) = crate::ticket::ticket(&source, &bytes, &mut names)?;
    if refusals.is_empty() || arguments.has("--anyway") {
        print(&lines)?;
    }
    match refusals.is_empty() {
        true => Ok(()),
        false => Err(Trouble::Wrong(refusals)),
    }
}

pub fn words(arguments: &Arguments) -> Result<(), Trouble> {
    let names = names(arguments)?;
    let (source, bytes) = input(arguments.files.first())?;
    let (text, trouble) = crate::ticket::words(&source, &bytes, &names);
    print(&text)?;
    trouble.map_or(Ok(()), Err)
}

pub fn explain(arguments: &Arguments) -> Result<(), Trouble> {
    let names = names(arguments)?;
    let (source, day) = input(arguments.files.first())?;
    let how = match (arguments.has("--brief"), arguments.has("--turns")) {
        (true, true) => return Err(Trouble::cannot("--brief and --turns are two different things")),
        (true, false) => How::Brief,
        (false, true) => How::Turns,
        (false, false) => How::Steps,
    };
    let mut out = BufWriter::new(io::stdout().lock());
    let end = crate::explain::explain(&day, &names, how, &mut out)?;
    out.flush()?;
    let what = match end {
        End::Read if day.is_empty() => "there is no line in it".to_string(),
        End::Read => return Ok(()),
        End::Malformed { line, why } => {
            let hint = frame::hint(line, why);
            format!("line {line} {why} (cause 14); nothing behind it is played{hint}")
        }
        End::NoBoard { desks } => {
            format!(
                "line 1: no board has {desks} desks (cause 10): it has 1 to 8; nothing behind it is played"
            )
        }
    };
    Err(Trouble::wrong(located(&source, what)))
}

/// The words of an image's file.
fn image(path: &Path) -> Result<Vec<u64>, Trouble> {
    let bytes = fs::read(path).map_err(|error| Trouble::file(path, &error))?;
    if !(1..=WORKERS).any(|desks| 8 * image_len(desks) == bytes.len()) {
        let lengths: Vec<String> = (1..=WORKERS).map(|desks| (8 * image_len(desks)).to_string()).collect();
        let what =
            format!("{} bytes are no board; one of 1 to 8 desks has {}", bytes.len(), lengths.join(", "));
        return Err(Trouble::wrong(located(&path.display().to_string(), what)));
    }
    Ok(bytes.as_chunks().0.iter().map(|word| u64::from_ne_bytes(*word)).collect())
}

fn look(path: &Path, words: &[u64], names: &Names) -> Result<Look, Trouble> {
    Look::of(words).map_err(|cause| {
        let told = of_image(cause, names);
        let what = format!("refused with {}: {}; {}", cause.number(), told.what, told.remedy);
        Trouble::wrong(located(&path.display().to_string(), what))
    })
}

/// Writes a picture, if one is asked for: whole, and over nothing but another picture.
fn draw(arguments: &Arguments, picture: impl FnOnce() -> String) -> Result<(), Trouble> {
    let Some(file) = arguments.value("--svg").map(Path::new) else {
        return Ok(());
    };
    let is_other = match fs::read(file) {
        Ok(bytes) => !bytes.is_empty() && !bytes.starts_with(b"<svg "),
        Err(error) => error.kind() != io::ErrorKind::NotFound,
    };
    if is_other {
        return Err(Trouble::cannot(format!(
            "{}: this is no picture, and is not written over",
            file.display()
        )));
    }
    let mut other = file.as_os_str().to_os_string();
    other.push(".new");
    let drawn = fs::write(&other, picture()).and_then(|()| fs::rename(&other, file));
    drawn.map_err(|error| Trouble::file(file, &error))
}

/// What a board shows, behind what is to be known of its file.
fn shown(path: &Path, look: &Look, names: &Names) -> String {
    let day = day_file::path(path);
    let under_way = match day.exists() {
        true => format!("a day is under way on this board: {}\n", day.display()),
        false => String::new(),
    };
    under_way + &crate::show::text(look, names)
}

pub fn show(arguments: &Arguments) -> Result<(), Trouble> {
    let names = names(arguments)?;
    let path = arguments.files[0].as_path();
    let title = path.display().to_string();
    if arguments.has("--watch") {
        return watch(arguments, path, &names);
    }
    let look = look(path, &image(path)?, &names)?;
    draw(arguments, || picture::board(&look, &names, &title))?;
    print(&shown(path, &look, &names))?;
    match look.unsound {
        None => Ok(()),
        Some(cause) => Err(Trouble::wrong(format!("{title}: a recovery is refused with {}", cause.number()))),
    }
}

/// Redraws what a board shows whenever it has changed, until the program is ended. A file that cannot be read is waited
/// for, but not at first.
fn watch(arguments: &Arguments, path: &Path, names: &Names) -> Result<(), Trouble> {
    if !io::stdout().is_terminal() {
        return Err(Trouble::cannot("--watch draws on a terminal, and standard output is none"));
    }
    let title = path.display().to_string();
    let mut drawn = String::new();
    loop {
        let seen = image(path).and_then(|words| look(path, &words, names));
        let text = match seen {
            Ok(look) => {
                let text = format!("{title}: {}", shown(path, &look, names));
                if text != drawn {
                    draw(arguments, || picture::board(&look, names, &title))?;
                }
                text
            }
            Err(trouble) if drawn.is_empty() => return Err(trouble),
            Err(trouble) => trouble.lines().join("\n"),
        };
        if text != drawn {
            terminal::redraw(&terminal::fitted(&text, system::terminal_size().unwrap_or((24, 80))))?;
            drawn = text;
        }
        thread::sleep(Duration::from_millis(200));
    }
}

pub fn waits(arguments: &Arguments) -> Result<(), Trouble> {
    let names = names(arguments)?;
    let (source, day) = input(arguments.files.first())?;
    let sums = zilpanud::day_sums(&day);
    draw(arguments, || picture::waits(&sums, &names, &source))?;
    print(&crate::waits::text(&sums, &names))?;
    match sums.end {
        DayEnd::Read => Ok(()),
        end => {
            Err(Trouble::wrong(located(&source, format_args!("{end}; the numbers are those up to there"))))
        }
    }
}

pub fn run(arguments: &Arguments) -> Result<(), Trouble> {
    let pause =
        match arguments.value("--pause").map(|value| value.to_str().and_then(|value| value.parse().ok())) {
            None => Duration::ZERO,
            Some(Some(pause)) => Duration::from_millis(pause),
            Some(None) => return Err(Trouble::cannot("--pause wants a number of milliseconds")),
        };
    let (path, names) = (arguments.files[0].as_path(), names(arguments)?);
    let (source, day) = input(arguments.files.get(1))?;
    let run = Run { path, day: &day, source: &source, names: &names, pause };
    let played = run.play(|played| print(&crate::run::text(path, played)))?;
    match played.report.refused {
        refused if refused.is_empty() => Ok(()),
        refused => Err(Trouble::Wrong(refused)),
    }
}
