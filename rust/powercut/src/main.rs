//! The power-cut trial on a mapped file: a child process makes moves on a board, several workers contending, and is
//! killed at a random moment, of its start and the making of the board too. Then the board is recovered and run until
//! all workers are idle, and each of its 512 cells is compared with what the finished numbers alone say. On the way the
//! board's count of the locks held is compared with its owner words. See usage().

mod board;
mod child;
mod image;
mod moves;
mod rng;
mod trial;

use child::Work;
use std::error::Error;
use std::ffi::OsString;
use std::io::{self, ErrorKind};
use std::path::PathBuf;
use std::process::exit;
use std::time::Instant;
use std::{env, fs, process};
use trial::{Met, Trial};

const KILLS: u64 = 300;
const SEED: u64 = 20_260_714;

fn usage() -> ! {
    eprintln!(
        "usage: powercut [kills [seed]]
  {KILLS} kills and seed {SEED} by default. Exits with 1 at the first difference, which it prints, and where no kill
  fell amid a section or no total stopped at an end, since nothing is then shown. (The seed gives the moves and the
  waits before the kills; where a child then is, is the system's doing.)"
    );
    exit(2)
}

/// A folder of the trial's own, which goes away with it.
struct Folder(PathBuf);

impl Folder {
    /// A further number in its name, since a process of this number may have been killed before it could remove its own.
    fn new() -> io::Result<Folder> {
        let mut further = 0;
        loop {
            let name = format!("zilpanud-powercut-{}-{further}", process::id());
            let folder = env::temp_dir().join(name);
            match fs::create_dir(&folder) {
                Err(error) if error.kind() == ErrorKind::AlreadyExists => further += 1,
                made => return made.map(|()| Folder(folder)),
            }
        }
    }
}

impl Drop for Folder {
    fn drop(&mut self) {
        let _ = fs::remove_dir_all(&self.0);
    }
}

fn all(kills: u64, seed: u64) -> Result<Met, Box<dyn Error>> {
    let folder = Folder::new()?;
    let mut trial = Trial::new(seed, &folder.0);
    for kill in 1..=kills {
        trial.kill().map_err(|error| format!("kill {kill}, seed {seed}: {error}"))?;
    }
    let none = |what| Err(format!("{kills} kills, seed {seed}: {what}, so nothing is shown").into());
    match (trial.met.amid_sections, trial.met.stopped) {
        (0, _) => none("none fell amid a section"),
        (_, 0) => none("no total stopped at an end"),
        _ => Ok(trial.met),
    }
}

fn tell(met: &Met, seed: u64, seconds: f64) {
    let Met { kills, sections, stopped, amid_sections, begun, submitted, .. } = met;
    let Met { amid_recoveries, amid_makings, before_the_file, holding, .. } = met;
    println!(
        "{kills} kills, seed {seed}, {seconds:.1} seconds: {sections} sections finished, each once, {stopped} of them \
         with a total that stopped at an end; {amid_sections} kills fell amid sections ({begun} with one begun, \
         {submitted} with one to withdraw), {amid_recoveries} amid a recovery's stores, {amid_makings} amid the making \
         of a file, {before_the_file} before there was one; {holding} recoveries gave locks back"
    );
}

fn trial(arguments: &[OsString]) -> Result<(), Box<dyn Error>> {
    let number =
        |word: &OsString| word.to_str().and_then(|word| word.parse().ok()).unwrap_or_else(|| usage());
    let (kills, seed) = match arguments {
        [] => (KILLS, SEED),
        [kills] => (number(kills), SEED),
        [kills, seed] => (number(kills), number(seed)),
        _ => usage(),
    };
    let start = Instant::now();
    let met = all(kills, seed)?;
    tell(&met, seed, start.elapsed().as_secs_f64());
    Ok(())
}

fn main() {
    let arguments: Vec<OsString> = env::args_os().skip(1).collect();
    let ended = match arguments.split_first() {
        Some((first, rest)) if first == "child" => {
            Work::of_arguments(rest).unwrap_or_else(|| usage()).forever().map(|never| match never {})
        }
        _ => trial(&arguments),
    };
    if let Err(error) = ended {
        eprintln!("powercut: {error}");
        exit(1);
    }
}
