//! On a terminal: a board that is watched is redrawn when it has changed, within the terminal's size, and a run shows how
//! far it is. The terminal is a pair of Linux's pseudo ones, 12 rows of 60 columns.
#![cfg(target_os = "linux")]

mod common;

use std::ffi::{c_int, c_ulong};
use std::fs::{self, File};
use std::io::Read;
use std::os::fd::AsRawFd;
use std::path::PathBuf;
use std::process::{Command, Stdio};
use std::sync::mpsc::{self, Receiver};
use std::thread;
use std::time::{Duration, Instant};

const ROWS: usize = 12;
const COLUMNS: usize = 60;
const CLEAR: &str = "\x1b[H\x1b[2J";

unsafe extern "C" {
    fn ioctl(file: c_int, request: c_ulong, ...) -> c_int;
}

/// A request of a terminal that reads or writes four numbers of 16 bits, or one of 32.
fn ask(file: &File, request: c_ulong, argument: &mut [u16; 4]) {
    // SAFETY: the requests below read or write no more than these eight bytes, a live reference of its own.
    assert_eq!(unsafe { ioctl(file.as_raw_fd(), request, argument) }, 0);
}

/// A terminal: what is drawn on it comes in pieces, and programs are given its other end.
struct Terminal {
    drawn: Receiver<String>,
    end: File,
}

impl Terminal {
    /// None where the system has no pseudo terminals: then nothing is tried, and that is said.
    fn new() -> Option<Terminal> {
        const TIOCSWINSZ: c_ulong = 0x5414;
        const TIOCGPTN: c_ulong = 0x8004_5430;
        const TIOCSPTLCK: c_ulong = 0x4004_5431;
        let Ok(mut drawing) = File::options().read(true).write(true).open("/dev/ptmx") else {
            println!("there is no /dev/ptmx, and so no terminal to draw on");
            return None;
        };
        let mut number = [0; 4];
        ask(&drawing, TIOCSPTLCK, &mut [0; 4]);
        ask(&drawing, TIOCGPTN, &mut number);
        let path = format!("/dev/pts/{}", (number[1] as u32) << 16 | number[0] as u32);
        let end = File::options().read(true).write(true).open(path).unwrap();
        ask(&end, TIOCSWINSZ, &mut [ROWS as u16, COLUMNS as u16, 0, 0]);
        let (told, drawn) = mpsc::channel();
        thread::spawn(move || {
            let mut piece = [0; 4096];
            while let Ok(length) = drawing.read(&mut piece) {
                if told.send(String::from_utf8_lossy(&piece[..length]).into_owned()).is_err() {
                    break;
                }
            }
        });
        Some(Terminal { drawn, end })
    }

    /// All that is drawn until it has this text; panics after ten seconds.
    fn until(&self, text: &str) -> String {
        let (mut all, start) = (String::new(), Instant::now());
        while !all.contains(text) {
            assert!(start.elapsed() < Duration::from_secs(10), "no '{text}' in {all:?}");
            all += &self.drawn.recv_timeout(Duration::from_millis(100)).unwrap_or_default();
        }
        all
    }
}

fn stow(arguments: &[&str]) -> Command {
    let mut command = Command::new(env!("CARGO_BIN_EXE_stow"));
    command.args(arguments).stdin(Stdio::null()).stdout(Stdio::null()).stderr(Stdio::null());
    command
}

/// A folder with a board of eight desks, each with a ticket that is not begun, and the day that brought them there.
fn board(name: &str) -> (PathBuf, String) {
    let folder = std::env::temp_dir().join(format!("stow-{name}-{}", std::process::id()));
    fs::create_dir_all(&folder).unwrap();
    let tickets: String = (0..8)
        .map(|desk| format!("desk {desk} number 1; take {desk}; word {} := 7; drop {desk}; end\n", 8 * desk))
        .collect();
    let (lines, _) =
        stow::ticket::ticket("", format!("board of 8 desks\n{tickets}").as_bytes(), &mut Default::default())
            .unwrap();
    let (path, day) = (folder.join("board").to_str().unwrap().to_string(), folder.join("first"));
    fs::write(&day, lines).unwrap();
    assert!(stow(&["run", &path, day.to_str().unwrap()]).status().unwrap().success());
    (folder, path)
}

#[test]
fn a_watched_board_is_redrawn() {
    let Some(terminal) = Terminal::new() else { return };
    let (folder, board) = board("watched");
    let mut watching =
        stow(&["show", "--watch", &board]).stdout(terminal.end.try_clone().unwrap()).spawn().unwrap();
    let first = terminal.until("lines more");
    let lines: Vec<&str> = first.strip_prefix(CLEAR).unwrap().trim_end().split("\r\n").collect();
    assert_eq!(lines.len(), ROWS - 1, "{lines:?}");
    assert!(lines.iter().all(|line| line.chars().count() <= COLUMNS));
    assert!(lines[1].starts_with("  desk 0: ticket 1 of 4 steps is handed in"), "{lines:?}");

    let day = folder.join("day");
    fs::write(&day, "08\n03\n").unwrap();
    assert!(stow(&["run", &board, day.to_str().unwrap()]).status().unwrap().success());
    let second = terminal.until("desk 7: idle");
    assert!(
        second.contains(CLEAR) && second.contains("  desk 0: idle; no ticket finished yet"),
        "{second:?}"
    );
    watching.kill().unwrap();
    watching.wait().unwrap();
    fs::remove_dir_all(folder).unwrap();
}

#[test]
fn a_run_shows_how_far_it_is() {
    let Some(terminal) = Terminal::new() else { return };
    let (folder, board) = board("bar");
    let day = folder.join("day");
    fs::write(&day, "08\n040001\n040001\n03\n").unwrap();
    let mut run = stow(&["run", &board, day.to_str().unwrap()]);
    assert!(run.stderr(terminal.end.try_clone().unwrap()).status().unwrap().success());
    let bar = terminal.until("\r\x1b[K");
    assert!(bar.starts_with("\r[##########..............................] 1 of 4 lines\r[####"), "{bar:?}");
    assert!(bar.ends_with("3 of 4 lines\r\x1b[K"), "{bar:?}");
    fs::remove_dir_all(folder).unwrap();
}
