//! A run in this process, without the program: when a day is forgotten.

use std::time::Duration;
use stow::day_file;
use stow::language::names::Names;
use stow::run::Run;
use stow::ticket::ticket;
use stow::trouble::Trouble;

/// When it has been told, and not before.
#[test]
fn a_day_that_was_not_told_is_played_on() {
    let folder = std::env::temp_dir().join(format!("stow-told-{}", std::process::id()));
    std::fs::create_dir_all(&folder).unwrap();
    let (path, names) = (folder.join("board"), Names::default());
    let text = "board of 1 desk; desk 0 number 1; take 3; word 24 := 5; drop 3; end; rounds 65535";
    let (day, _) = ticket("", text.as_bytes(), &mut names.clone()).unwrap();
    let run = Run { path: &path, day: day.as_bytes(), source: "", names: &names, pause: Duration::ZERO };
    assert!(run.play(|_| Err(Trouble::Unread)).is_err());
    assert!(day_file::path(&path).exists());
    let played = run.play(|_| Ok(())).unwrap();
    assert!(played.went_on && played.report.finished == 1 && !day_file::path(&path).exists());
    std::fs::remove_dir_all(folder).unwrap();
}
