//! The program: what it says, and how it ends.

use std::fs;
use std::path::{Path, PathBuf};
use std::process::{Command, Output};

/// A folder with a copy of all that is stored, which goes away with it.
struct Folder(PathBuf);

impl Folder {
    fn new(name: &str) -> Folder {
        let folder = Folder(std::env::temp_dir().join(format!("trials-{name}-{}", std::process::id())));
        let here = Path::new(env!("CARGO_MANIFEST_DIR"));
        fs::create_dir_all(folder.0.join("data")).unwrap();
        fs::create_dir_all(folder.0.join("asked_sweep")).unwrap();
        for file in ["stdout", "stderr", "asked_sweep/stdout"] {
            fs::copy(here.join(file), folder.0.join(file)).unwrap();
        }
        for entry in fs::read_dir(here.join("data")).unwrap() {
            let entry = entry.unwrap();
            fs::copy(entry.path(), folder.0.join("data").join(entry.file_name())).unwrap();
        }
        folder
    }

    /// Changes the first of a text in a file.
    fn change(&self, file: &str, from: &str, to: &str) {
        let path = self.0.join(file);
        let text = fs::read_to_string(&path).unwrap();
        assert!(text.contains(from), "{file} has no {from:?}");
        fs::write(path, text.replacen(from, to, 1)).unwrap();
    }

    fn play(&self, arguments: &[&str]) -> (Option<i32>, String, String) {
        let program = env!("CARGO_BIN_EXE_trials");
        let Output { status, stdout, stderr } =
            Command::new(program).args(arguments).current_dir(&self.0).output().unwrap();
        (status.code(), String::from_utf8(stdout).unwrap(), String::from_utf8(stderr).unwrap())
    }

    /// Both find this difference, and end with 1.
    fn differs(&self, place: &str) {
        for who in ["ours", "twin"] {
            let (status, said, told) = self.play(&[who]);
            assert_eq!((status, said.as_str()), (Some(1), ""), "{told}");
            assert!(told.contains(&format!("\n{place}: ")), "{told}");
        }
    }
}

impl Drop for Folder {
    fn drop(&mut self) {
        let _ = fs::remove_dir_all(&self.0);
    }
}

#[test]
fn both_print_what_is_stored() {
    let folder = Folder::new("same");
    for who in ["ours", "twin"] {
        let said = format!("{who}: 26 scripts and the sweep print what is stored\n");
        assert_eq!(folder.play(&[who]), (Some(0), said, String::new()));
    }
}

#[test]
fn another_digit_is_told() {
    let folder = Folder::new("digit");
    folder.change("stdout", "34365 plays: df259b50dd87e987\n", "34365 plays: df259b50dd87e986\n");
    folder.differs("stdout:2010");
    folder.change("stdout", "df259b50dd87e986", "df259b50dd87e987");
    folder.change("asked_sweep/stdout", "33: finished, refused 3; ", "33: finished, refused 2; ");
    folder.differs("asked_sweep/stdout:35");
}

#[test]
fn a_line_too_few_or_too_many_is_told() {
    let folder = Folder::new("line");
    folder.change("stderr", "bad-item.trial:5: bad line\n", "");
    folder.differs("stderr:6");
    folder.change("data/bad-item.trial", "\nshow words\n", "\nshow answer\n");
    folder.differs("stdout:2023");
}

#[test]
fn a_bad_line_in_another_script_is_told() {
    let folder = Folder::new("bad");
    folder.change("data/listing.trial", "\nimage ", "\nimagine ");
    folder.differs("stderr:1");
}

#[test]
fn scripts_that_are_named_are_shown() {
    let folder = Folder::new("named");
    let script = "image 666 0\nformat 1\none: show answer idle\ntwo: sumbit 0 1\nsay not played\n";
    fs::write(folder.0.join("new.trial"), script).unwrap();
    for who in ["ours", "twin"] {
        let (status, said, told) = folder.play(&[who, "new.trial"]);
        assert_eq!((status, told.as_str()), (Some(1), "new.trial:4: bad line\n"));
        assert_eq!(said, "== new.trial\none: done, all idle\ntwo: ");
    }
    let said = "== data/bad-verb.trial\nbefore\n".to_string();
    let told = "data/bad-verb.trial:5: bad line\n".to_string();
    assert_eq!(folder.play(&["twin", "data/bad-verb.trial"]), (Some(1), said, told));
}

#[test]
fn what_cannot_be_read_ends_with_2() {
    let folder = Folder::new("unread");
    assert_eq!(folder.play(&["ours", "nowhere"]).0, Some(2));
    fs::remove_file(folder.0.join("data/held.trial")).unwrap();
    let (status, _, told) = folder.play(&["twin"]);
    assert!(status == Some(2) && told.starts_with("data/held.trial: "), "{told}");
    for arguments in [&[][..], &["theirs"]] {
        let (status, _, told) = folder.play(arguments);
        assert!(status == Some(2) && told.starts_with("usage: "), "{told}");
    }
}
