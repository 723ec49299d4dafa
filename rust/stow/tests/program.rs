//! The program itself: what it prints, what it says on standard error, its status; and a run that is killed. (No board is
//! opened in this process: a child that another test has just forked would hold its lock for a moment.)

mod common;

use common::Draw;
use std::fs;
use std::io::Write;
use std::path::PathBuf;
use std::process::{Command, Output, Stdio};
use std::thread;
use std::time::Duration;
use stow::day_file::Underway;
use stow::frame::Frame;
use stow::player::Player;
use zilpanud::{cell_index, Cause};

/// The papers' ticket, five turns, a cut.
const PAPERS: &str =
    "board of 1 desk; desk 0 number 1; take 3; word 24 := 5; drop 3; end; desk 0 turns 5; cut";

/// A folder of a test's own, which goes away with it.
struct Folder(PathBuf);

impl Folder {
    fn new(name: &str) -> Folder {
        let folder = std::env::temp_dir().join(format!("stow-{name}-{}", std::process::id()));
        fs::create_dir_all(&folder).unwrap();
        Folder(folder)
    }

    fn file(&self, name: &str, bytes: impl AsRef<[u8]>) -> String {
        fs::write(self.0.join(name), bytes).unwrap();
        self.path(name)
    }

    fn path(&self, name: &str) -> String {
        self.0.join(name).to_str().unwrap().to_string()
    }
}

impl Drop for Folder {
    fn drop(&mut self) {
        let _ = fs::remove_dir_all(&self.0);
    }
}

fn stow(arguments: &[&str]) -> Command {
    let mut command = Command::new(env!("CARGO_BIN_EXE_stow"));
    command.args(arguments).stdin(Stdio::null()).stdout(Stdio::piped()).stderr(Stdio::piped());
    command
}

/// What it prints, what it says, its status.
fn ended(output: Output) -> (String, String, i32) {
    let text = |bytes| String::from_utf8(bytes).unwrap();
    (text(output.stdout), text(output.stderr), output.status.code().unwrap())
}

/// Waits for a file that a child makes.
fn until_there(path: &str) {
    for _ in 0..4_000 {
        if fs::exists(path).unwrap() {
            return;
        }
        thread::sleep(Duration::from_millis(5));
    }
    panic!("{path} is not made");
}

fn given(arguments: &[&str]) -> (String, String, i32) {
    ended(stow(arguments).output().unwrap())
}

fn given_input(arguments: &[&str], input: &str) -> (String, String, i32) {
    let mut child = stow(arguments).stdin(Stdio::piped()).spawn().unwrap();
    let _ = child.stdin.take().unwrap().write_all(input.as_bytes()); // it may end without reading
    ended(child.wait_with_output().unwrap())
}

#[test]
fn tickets_there_and_back() {
    let (lines, said, status) = given_input(&["ticket"], PAPERS);
    assert_eq!((said.as_str(), status, lines.lines().count()), ("", 0, 4));
    let (words, said, status) = given_input(&["words"], &lines);
    assert_eq!((said.as_str(), status), ("", 0));
    assert_eq!(words.split_whitespace().collect::<Vec<_>>().join(" "), PAPERS.replace(';', ""));
}

#[test]
fn a_refused_ticket_has_no_line() {
    let folder = Folder::new("refused");
    let steps = "desk 0 number 1\ntake 3\nown 0 := 1\nown 0 := 1\nown 0 := 1\nword 32 := 5\ndrop 3\nend\n";
    let file = folder.file("move.ticket", steps);
    let (lines, said, status) = given(&["ticket", &file]);
    let wanted = format!(
        "stow ticket: {file}: line 6: word 32 belongs to bay 4, which is not held here; held: bay 3 (cause 8)\n  \
         take bay 4 before it, or name one of the words 24 to 31 of bay 3\n"
    );
    assert_eq!((lines.as_str(), said.as_str(), status), ("", wanted.as_str(), 1));
    let (lines, said, status) = given(&["ticket", "--anyway", &file]);
    assert_eq!((lines.len(), said.as_str(), status), (148 + 7 * 16 + 1, wanted.as_str(), 1));
}

#[test]
fn names_from_files() {
    let folder = Folder::new("names");
    let names = folder.file("harbour.names", "let shed = word 24\nlet north = bay 3\n");
    let ticket = "desk 0 number 1; take north; shed := 5; drop north; end";
    let (lines, said, status) = given_input(&["ticket", "--names", &names], ticket);
    assert_eq!((said.as_str(), status), ("", 0));
    let (words, ..) = given_input(&["words", "--names", &names], &lines);
    assert_eq!(words, "desk 0 number 1\n  take north\n  shed := 5\n  drop north\n  end\n");
    let no_names = folder.file("no.names", "let shed = word 24\nlet shed = word 25\n");
    let (printed, said, status) = given_input(&["ticket", "--names", &no_names], ticket);
    assert_eq!((printed.as_str(), status), ("", 1));
    assert!(said.contains("no.names: line 2, column 5: 'shed' is word 24 already"), "{said}");
}

/// The stores of the papers' listing, each told beside its line.
#[test]
fn the_papers_day_explained() {
    let (day, ..) = given_input(&["ticket"], PAPERS);
    let (told, said, status) = given_input(&["explain", "--turns"], &day);
    assert_eq!((said.as_str(), status), ("", 0));
    for line in [
        "024e 0000000000000008  desk 0, step 0: means to have bay 3",
        "020b 0000000000000001  desk 0, step 0: has bay 3",
        "0249 8000000000000001  desk 0, step 0: the ticket is begun",
        "020b 0000000000000000  recovery: bay 3 is freed",
        "024e 0000000000000008  recovery: desk 0 means to have what it is owed: bay 3",
        "020b 0000000000000001  recovery: desk 0 has bay 3",
    ] {
        assert!(told.lines().any(|told| told == line), "{line}\n{told}");
    }
    let (brief, ..) = given_input(&["explain", "--brief"], &day);
    let wanted = "line 2: desk 0, ticket 1: begun in line 3, cut and resumed in line 4, under way at the end of the day";
    assert_eq!(brief, format!("{wanted}; 5 turns\n"));
}

#[test]
fn what_is_wrong_is_told_with_a_status() {
    let folder = Folder::new("wrong");
    let (no_day, empty) = (folder.file("day", "01\n0x\n"), folder.file("empty", ""));
    let words = folder.file("words", PAPERS);
    let missing = folder.path("missing");
    for (arguments, status, told) in [
        (&[][..], 2, "what is to be done?"),
        (&["help", "nothing"], 2, "there is no help on 'nothing'"),
        (&["tickte"], 2, "there is no command 'tickte'; did you mean 'ticket'?"),
        (&["show"], 2, "usage: stow show [OPTION ..] IMAGE"),
        (&["run"], 2, "usage: stow run [OPTION ..] IMAGE [DAY]"),
        (&["explain", "a", "b"], 2, "usage: stow explain [OPTION ..] [DAY]"),
        (&["explain", "--breif"], 2, "there is no option '--breif' here; did you mean '--brief'?"),
        (&["explain", "--brief", "--turns"], 2, "--brief and --turns are two different things"),
        (&["explain", &missing], 2, "missing: No such file"),
        (&["explain", &no_day], 1, "line 2 has 'x' at column 2; digits are 0 to 9 and a to f"),
        (&["waits", &no_day], 1, "line 2 is malformed (14)"),
        (&["words", &no_day], 1, "line 2 has 'x' at column 2"),
        (&["ticket", &empty], 1, "there is no ticket in it"),
        (&["explain", &empty], 1, "empty: there is no line in it"),
        (&["words", &empty], 1, "empty: there is no line in it"),
        (&["explain", &words], 1, "a day in words is made to frame lines by 'stow ticket'"),
        (&["show", &empty], 1, "0 bytes are no board; one of 1 to 8 desks has 5328, 5984"),
        (&["show", "--watch", &empty], 2, "--watch draws on a terminal, and standard output is none"),
        (&["run", &missing, &no_day], 1, "line 2 has 'x' at column 2"),
        (&["run", &missing, &empty], 1, "empty: there is no line in it; nothing was played"),
        (&["run", "--pause", "soon", &missing, &no_day], 2, "--pause wants a number of milliseconds"),
    ] {
        let (_, said, ended) = given(arguments);
        assert!(
            ended == status && said.starts_with("stow") && said.contains(told),
            "{arguments:?}: {ended}, {said}"
        );
    }
    assert!(!fs::exists(&missing).unwrap());
}

#[test]
fn help_and_version() {
    let (usage, said, status) = given(&["help"]);
    assert!(usage.starts_with("stow: ") && said.is_empty() && status == 0);
    assert_eq!(given(&["--version"]).0, format!("stow {}\n", env!("CARGO_PKG_VERSION")));
}

#[test]
fn output_that_goes_nowhere() {
    if let Ok(full) = fs::File::options().write(true).open("/dev/full") {
        let output = stow(&["help"]).stdout(full).output().unwrap();
        let (_, said, status) = ended(output);
        assert!(said.starts_with("stow help: standard output: ") && status == 2, "{said}");
    }
    let (day, ..) = given_input(&["ticket"], PAPERS);
    let mut child = stow(&["explain"]).stdin(Stdio::piped()).spawn().unwrap();
    drop(child.stdout.take()); // as when `head` has had enough
    child.stdin.take().unwrap().write_all(day.as_bytes()).unwrap();
    let (_, said, status) = ended(child.wait_with_output().unwrap());
    assert_eq!((said.as_str(), status), ("", 0));
}

#[test]
fn a_board_is_shown_and_not_touched() {
    let folder = Folder::new("show");
    let (board, picture) = (folder.path("harbour.board"), folder.path("harbour.svg"));
    let (day, ..) = given_input(&["ticket"], PAPERS);
    let day = folder.file("day", day);
    let (played, said, status) = given(&["run", &board, &day]);
    assert_eq!((said.as_str(), status), ("", 0));
    let under_way = "the day ends with tickets under way:\n  desk 0 is at step 0 of ticket 1\n";
    assert!(played.ends_with(&format!("1 ticket taken, 0 finished; {under_way}")), "{played}");
    let before = fs::read(&board).unwrap();
    let (shown, said, status) = given(&["show", &board, "--svg", &picture]);
    assert_eq!((said.as_str(), status), ("", 0));
    assert_eq!(fs::read(&board).unwrap(), before);
    for line in [
        "  desk 0: ticket 1 is begun, step 0 of 4 is recorded; no ticket finished yet",
        "    step 0: take 3; it noted 'owns bay 3'",
        "    after a recovery 14 turns are left",
        "  bay 3  desk 0 has it",
    ] {
        assert!(shown.lines().any(|shown| shown == line), "{line}\n{shown}");
    }
    // a ticket that is not begun, which a recovery would withdraw
    let (day, ..) = given_input(&["ticket"], &PAPERS.replace("turns 5; cut", "turns 4"));
    let (other, day) = (folder.path("other.board"), folder.file("other", day));
    assert_eq!(given(&["run", &other, &day]).2, 0);
    let before = fs::read(&other).unwrap();
    assert!(given(&["show", &other]).0.contains("ticket 1 of 4 steps is handed in and not begun"));
    assert_eq!(fs::read(&other).unwrap(), before);

    let drawn = fs::read_to_string(&picture).unwrap();
    assert!(drawn.starts_with("<svg ") && drawn.ends_with("</svg>\n") && drawn.contains("take 3"));
}

#[test]
fn boards_that_a_run_refuses() {
    let folder = Folder::new("refuses");
    let board = folder.path("board");
    let day_of = |desks: u8| folder.file(&format!("day-{desks}"), format!("0{desks}\n04ffff\n"));
    assert_eq!(given(&["run", &board, &day_of(2)]).2, 0);
    let (_, said, status) = given(&["run", &board, &day_of(3)]);
    assert!(
        said.contains("the board has 2 desks, and the day is of 3; nothing was played") && status == 1,
        "{said}"
    );
    let (long, ..) = given_input(&["ticket"], &format!("board of 2 desks; {}", &PAPERS[16..]));
    let mut holder = stow(&["run", "--pause", "60000", &board, &folder.file("long", long)]).spawn().unwrap();
    until_there(&format!("{board}.day"));
    let (_, said, status) = given(&["run", &board, &day_of(2)]);
    assert!(said.contains("another program has this board open") && status == 2, "{said}");
    holder.kill().unwrap();
    holder.wait().unwrap();
    fs::remove_file(format!("{board}.day")).unwrap();
    let mut bytes = fs::read(&board).unwrap();
    bytes[8 * 584] = 1; // the first desk has a ticket of one step
    fs::write(&board, &bytes).unwrap();
    let (_, said, status) = given(&["run", &board, &day_of(2)]);
    assert!(said.contains("refused with 12: desk 0's record is not sound") && status == 1, "{said}");
    assert_eq!(fs::read(&board).unwrap(), bytes);
    assert!(matches!(zilpanud::recover(&mut words(&bytes)).unwrap_err().0, Cause::Record { worker: 0 }));
}

fn words(bytes: &[u8]) -> Vec<u64> {
    bytes.chunks(8).map(|word| u64::from_ne_bytes(word.try_into().unwrap())).collect()
}

/// Runs that are killed, and the same command again until it comes to its end: the file is then that of a run that was
/// not killed.
#[test]
fn a_killed_run_and_the_same_command_again() {
    let (folder, mut draw) = (Folder::new("killed"), Draw(9));
    let mut kills = 0;
    for round in 0..6 {
        let desks = 2 + draw.below(4) as u8;
        let mut frames = common::day(&mut draw, desks, 25);
        frames.push(Frame::Rounds { rounds: u16::MAX });
        let day = folder.file(&format!("day-{round}"), common::bytes(desks, &frames));
        let (whole, killed) =
            (folder.path(&format!("whole-{round}")), folder.path(&format!("killed-{round}")));
        let uninterrupted = given(&["run", &whole, &day]);
        loop {
            let mut child = stow(&["run", "--pause", "1", &killed, &day]).spawn().unwrap();
            // longer and longer, so that a slow machine comes to the day's end too
            thread::sleep(Duration::from_millis(draw.below(100) + 2 * kills));
            child.kill().unwrap();
            let output = child.wait_with_output().unwrap();
            let is_told = !output.stdout.is_empty(); // the day is over; it may not be forgotten yet
            if is_told && !fs::exists(format!("{killed}.day")).unwrap() {
                assert!(output.status.code().is_none_or(|status| status == uninterrupted.2));
                break;
            }
            kills += 1;
            assert!(kills < 300, "the day does not come to its end");
        }
        assert!(fs::read(&killed).unwrap() == fs::read(&whole).unwrap(), "{round}: the board is another");
    }
    assert!(kills > 5, "{kills}");
}

/// A picture is written over nothing but a picture.
#[test]
fn a_picture_is_written_over_nothing_else() {
    let folder = Folder::new("picture");
    let day = folder.file("day", "01\n04ffff\n");
    let (board, picture) = (folder.path("board"), folder.path("picture"));
    assert_eq!(given(&["run", &board, &day]).2, 0);
    let before = fs::read(&board).unwrap();
    for arguments in
        [["show", "--svg", &board, &board], ["waits", "--svg", &board, &day], ["waits", "--svg", &day, &day]]
    {
        let (_, said, status) = given(&arguments);
        assert!(said.contains("this is no picture, and is not written over") && status == 2, "{said}");
    }
    assert!(fs::read(&board).unwrap() == before && fs::read_to_string(&day).unwrap() == "01\n04ffff\n");
    for _ in 0..2 {
        assert_eq!(given(&["show", "--svg", &picture, &board]).2, 0);
    }
    assert!(fs::read(&picture).unwrap().starts_with(b"<svg "));
}

/// A cut of the day's own withdraws a ticket: that is told. A board that is damaged is shown, with status 1.
#[test]
fn what_became_of_the_tickets_is_told() {
    let folder = Folder::new("became");
    let (day, ..) = given_input(&["ticket"], &PAPERS.replace("turns 5", "turns 4"));
    let (board, day) = (folder.path("board"), folder.file("day", day));
    let (played, said, status) = given(&["run", &board, &day]);
    assert_eq!((said.as_str(), status), ("", 0));
    let told = "1 ticket taken, 0 finished, 1 withdrawn; all desks are idle\n  \
                line 4: the cut withdrew ticket 1 of desk 0, which was not begun; hand it in again\n";
    assert!(played.ends_with(told), "{played}");

    let mut bytes = fs::read(&board).unwrap();
    bytes[8 * 584] = 1; // the first desk has a ticket of one step
    fs::write(&board, &bytes).unwrap();
    let (shown, said, status) = given(&["show", &board]);
    assert!(shown.contains("a recovery is refused with 12: desk 0's record is not sound") && status == 1);
    assert!(said.ends_with(": a recovery is refused with 12\n"), "{said}");
}

/// A board that something else put in the place of the one that the day is under way on: no turn is made on it.
#[test]
fn a_cut_day_is_gone_on_with_on_its_own_board_alone() {
    let folder = Folder::new("own-board");
    let (board, path) = (folder.path("board"), folder.0.join("board"));
    let (day, ..) = given_input(&["ticket"], &PAPERS.replace("turns 5; cut", "turns 65535"));
    let kept = Underway { start: Player::fresh(1).unwrap().image, day: day.clone().into_bytes() };
    let day = folder.file("day", day);
    kept.keep(&path).unwrap();
    let (_, said, status) = given(&["run", &board, &day]);
    assert!(said.contains("the board is gone, and a day is under way on it") && status == 1, "{said}");
    assert!(!path.exists());

    let mut other = kept.start.clone();
    other[cell_index(0)] = 9;
    fs::write(&board, other.iter().flat_map(|word| word.to_ne_bytes()).collect::<Vec<u8>>()).unwrap();
    let before = fs::read(&board).unwrap();
    let (_, said, status) = given(&["run", &board, &day]);
    assert!(
        said.contains("cannot be gone on with: word 0 is 9, and the day leaves 0") && status == 1,
        "{said}"
    );
    assert!(said.contains(&format!("remove {board}.day")) && fs::read(&board).unwrap() == before);
    assert!(given(&["show", &board]).0.starts_with("a day is under way on this board: "));
}

/// A day that was cut is not forgotten: another is refused, and by its file it is given up.
#[test]
fn another_day_is_refused_while_one_is_under_way() {
    let folder = Folder::new("another");
    let board = folder.path("board");
    let (day, ..) = given_input(&["ticket"], &PAPERS.replace("turns 5; cut", "turns 65535"));
    let (day, other) = (folder.file("day", day), folder.file("other", "01\n04ffff\n"));
    let mut child = stow(&["run", "--pause", "1000", &board, &day]).spawn().unwrap();
    until_there(&format!("{board}.day"));
    child.kill().unwrap();
    child.wait().unwrap();
    let (_, said, status) = given(&["run", &board, &other]);
    assert!(said.contains("another day was cut on this board, and is not over") && status == 1, "{said}");
    assert!(said.contains(&format!("remove {board}.day")), "{said}");
    let (played, _, status) = given(&["run", &board, &day]);
    assert!(
        played.contains("going on where the day was cut; 1 ticket taken, 1 finished; all desks are idle")
            && status == 0
    );
    let (played, _, status) = given(&["run", &board, &day]);
    assert!(
        played.contains("0 tickets taken, 0 finished, 1 left out, since finished before; all desks are idle")
            && status == 0,
        "{played}"
    );
    assert!(given(&["show", &board]).0.ends_with("board words other than 0\n  word 24 is 5\n"));
}
