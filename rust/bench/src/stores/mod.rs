//! Whole moves in stores that others have built, each on a file in memory (/dev/shm): an amount goes from one cell, which
//! has plenty, to another, in one transaction, as the section `one_lock_move` does it: the first stops at 0 and the
//! second at the store's largest number. None of them waits for a disk, and neither do we, so what is compared is the
//! work of making a move whole.

#[cfg(have_lmdb)]
mod lmdb;
#[cfg(have_pmemobj)]
mod pmemobj;
#[cfg(have_sqlite3)]
mod sqlite;

use crate::engine::Ours;
use crate::measure;
use crate::sections::one_lock_move;
use crate::work::Work;
use std::path::PathBuf;
use std::process::exit;
use std::sync::atomic::{AtomicUsize, Ordering};

/// What the first cell of a move has at first: more than is ever moved.
pub const PLENTY: u64 = 1 << 62;

/// A store with two cells, the first with `PLENTY` and the second with 0 at first.
pub trait Store {
    fn name(&self) -> String;
    /// Moves 1 from the first cell to the second, in one transaction. Neither goes past an end.
    fn make_move(&mut self);
    fn cells(&mut self) -> (u64, u64);
}

/// A file in memory, removed at the end with those that a store puts beside it.
#[allow(dead_code)] // where no library was found there is no store to make one
pub struct Shm(PathBuf);

#[allow(dead_code)]
impl Shm {
    pub fn new(name: &str) -> Shm {
        static FILES: AtomicUsize = AtomicUsize::new(0);
        let number = FILES.fetch_add(1, Ordering::Relaxed);
        let process = std::process::id();
        let path = format!("/dev/shm/zilpanud-bench-{process}-{number}-{name}");
        Shm(PathBuf::from(path))
    }

    /// The path as C reads it.
    pub fn c_path(&self) -> Vec<u8> {
        let mut path = self.0.as_os_str().as_encoded_bytes().to_vec();
        path.push(0);
        path
    }
}

impl Drop for Shm {
    fn drop(&mut self) {
        for beside in ["", "-journal", "-wal", "-shm", "-lock"] {
            let mut path = self.0.clone().into_os_string();
            path.push(beside);
            let _ = std::fs::remove_file(path);
        }
    }
}

/// The stores whose libraries were found when this program was built.
#[allow(unused_mut)] // where none was found
fn all() -> Vec<Box<dyn Store>> {
    let mut stores: Vec<Box<dyn Store>> = vec![];
    #[cfg(have_sqlite3)]
    for manner in sqlite::MANNERS {
        stores.push(Box::new(sqlite::Sqlite::new(manner)));
    }
    #[cfg(have_lmdb)]
    for manner in lmdb::MANNERS {
        stores.push(Box::new(lmdb::Lmdb::new(manner)));
    }
    #[cfg(have_pmemobj)]
    stores.push(Box::new(pmemobj::Pmemobj::new()));
    stores
}

/// The libraries that were not found.
fn left_out() -> Vec<&'static str> {
    let mut names = vec![];
    if cfg!(not(have_sqlite3)) {
        names.push("SQLite (libsqlite3-dev)");
    }
    if cfg!(not(have_lmdb)) {
        names.push("LMDB (liblmdb-dev)");
    }
    if cfg!(not(have_pmemobj)) {
        names.push("PMDK (libpmemobj-dev)");
    }
    names
}

fn row(mut store: Box<dyn Store>, rounds: usize) {
    let section = one_lock_move();
    let mut ours = Work::Move { section }.on::<Ours>();
    let mut moved = 0u64;
    let mut theirs = |times: u64| {
        (0..times).for_each(|_| store.make_move());
        moved += times;
        times
    };
    let m = measure::compared(&mut |n| ours.batch(n), &mut theirs, rounds);
    // every move took 1 from the first cell and gave it to the second
    let of_ours = (ours.image[8 + 24], ours.image[8 + 25]);
    let (made, name) = (ours.times, store.name());
    if of_ours != (PLENTY - made, made) || store.cells() != (PLENTY - moved, moved) {
        eprintln!("{name}: the cells are not what the moves leave");
        drop(store); // and with it the file
        exit(1);
    }
    println!("| {name} | {:.0} | {:.0} | {:.1} |", m.second, m.first, m.ratio);
}

pub fn table(rounds: usize) {
    println!("\nWhole moves between two cells, in other stores on a file in memory\n");
    println!("| store | its ns a move | our ns a move | store time / our time |");
    println!("|---|---:|---:|---:|");
    all().into_iter().for_each(|store| row(store, rounds));
    for name in left_out() {
        println!("\nLeft out, since its library was not found at the build: {name}.");
    }
}
