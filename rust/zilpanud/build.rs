//! Links libzilpanud.a: from the folder that ZILPANUD_LIB names, else from the repository's target/staticlib.
//!
//! A relative ZILPANUD_LIB is meant from the folder in which cargo was called. A build script runs in its package's
//! folder and is not told that one; the caller's shell is, and leaves it in PWD. Where PWD does not help, the path is
//! taken from the package's folder. (In a file of cargo's configuration, `relative = true` makes a path whole.)

use std::env;
use std::ffi::OsStr;
use std::fs;
use std::io;
use std::path::{Path, PathBuf};
use std::time::SystemTime;

const ARCHIVE: &str = "libzilpanud.a";

/// The repository, from the package's folder.
const REPOSITORY: &str = "../..";

/// The folders that may have the archive, likeliest first.
fn folders(package: &Path) -> Vec<PathBuf> {
    let Some(named) = env::var_os("ZILPANUD_LIB").map(PathBuf::from) else {
        return vec![package.join(REPOSITORY).join("target/staticlib")];
    };
    if named.is_absolute() {
        return vec![named];
    }
    println!("cargo::rerun-if-env-changed=PWD");
    let called_from = env::var_os("PWD").map(PathBuf::from).filter(|folder| folder.is_absolute());
    let mut folders: Vec<PathBuf> = called_from.into_iter().chain([package.to_path_buf()]).collect();
    folders.dedup();
    folders.iter().map(|folder| folder.join(&named)).collect()
}

fn changed(path: &Path) -> io::Result<SystemTime> {
    fs::metadata(path)?.modified()
}

/// Whether a file is one that the archive is made from.
fn is_source(path: &Path) -> bool {
    ["rt", "antt"].iter().any(|ending| path.extension() == Some(OsStr::new(ending)))
}

/// The folders of the crates' sources, without what rt makes beside them.
fn sources(crates: &Path) -> io::Result<Vec<PathBuf>> {
    let mut folders = Vec::new();
    for entry in fs::read_dir(crates)? {
        let entry = entry?.path();
        let parts = ["src", "specs", "proofs"].iter().map(|part| entry.join(part));
        folders.extend(parts.filter(|part| part.is_dir()));
    }
    Ok(folders)
}

/// A source under a folder that is younger than the archive.
fn younger(folder: &Path, archive: SystemTime) -> io::Result<Option<PathBuf>> {
    for entry in fs::read_dir(folder)? {
        let path = entry?.path();
        let found = match path.is_dir() {
            true => younger(&path, archive)?,
            false if is_source(&path) && changed(&path)? > archive => Some(path),
            false => None,
        };
        if found.is_some() {
            return Ok(found);
        }
    }
    Ok(None)
}

/// Says so if the archive is older than a source. Where the repository is not there, there is nothing to say.
fn compare(archive: &Path, package: &Path) -> io::Result<()> {
    let repository = fs::canonicalize(package.join(REPOSITORY))?;
    let (list, folders) = (repository.join("crates.txt"), sources(&repository.join("crates"))?);
    let made = changed(archive)?;
    for watched in folders.iter().chain([&list]) {
        println!("cargo::rerun-if-changed={}", watched.display());
    }
    let mut found = if changed(&list)? > made { Some(list) } else { None };
    for folder in &folders {
        if found.is_none() {
            found = younger(folder, made)?;
        }
    }
    if let Some(source) = found {
        let source = source.strip_prefix(&repository).unwrap_or(&source).display();
        println!("cargo::warning={ARCHIVE} is older than {source}: run `make library` again");
    }
    Ok(())
}

fn main() {
    println!("cargo::rerun-if-env-changed=ZILPANUD_LIB");
    let package = PathBuf::from(env::var_os("CARGO_MANIFEST_DIR").expect("cargo names the package's folder"));
    let folders = folders(&package);
    let Some(folder) = folders.iter().find(|folder| folder.join(ARCHIVE).is_file()) else {
        let looked: Vec<String> = folders.iter().map(|folder| folder.display().to_string()).collect();
        let looked = looked.join(" or ");
        println!("cargo::error=there is no {ARCHIVE} in {looked}: run `make library` first");
        println!("cargo::error=(or let ZILPANUD_LIB name the folder that has it)");
        return;
    };
    let archive = folder.join(ARCHIVE);
    println!("cargo::rerun-if-changed={}", archive.display());
    let _ = compare(&archive, &package);
    println!("cargo::rustc-link-search=native={}", folder.display());
    println!("cargo::rustc-link-lib=static=zilpanud");
}
