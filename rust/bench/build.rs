//! Links each of the stores that are compared where its library is found, and says which were not.

use std::process::Command;

const LIBRARIES: [(&str, &str); 3] =
    [("sqlite3", "libsqlite3-dev"), ("lmdb", "liblmdb-dev"), ("pmemobj", "libpmemobj-dev")];

/// Whether the C compiler's linker would find a library: it then prints a whole path and not the bare name.
fn found(library: &str) -> bool {
    let file = format!("lib{library}.so");
    let asked = Command::new("cc").arg(format!("-print-file-name={file}")).output();
    asked.is_ok_and(|o| o.status.success() && o.stdout.trim_ascii() != file.as_bytes())
}

fn main() {
    println!("cargo::rerun-if-changed=build.rs");
    for (library, package) in LIBRARIES {
        println!("cargo::rustc-check-cfg=cfg(have_{library})");
        if found(library) {
            println!("cargo::rustc-link-lib={library}");
            println!("cargo::rustc-cfg=have_{library}");
        } else {
            println!(
                "cargo::warning=lib{library} is not found, its rows are left out; Debian has it as {package}"
            );
        }
    }
}
