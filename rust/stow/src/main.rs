//! See the library's `cli`, and `stow help`.

use std::env;
use std::process::ExitCode;

fn main() -> ExitCode {
    ExitCode::from(stow::cli::main(env::args_os().skip(1)))
}
