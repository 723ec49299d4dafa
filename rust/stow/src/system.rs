//! What is asked of the system and Rust cannot vouch for: all `unsafe` code of the program.

use std::ffi::{c_int, c_ulong};
use std::path::Path;
use zilpanud::{Board, BoardError};

/// The board in a file, recovered, or a new one.
pub fn board(path: &Path, desks: usize) -> Result<Board, BoardError> {
    // SAFETY: one process has a board, by the lock that is asked for here, and this one writes to the file by no other
    // way while it has it. Of all other programs the manual asks it: none may write to the file of a board meanwhile.
    unsafe { Board::open_or_create(path, desks) }
}

/// The rows and columns of the terminal that is standard output; none where there is none, or it does not say.
pub fn terminal_size() -> Option<(usize, usize)> {
    #[repr(C)]
    #[derive(Default)]
    struct Size {
        rows: u16,
        columns: u16,
        width: u16,
        height: u16,
    }
    unsafe extern "C" {
        fn ioctl(file: c_int, request: c_ulong, ...) -> c_int;
    }
    const STANDARD_OUTPUT: c_int = 1;
    #[cfg(target_os = "linux")]
    const TIOCGWINSZ: c_ulong = 0x5413;
    #[cfg(not(target_os = "linux"))]
    const TIOCGWINSZ: c_ulong = 0x4008_7468;
    let mut size = Size::default();
    // SAFETY: the request writes the four numbers of `size`, a live reference of its own, or nothing.
    let answer = unsafe { ioctl(STANDARD_OUTPUT, TIOCGWINSZ, &mut size) };
    (answer == 0 && size.rows > 0 && size.columns > 0).then_some((size.rows as usize, size.columns as usize))
}
