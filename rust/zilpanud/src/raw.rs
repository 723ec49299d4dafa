//! The exported functions as C sees them. Nothing compares these lines with the library's source but the tests: keep
//! them the same as `include/zilpanud.h`.
//!
//! What a caller owes: a pointer and its length name that many words, or bytes, and no two pointers of a call name the
//! same memory (only args, words and path, which are read alone, may). With a length of 0 the pointer is not read, and
//! any pointer that is not null and is aligned to 8, which one to bytes need not be, will do; that of an empty slice is
//! so.

unsafe extern "C" {
    pub safe fn zilpanud_version() -> u64;
    pub safe fn zilpanud_locks_held(held: u64) -> u64;
    pub fn zilpanud_format(
        image: *mut u64,
        len: usize,
        workers: u64,
        step: *mut [u8; 8],
        turn: *mut [u8; 8],
        held: *mut u64,
        left: *mut u64,
    ) -> u64;
    pub fn zilpanud_check(words: *const u64, count: usize, detail: *mut u64) -> u64;
    pub fn zilpanud_held_sets(words: *const u64, count: usize, sets: *mut [u64; 64], detail: *mut u64)
        -> u64;
    pub fn zilpanud_turns_of_path(
        words: *const u64,
        count: usize,
        path: *const u64,
        path_len: usize,
        turns: *mut u64,
        detail: *mut u64,
    ) -> u64;
    pub fn zilpanud_turns_from(
        words: *const u64,
        count: usize,
        step: u64,
        fewest: *mut u64,
        most: *mut u64,
        detail: *mut u64,
    ) -> u64;
    pub fn zilpanud_submit(
        image: *mut u64,
        len: usize,
        step: *mut [u8; 8],
        turn: *mut [u8; 8],
        held: *mut u64,
        worker: usize,
        number: u64,
        args: *const [u64; 8],
        words: *const u64,
        count: usize,
        left: *mut u64,
        detail: *mut u64,
    ) -> u64;
    pub fn zilpanud_turn(
        image: *mut u64,
        len: usize,
        step: *mut [u8; 8],
        turn: *mut [u8; 8],
        held: *mut u64,
        worker: usize,
        left: *mut u64,
        detail: *mut u64,
    ) -> u64;
    pub fn zilpanud_run(
        image: *mut u64,
        len: usize,
        step: *mut [u8; 8],
        turn: *mut [u8; 8],
        held: *mut u64,
        rounds: u16,
        tally: *mut [u64; 5],
        left: *mut u64,
        detail: *mut u64,
    ) -> u64;
    pub fn zilpanud_recover(
        image: *mut u64,
        len: usize,
        step: *mut [u8; 8],
        turn: *mut [u8; 8],
        held: *mut u64,
        left: *mut u64,
        detail: *mut u64,
    ) -> u64;
    pub fn zilpanud_is_idle(
        image: *const u64,
        len: usize,
        step: *const [u8; 8],
        turn: *const [u8; 8],
        worker: usize,
        answer: *mut u64,
    ) -> u64;
    pub fn zilpanud_finished(image: *const u64, len: usize, worker: usize, number: *mut u64) -> u64;
    pub fn zilpanud_standing(
        image: *const u64,
        len: usize,
        worker: usize,
        number: u64,
        answer: *mut u64,
    ) -> u64;
    pub fn zilpanud_turns_left(
        image: *const u64,
        len: usize,
        worker: usize,
        fewest: *mut u64,
        most: *mut u64,
    ) -> u64;
    pub fn zilpanud_day_sums(
        bytes: *const u8,
        len: usize,
        locks: *mut [u64; 64],
        waited: *mut [u64; 8],
        moved: *mut [u64; 8],
        detail: *mut u64,
    ) -> u64;
}
