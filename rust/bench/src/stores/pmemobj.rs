//! PMDK's libpmemobj: two words of a pool's root, changed in one transaction of its undo log. The program starts itself
//! again with two variables that PMDK reads when it is loaded (see `main`): the pool counts as persistent memory,
//! though it is none, and the caches are not flushed, as memory that a battery keeps with its caches allows and as we
//! do it.

use super::{Shm, Store, PLENTY};
use std::ffi::{c_char, c_int, c_uint, c_void};
use std::ptr::null_mut;

#[repr(C)]
#[derive(Clone, Copy)]
struct Oid {
    pool: u64,
    offset: u64,
}

unsafe extern "C" {
    fn pmemobj_create(path: *const c_char, layout: *const c_char, size: usize, mode: c_uint) -> *mut c_void;
    fn pmemobj_root(pool: *mut c_void, size: usize) -> Oid;
    fn pmemobj_direct(oid: Oid) -> *mut c_void;
    fn pmemobj_tx_begin(pool: *mut c_void, env: *mut c_void, ...) -> c_int;
    fn pmemobj_tx_add_range(oid: Oid, offset: u64, size: usize) -> c_int;
    fn pmemobj_tx_commit();
    fn pmemobj_tx_end() -> c_int;
    fn pmemobj_close(pool: *mut c_void);
}

/// The end of pmemobj_tx_begin's list of locks: none is taken.
const NO_LOCK: c_int = 0;

const CELLS: usize = 512;

pub struct Pmemobj {
    pool: *mut c_void,
    root: Oid,
    cells: *mut u64,
    _file: Shm,
}

impl Pmemobj {
    pub fn new() -> Pmemobj {
        let file = Shm::new("pmemobj");
        let path = file.c_path();
        let layout = c"cells";
        let pool = unsafe { pmemobj_create(path.as_ptr().cast(), layout.as_ptr(), 16 << 20, 0o600) };
        assert!(!pool.is_null(), "PMDK creates no pool");
        let root = unsafe { pmemobj_root(pool, 8 * CELLS) };
        let cells: *mut u64 = unsafe { pmemobj_direct(root) }.cast();
        // SAFETY: the root has 512 words
        unsafe { *cells.add(24) = PLENTY };
        Pmemobj { pool, root, cells, _file: file }
    }

    fn change(&mut self, cell: usize, value: impl Fn(u64) -> u64) {
        let added = unsafe { pmemobj_tx_add_range(self.root, 8 * cell as u64, 8) };
        assert_eq!(added, 0, "PMDK logs no word");
        // SAFETY: the root has 512 words, and the pool is open as long as `self` is
        let word = unsafe { &mut *self.cells.add(cell) };
        *word = value(*word);
    }
}

impl Store for Pmemobj {
    fn name(&self) -> String {
        "PMDK libpmemobj, transaction of its undo log, no cache flush".into()
    }

    fn make_move(&mut self) {
        let begun = unsafe { pmemobj_tx_begin(self.pool, null_mut(), NO_LOCK) };
        assert_eq!(begun, 0, "PMDK begins no transaction");
        self.change(24, |from| from.saturating_sub(1));
        self.change(25, |to| to.saturating_add(1));
        unsafe {
            pmemobj_tx_commit();
            pmemobj_tx_end();
        }
    }

    fn cells(&mut self) -> (u64, u64) {
        unsafe { (*self.cells.add(24), *self.cells.add(25)) }
    }
}

impl Drop for Pmemobj {
    fn drop(&mut self) {
        unsafe { pmemobj_close(self.pool) };
    }
}
