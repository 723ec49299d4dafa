//! LMDB: one entry a cell; a move reads two and writes two in one transaction.

use super::{Shm, Store, PLENTY};
use std::ffi::{c_char, c_int, c_uint, c_void};
use std::ptr::{null, null_mut};

/// A key or a value: its length and where it is.
#[repr(C)]
struct Val {
    len: usize,
    data: *mut c_void,
}

unsafe extern "C" {
    fn mdb_env_create(env: *mut *mut c_void) -> c_int;
    fn mdb_env_set_mapsize(env: *mut c_void, size: usize) -> c_int;
    fn mdb_env_open(env: *mut c_void, path: *const c_char, flags: c_uint, mode: c_uint) -> c_int;
    fn mdb_env_close(env: *mut c_void);
    fn mdb_txn_begin(env: *mut c_void, parent: *mut c_void, flags: c_uint, txn: *mut *mut c_void) -> c_int;
    fn mdb_txn_commit(txn: *mut c_void) -> c_int;
    fn mdb_dbi_open(txn: *mut c_void, name: *const c_char, flags: c_uint, dbi: *mut c_uint) -> c_int;
    fn mdb_get(txn: *mut c_void, dbi: c_uint, key: *mut Val, value: *mut Val) -> c_int;
    fn mdb_put(txn: *mut c_void, dbi: c_uint, key: *mut Val, value: *mut Val, flags: c_uint) -> c_int;
    fn mdb_version(major: *mut c_int, minor: *mut c_int, patch: *mut c_int) -> *const c_char;
}

const NOSUBDIR: c_uint = 0x4000;
const NOSYNC: c_uint = 0x10000;
const WRITEMAP: c_uint = 0x80000;
const INTEGERKEY: c_uint = 0x08;

pub struct Manner {
    name: &'static str,
    flags: c_uint,
}

/// With its synchronisation, which is its promise against a power cut, and without, which is the fairer row on memory
/// that a battery keeps: there is nothing to wait for then, and its fastest way is measured.
pub const MANNERS: [Manner; 2] = [
    Manner { name: "synchronous (its default)", flags: 0 },
    Manner { name: "MDB_NOSYNC and MDB_WRITEMAP (its fastest)", flags: NOSYNC | WRITEMAP },
];

pub struct Lmdb {
    manner: Manner,
    env: *mut c_void,
    dbi: c_uint,
    _file: Shm,
}

fn right(answer: c_int, call: &str) {
    assert_eq!(answer, 0, "LMDB refuses {call}");
}

fn begun(env: *mut c_void) -> *mut c_void {
    let mut txn = null_mut();
    right(unsafe { mdb_txn_begin(env, null_mut(), 0, &mut txn) }, "mdb_txn_begin");
    txn
}

fn word_of(txn: *mut c_void, dbi: c_uint, mut cell: u64) -> u64 {
    let mut key = Val { len: 8, data: (&raw mut cell).cast() };
    let mut value = Val { len: 0, data: null_mut() };
    right(unsafe { mdb_get(txn, dbi, &mut key, &mut value) }, "mdb_get");
    unsafe { value.data.cast::<u64>().read_unaligned() }
}

fn set_word(txn: *mut c_void, dbi: c_uint, mut cell: u64, mut word: u64) {
    let mut key = Val { len: 8, data: (&raw mut cell).cast() };
    let mut value = Val { len: 8, data: (&raw mut word).cast() };
    right(unsafe { mdb_put(txn, dbi, &mut key, &mut value, 0) }, "mdb_put");
}

impl Lmdb {
    pub fn new(manner: Manner) -> Lmdb {
        let file = Shm::new("lmdb");
        let mut env = null_mut();
        let mut dbi = 0;
        unsafe {
            right(mdb_env_create(&mut env), "mdb_env_create");
            right(mdb_env_set_mapsize(env, 16 << 20), "mdb_env_set_mapsize");
            let path = file.c_path();
            let opened = mdb_env_open(env, path.as_ptr().cast(), NOSUBDIR | manner.flags, 0o600);
            right(opened, "mdb_env_open");
            let txn = begun(env);
            right(mdb_dbi_open(txn, null(), INTEGERKEY, &mut dbi), "mdb_dbi_open");
            (0..512).for_each(|cell| set_word(txn, dbi, cell, if cell == 24 { PLENTY } else { 0 }));
            right(mdb_txn_commit(txn), "mdb_txn_commit");
        }
        Lmdb { manner, env, dbi, _file: file }
    }
}

impl Store for Lmdb {
    fn name(&self) -> String {
        let (mut major, mut minor, mut patch) = (0, 0, 0);
        unsafe { mdb_version(&mut major, &mut minor, &mut patch) };
        format!("LMDB {major}.{minor}.{patch}, {}", self.manner.name)
    }

    fn make_move(&mut self) {
        let (txn, dbi) = (begun(self.env), self.dbi);
        let (from, to) = (word_of(txn, dbi, 24), word_of(txn, dbi, 25));
        set_word(txn, dbi, 24, from.saturating_sub(1));
        set_word(txn, dbi, 25, to.saturating_add(1));
        right(unsafe { mdb_txn_commit(txn) }, "mdb_txn_commit");
    }

    fn cells(&mut self) -> (u64, u64) {
        let (txn, dbi) = (begun(self.env), self.dbi);
        let cells = (word_of(txn, dbi, 24), word_of(txn, dbi, 25));
        right(unsafe { mdb_txn_commit(txn) }, "mdb_txn_commit");
        cells
    }
}

impl Drop for Lmdb {
    fn drop(&mut self) {
        unsafe { mdb_env_close(self.env) };
    }
}
