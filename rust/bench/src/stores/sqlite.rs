//! SQLite: one row a cell, two updates in one transaction, prepared once. Its integers are signed, so the top is 2^63 − 1.

use super::{Shm, Store};
use std::ffi::{c_char, c_int, c_void, CStr};
use std::ptr::{null, null_mut};

unsafe extern "C" {
    fn sqlite3_open(path: *const c_char, db: *mut *mut c_void) -> c_int;
    fn sqlite3_exec(
        db: *mut c_void,
        sql: *const c_char,
        row: *const c_void,
        of: *mut c_void,
        error: *mut *mut c_char,
    ) -> c_int;
    fn sqlite3_prepare_v2(
        db: *mut c_void,
        sql: *const c_char,
        len: c_int,
        statement: *mut *mut c_void,
        tail: *mut *const c_char,
    ) -> c_int;
    fn sqlite3_step(statement: *mut c_void) -> c_int;
    fn sqlite3_reset(statement: *mut c_void) -> c_int;
    fn sqlite3_column_int64(statement: *mut c_void, column: c_int) -> i64;
    fn sqlite3_finalize(statement: *mut c_void) -> c_int;
    fn sqlite3_close(db: *mut c_void) -> c_int;
    fn sqlite3_libversion() -> *const c_char;
}

const DONE: c_int = 101;
const ROW: c_int = 100;

pub struct Manner {
    name: &'static str,
    set_up: &'static CStr,
}

pub const MANNERS: [Manner; 2] = [
    Manner {
        name: "rollback journal, synchronous FULL (its default)",
        set_up: c"PRAGMA journal_mode = DELETE; PRAGMA synchronous = FULL;",
    },
    Manner {
        name: "write-ahead log, synchronous OFF (its fastest)",
        set_up: c"PRAGMA journal_mode = WAL; PRAGMA synchronous = OFF;",
    },
];

pub struct Sqlite {
    manner: Manner,
    db: *mut c_void,
    /// Begin, take from the first cell, give to the second, commit.
    statements: [*mut c_void; 4],
    _file: Shm,
}

const STATEMENTS: [&CStr; 4] = [
    c"BEGIN IMMEDIATE",
    c"UPDATE cells SET word = max(word, 1) - 1 WHERE cell = 24",
    c"UPDATE cells SET word = min(word, 9223372036854775806) + 1 WHERE cell = 25",
    c"COMMIT",
];

/// A table of 512 cells, the first of a move with plenty (2^62), each other with 0.
const SET_UP: &CStr = c"
    CREATE TABLE cells (cell INTEGER PRIMARY KEY, word INTEGER NOT NULL);
    WITH RECURSIVE n(i) AS (SELECT 0 UNION ALL SELECT i + 1 FROM n WHERE i < 511)
    INSERT INTO cells SELECT i, (i = 24) << 62 FROM n;";

fn prepared(db: *mut c_void, sql: &CStr) -> *mut c_void {
    let mut statement = null_mut();
    let tail = null_mut();
    let answer = unsafe { sqlite3_prepare_v2(db, sql.as_ptr(), -1, &mut statement, tail) };
    assert_eq!(answer, 0, "SQLite does not prepare {sql:?}");
    statement
}

fn execute(db: *mut c_void, sql: &CStr) {
    let answer = unsafe { sqlite3_exec(db, sql.as_ptr(), null(), null_mut(), null_mut()) };
    assert_eq!(answer, 0, "SQLite does not execute {sql:?}");
}

impl Sqlite {
    pub fn new(manner: Manner) -> Sqlite {
        let file = Shm::new("sqlite");
        let mut db = null_mut();
        let answer = unsafe { sqlite3_open(file.c_path().as_ptr().cast(), &mut db) };
        assert_eq!(answer, 0, "SQLite opens no file");
        execute(db, manner.set_up);
        execute(db, SET_UP);
        let statements = STATEMENTS.map(|sql| prepared(db, sql));
        Sqlite { manner, db, statements, _file: file }
    }

    fn word(&self, sql: &CStr) -> u64 {
        let statement = prepared(self.db, sql);
        assert_eq!(unsafe { sqlite3_step(statement) }, ROW);
        let word = unsafe { sqlite3_column_int64(statement, 0) };
        unsafe { sqlite3_finalize(statement) };
        word as u64
    }
}

impl Store for Sqlite {
    fn name(&self) -> String {
        let version = unsafe { CStr::from_ptr(sqlite3_libversion()) };
        format!("SQLite {}, {}", version.to_string_lossy(), self.manner.name)
    }

    fn make_move(&mut self) {
        for statement in self.statements {
            assert_eq!(unsafe { sqlite3_step(statement) }, DONE);
            unsafe { sqlite3_reset(statement) };
        }
    }

    fn cells(&mut self) -> (u64, u64) {
        let first = self.word(c"SELECT word FROM cells WHERE cell = 24");
        (first, self.word(c"SELECT word FROM cells WHERE cell = 25"))
    }
}

impl Drop for Sqlite {
    fn drop(&mut self) {
        for statement in self.statements {
            unsafe { sqlite3_finalize(statement) };
        }
        unsafe { sqlite3_close(self.db) };
    }
}
