//! As much of SQLite as the benchmark needs: a database in memory, and statements that are prepared once.

use std::ffi::{CStr, CString, c_char, c_int, c_void};
use std::ptr;

const ROW: c_int = 100;
const DONE: c_int = 101;

const SINGLE_THREAD: c_int = 1;
const MEMORY_STATUS: c_int = 9;

#[link(name = "sqlite3")]
unsafe extern "C" {
    fn sqlite3_config(option: c_int, ...) -> c_int;
    fn sqlite3_open(name: *const c_char, database: *mut *mut c_void) -> c_int;
    fn sqlite3_close(database: *mut c_void) -> c_int;
    fn sqlite3_errmsg(database: *mut c_void) -> *const c_char;
    fn sqlite3_prepare_v2(
        database: *mut c_void,
        sql: *const c_char,
        len: c_int,
        made: *mut *mut c_void,
        rest: *const c_void,
    ) -> c_int;
    fn sqlite3_finalize(statement: *mut c_void) -> c_int;
    fn sqlite3_bind_int64(statement: *mut c_void, place: c_int, number: i64) -> c_int;
    fn sqlite3_step(statement: *mut c_void) -> c_int;
    fn sqlite3_reset(statement: *mut c_void) -> c_int;
    fn sqlite3_column_int64(statement: *mut c_void, place: c_int) -> i64;
}

/// Its statements have to be dropped first.
pub struct Database(*mut c_void);

pub struct Statement {
    statement: *mut c_void,
    database: *mut c_void,
}

fn expect(database: *mut c_void, holds: bool) {
    // SAFETY: the handle is open, and the message ends with a zero.
    assert!(holds, "{:?}", unsafe { CStr::from_ptr(sqlite3_errmsg(database)) });
}

impl Database {
    /// An empty database, without the locks and counts that one thread alone does not need.
    pub fn in_memory() -> Database {
        let mut database = ptr::null_mut();
        // SAFETY: the name ends with a zero, and SQLite writes a handle, also where it fails. Once it runs it refuses to be configured.
        let code = unsafe {
            sqlite3_config(SINGLE_THREAD);
            sqlite3_config(MEMORY_STATUS, 0 as c_int);
            sqlite3_open(c":memory:".as_ptr(), &mut database)
        };
        expect(database, code == 0);
        Database(database)
    }

    pub fn prepare(&self, sql: &str) -> Statement {
        let text = CString::new(sql).unwrap();
        let mut statement = ptr::null_mut();
        // SAFETY: the handle is open, and the text ends with a zero.
        let code = unsafe { sqlite3_prepare_v2(self.0, text.as_ptr(), -1, &mut statement, ptr::null()) };
        expect(self.0, code == 0);
        Statement { statement, database: self.0 }
    }
}

impl Drop for Database {
    fn drop(&mut self) {
        // SAFETY: the handle is open, and not used again.
        unsafe { sqlite3_close(self.0) };
    }
}

impl Drop for Statement {
    fn drop(&mut self) {
        // SAFETY: the statement is prepared, and not used again.
        unsafe { sqlite3_finalize(self.statement) };
    }
}

impl Statement {
    // Steps to a row, if there is one.
    fn step(&self) -> bool {
        // SAFETY: the statement is prepared.
        let code = unsafe { sqlite3_step(self.statement) };
        expect(self.database, code == ROW || code == DONE);
        code == ROW
    }

    fn bind<const N: usize>(&self, values: [i64; N]) {
        for (place, value) in (1..).zip(values) {
            // SAFETY: the statement is prepared and reset.
            unsafe { sqlite3_bind_int64(self.statement, place, value) };
        }
    }

    fn reset(&self) {
        // SAFETY: the statement is prepared.
        unsafe { sqlite3_reset(self.statement) };
    }

    // The first columns of the row that it stands on. A null reads as 0.
    fn row<const M: usize>(&self) -> [i64; M] {
        // SAFETY: there is a row, and SQLite reads a column that it lacks as a null.
        std::array::from_fn(|place| unsafe { sqlite3_column_int64(self.statement, place as c_int) })
    }

    /// Runs it for what it does.
    pub fn run<const N: usize>(&self, values: [i64; N]) {
        self.bind(values);
        self.step();
        self.reset();
    }

    /// The first row of what it answers, if there is one.
    pub fn first<const N: usize, const M: usize>(&self, values: [i64; N]) -> Option<[i64; M]> {
        self.bind(values);
        let row = self.step().then(|| self.row());
        self.reset();
        row
    }

    /// All its rows.
    pub fn all<const M: usize>(&self) -> Vec<[i64; M]> {
        let rows = std::iter::from_fn(|| self.step().then(|| self.row())).collect();
        self.reset();
        rows
    }
}
