//! SQLite in memory, with prepared statements and without a journal on disk.

use crate::workload::{sum_of, Operation, Rival, LISTED};
use std::ffi::{c_char, c_int, c_void, CStr, CString};
use std::ptr::{null, null_mut};

#[link(name = "sqlite3")]
extern "C" {
    fn sqlite3_libversion() -> *const c_char;
    fn sqlite3_open(name: *const c_char, db: *mut *mut c_void) -> c_int;
    fn sqlite3_close(db: *mut c_void) -> c_int;
    fn sqlite3_prepare_v2(
        db: *mut c_void,
        sql: *const c_char,
        n: c_int,
        out: *mut *mut c_void,
        tail: *const *const c_char,
    ) -> c_int;
    fn sqlite3_bind_int64(statement: *mut c_void, i: c_int, value: i64) -> c_int;
    fn sqlite3_step(statement: *mut c_void) -> c_int;
    fn sqlite3_column_int64(statement: *mut c_void, i: c_int) -> i64;
    fn sqlite3_reset(statement: *mut c_void) -> c_int;
    fn sqlite3_finalize(statement: *mut c_void) -> c_int;
}

const ROW: c_int = 100;
const DONE: c_int = 101;

/// A prepared statement of numbers.
struct Statement(*mut c_void);

impl Statement {
    fn new(db: *mut c_void, sql: &str) -> Statement {
        let text = CString::new(sql).expect("no zero byte");
        let mut out = null_mut();
        // SAFETY: the database is open and the text ends with a zero.
        let code = unsafe { sqlite3_prepare_v2(db, text.as_ptr(), -1, &mut out, null()) };
        assert_eq!(code, 0, "{sql}");
        Statement(out)
    }

    /// The first column of the first row, or 0.
    fn run(&self, numbers: &[u64]) -> u64 {
        self.bind(numbers);
        let answer = if self.row() { self.column(0) } else { 0 };
        self.reset();
        answer
    }

    /// The sum of the first two columns of all rows.
    fn run_pairs(&self, numbers: &[u64]) -> u64 {
        self.bind(numbers);
        let pair = || self.row().then(|| (self.column(0), self.column(1)));
        let answer = sum_of(std::iter::from_fn(pair));
        self.reset();
        answer
    }

    fn bind(&self, numbers: &[u64]) {
        for (i, n) in numbers.iter().enumerate() {
            // SAFETY: the statement is not finalized before it is dropped.
            unsafe { sqlite3_bind_int64(self.0, i as c_int + 1, *n as i64) };
        }
    }

    /// Whether there is another row.
    fn row(&self) -> bool {
        // SAFETY: as above.
        let code = unsafe { sqlite3_step(self.0) };
        assert!(code == ROW || code == DONE, "sqlite3_step: {code}");
        code == ROW
    }

    /// A column of the row that there is.
    fn column(&self, i: c_int) -> u64 {
        // SAFETY: as above, and the statement stands on a row.
        unsafe { sqlite3_column_int64(self.0, i) as u64 }
    }

    fn reset(&self) {
        // SAFETY: as above.
        unsafe { sqlite3_reset(self.0) };
    }
}

impl Drop for Statement {
    fn drop(&mut self) {
        // SAFETY: made by prepare, finalized once.
        unsafe { sqlite3_finalize(self.0) };
    }
}

pub struct Sqlite {
    statements: [Statement; 7],
    db: *mut c_void,
}

impl Sqlite {
    pub fn new() -> Sqlite {
        let mut db = null_mut();
        // SAFETY: the name ends with a zero.
        let code = unsafe { sqlite3_open(c":memory:".as_ptr(), &mut db) };
        assert_eq!(code, 0);
        for sql in [
            "PRAGMA journal_mode = MEMORY",
            "PRAGMA synchronous = OFF",
            "CREATE TABLE pairs (key INTEGER PRIMARY KEY, value INTEGER)",
        ] {
            Statement::new(db, sql).run(&[]);
        }
        let statements = [
            "BEGIN",
            "COMMIT",
            "SELECT value FROM pairs WHERE key = ?",
            "SELECT key FROM pairs WHERE key > ? ORDER BY key LIMIT 1",
            "SELECT key, value FROM pairs WHERE key >= ? ORDER BY key LIMIT ?",
            "INSERT OR REPLACE INTO pairs VALUES (?, ?)",
            "DELETE FROM pairs WHERE key = ?",
        ]
        .map(|sql| Statement::new(db, sql));
        Sqlite { statements, db }
    }

    pub fn version() -> String {
        // SAFETY: a constant string of the library.
        unsafe { CStr::from_ptr(sqlite3_libversion()) }
            .to_string_lossy()
            .into_owned()
    }
}

impl Rival for Sqlite {
    fn transaction(&mut self, operations: &[Operation]) -> u64 {
        let [begin, commit, lookup, next, list, insert, delete] = &self.statements;
        begin.run(&[]);
        let mut sum = 0u64;
        for operation in operations {
            let answer = match *operation {
                Operation::Lookup(key) => lookup.run(&[key]),
                Operation::Next(key) => next.run(&[key]),
                Operation::List(key) => list.run_pairs(&[key, LISTED as u64]),
                Operation::Insert(key, value) => insert.run(&[key, value]),
                Operation::Delete(key) => delete.run(&[key]),
            };
            sum = sum.wrapping_add(answer);
        }
        commit.run(&[]);
        sum
    }
}

impl Drop for Sqlite {
    fn drop(&mut self) {
        // SAFETY: opened once. Statements still open keep it until they are dropped: it is then closed with the program.
        unsafe { sqlite3_close(self.db) };
    }
}
