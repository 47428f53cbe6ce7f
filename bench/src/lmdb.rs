//! LMDB on a file system in memory, without sync; read-only transactions are renewed, as its users do.

use crate::workload::{sum_of, Operation, Rival, LISTED};
use std::ffi::{c_char, c_int, c_uint, c_void, CStr, CString};
use std::path::PathBuf;
use std::ptr::null_mut;
use std::sync::atomic::{AtomicUsize, Ordering};

#[repr(C)]
struct Value {
    size: usize,
    data: *mut c_void,
}

#[link(name = "lmdb")]
extern "C" {
    fn mdb_version(major: *mut c_int, minor: *mut c_int, patch: *mut c_int) -> *const c_char;
    fn mdb_env_create(env: *mut *mut c_void) -> c_int;
    fn mdb_env_set_mapsize(env: *mut c_void, bytes: usize) -> c_int;
    fn mdb_env_open(env: *mut c_void, path: *const c_char, flags: c_uint, mode: c_uint) -> c_int;
    fn mdb_env_close(env: *mut c_void);
    fn mdb_txn_begin(
        env: *mut c_void,
        parent: *mut c_void,
        flags: c_uint,
        txn: *mut *mut c_void,
    ) -> c_int;
    fn mdb_txn_commit(txn: *mut c_void) -> c_int;
    fn mdb_txn_abort(txn: *mut c_void);
    fn mdb_txn_reset(txn: *mut c_void);
    fn mdb_txn_renew(txn: *mut c_void) -> c_int;
    fn mdb_dbi_open(
        txn: *mut c_void,
        name: *const c_char,
        flags: c_uint,
        dbi: *mut c_uint,
    ) -> c_int;
    fn mdb_get(txn: *mut c_void, dbi: c_uint, key: *mut Value, value: *mut Value) -> c_int;
    fn mdb_put(
        txn: *mut c_void,
        dbi: c_uint,
        key: *mut Value,
        value: *mut Value,
        flags: c_uint,
    ) -> c_int;
    fn mdb_del(txn: *mut c_void, dbi: c_uint, key: *mut Value, value: *mut Value) -> c_int;
    fn mdb_cursor_open(txn: *mut c_void, dbi: c_uint, cursor: *mut *mut c_void) -> c_int;
    fn mdb_cursor_close(cursor: *mut c_void);
    fn mdb_cursor_get(cursor: *mut c_void, key: *mut Value, value: *mut Value, op: c_uint)
        -> c_int;
}

const NO_SYNC: c_uint = 0x10000;
const READ_ONLY: c_uint = 0x20000;
const INTEGER_KEY: c_uint = 0x08;
const NEXT: c_uint = 8;
const SET_RANGE: c_uint = 17;
const NOT_FOUND: c_int = -30798;

pub struct Lmdb {
    folder: PathBuf,
    env: *mut c_void,
    reader: *mut c_void,
    dbi: c_uint,
}

fn number(n: &mut u64) -> Value {
    Value {
        size: 8,
        data: n as *mut u64 as *mut c_void,
    }
}

fn nothing() -> Value {
    Value {
        size: 0,
        data: null_mut(),
    }
}

/// The number that a found value leads to.
unsafe fn read(value: &Value) -> u64 {
    (value.data as *const u64).read_unaligned()
}

fn fine(code: c_int) {
    assert!(code == 0 || code == NOT_FOUND, "LMDB: {code}");
}

impl Lmdb {
    /// A new database in a folder of its own under /dev/shm.
    pub fn new() -> Lmdb {
        static MADE: AtomicUsize = AtomicUsize::new(0);
        let which = MADE.fetch_add(1, Ordering::Relaxed);
        let folder = PathBuf::from(format!(
            "/dev/shm/gemandrolo-bench-{}-{which}",
            std::process::id()
        ));
        std::fs::create_dir_all(&folder).expect("/dev/shm can be written");
        let path = CString::new(folder.to_str().expect("plain text")).expect("no zero byte");
        let (mut env, mut txn, mut reader, mut dbi) = (null_mut(), null_mut(), null_mut(), 0);
        // SAFETY: each handle is made by the call before.
        unsafe {
            fine(mdb_env_create(&mut env));
            fine(mdb_env_set_mapsize(env, 1 << 28));
            fine(mdb_env_open(env, path.as_ptr(), NO_SYNC, 0o600));
            fine(mdb_txn_begin(env, null_mut(), 0, &mut txn));
            fine(mdb_dbi_open(txn, std::ptr::null(), INTEGER_KEY, &mut dbi));
            fine(mdb_txn_commit(txn));
            fine(mdb_txn_begin(env, null_mut(), READ_ONLY, &mut reader));
            mdb_txn_reset(reader);
        }
        Lmdb {
            folder,
            env,
            reader,
            dbi,
        }
    }

    pub fn version() -> String {
        // SAFETY: a constant string of the library.
        unsafe { CStr::from_ptr(mdb_version(null_mut(), null_mut(), null_mut())) }
            .to_string_lossy()
            .into_owned()
    }

    /// One operation in a transaction under way.
    unsafe fn perform(&self, txn: *mut c_void, operation: Operation) -> u64 {
        let mut out = nothing();
        let code = match operation {
            Operation::Next(key) => {
                let found = Cursor::open(txn, self.dbi).pairs(key + 1).next();
                return found.map_or(0, |(key, _)| key);
            }
            Operation::List(key) => {
                return sum_of(Cursor::open(txn, self.dbi).pairs(key).take(LISTED));
            }
            Operation::Lookup(mut key) => mdb_get(txn, self.dbi, &mut number(&mut key), &mut out),
            Operation::Insert(mut key, mut value) => mdb_put(
                txn,
                self.dbi,
                &mut number(&mut key),
                &mut number(&mut value),
                0,
            ),
            Operation::Delete(mut key) => mdb_del(txn, self.dbi, &mut number(&mut key), null_mut()),
        };
        fine(code);
        match operation {
            Operation::Lookup(_) if code == 0 => read(&out),
            _ => 0,
        }
    }
}

/// A cursor of a transaction under way.
struct Cursor(*mut c_void);

impl Cursor {
    unsafe fn open(txn: *mut c_void, dbi: c_uint) -> Cursor {
        let mut cursor = null_mut();
        fine(mdb_cursor_open(txn, dbi, &mut cursor));
        Cursor(cursor)
    }

    /// The pairs from a key on.
    fn pairs(&self, mut from: u64) -> impl Iterator<Item = (u64, u64)> + '_ {
        let mut way = SET_RANGE;
        std::iter::from_fn(move || self.pair(&mut from, std::mem::replace(&mut way, NEXT)))
    }

    fn pair(&self, from: &mut u64, way: c_uint) -> Option<(u64, u64)> {
        let (mut key, mut value) = (number(from), nothing());
        // SAFETY: the cursor is open, and what it finds is there until the transaction ends.
        unsafe {
            let code = mdb_cursor_get(self.0, &mut key, &mut value, way);
            fine(code);
            (code == 0).then(|| (read(&key), read(&value)))
        }
    }
}

impl Drop for Cursor {
    fn drop(&mut self) {
        // SAFETY: opened once, and closed before its transaction ends.
        unsafe { mdb_cursor_close(self.0) };
    }
}

impl Rival for Lmdb {
    fn transaction(&mut self, operations: &[Operation]) -> u64 {
        let reads = operations.iter().all(|o| o.is_read());
        // SAFETY: the environment is open; a transaction is ended before the next begins.
        unsafe {
            let mut txn = self.reader;
            if reads {
                fine(mdb_txn_renew(txn));
            } else {
                fine(mdb_txn_begin(self.env, null_mut(), 0, &mut txn));
            }
            let sum = operations
                .iter()
                .fold(0u64, |sum, o| sum.wrapping_add(self.perform(txn, *o)));
            if reads {
                mdb_txn_reset(txn);
            } else {
                fine(mdb_txn_commit(txn));
            }
            sum
        }
    }
}

impl Drop for Lmdb {
    fn drop(&mut self) {
        // SAFETY: closed once, after its last transaction.
        unsafe {
            mdb_txn_abort(self.reader);
            mdb_env_close(self.env);
        }
        let _ = std::fs::remove_dir_all(&self.folder);
    }
}
