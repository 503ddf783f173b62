//! Rows in an SQLite table in memory, by prepared statements within one transaction.

use crate::cabinet::ROW;
use crate::library::Library;
use crate::work::{Done, below, jump, row_of};
use std::ffi::{CStr, c_char, c_int, c_void};
use std::ptr::{null, null_mut};
use std::time::Instant;

type Handle = *mut c_void;

const ROW_READY: c_int = 100;

struct Sqlite {
    database: Handle,
    exec: unsafe extern "C" fn(Handle, *const c_char, Handle, Handle, *mut Handle) -> c_int,
    prepare: unsafe extern "C" fn(Handle, *const c_char, c_int, *mut Handle, Handle) -> c_int,
    bind_number: unsafe extern "C" fn(Handle, c_int, i64) -> c_int,
    bind_bytes: unsafe extern "C" fn(Handle, c_int, *const u8, c_int, Handle) -> c_int,
    step: unsafe extern "C" fn(Handle) -> c_int,
    reset: unsafe extern "C" fn(Handle) -> c_int,
    bytes: unsafe extern "C" fn(Handle, c_int) -> *const u8,
}

impl Sqlite {
    /// A database in memory with an empty table, where SQLite is installed.
    fn open() -> Option<Sqlite> {
        let library = Library::open(c"libsqlite3.so.0")?;
        let mut database = null_mut();
        // SAFETY: each type is that of SQLite's function of the name, as its documentation gives it.
        let sqlite = unsafe {
            let open: unsafe extern "C" fn(*const c_char, *mut Handle) -> c_int =
                library.function(c"sqlite3_open")?;
            if open(c":memory:".as_ptr(), &mut database) != 0 {
                return None;
            }
            Sqlite {
                database,
                exec: library.function(c"sqlite3_exec")?,
                prepare: library.function(c"sqlite3_prepare_v2")?,
                bind_number: library.function(c"sqlite3_bind_int64")?,
                bind_bytes: library.function(c"sqlite3_bind_blob")?,
                step: library.function(c"sqlite3_step")?,
                reset: library.function(c"sqlite3_reset")?,
                bytes: library.function(c"sqlite3_column_blob")?,
            }
        };
        sqlite.run(c"create table rows (number integer primary key, row blob); begin");
        Some(sqlite)
    }

    fn run(&self, sql: &CStr) {
        // SAFETY: the database is open and the text is a C string.
        let status = unsafe {
            (self.exec)(
                self.database,
                sql.as_ptr(),
                null_mut(),
                null_mut(),
                null_mut(),
            )
        };
        assert_eq!(status, 0, "{sql:?}");
    }

    fn statement(&self, sql: &CStr) -> Handle {
        let mut statement = null_mut();
        // SAFETY: as above; the statement lives as long as the database.
        let status =
            unsafe { (self.prepare)(self.database, sql.as_ptr(), -1, &mut statement, null_mut()) };
        assert_eq!(status, 0, "{sql:?}");
        statement
    }

    fn store(&self, put: Handle, number: u64, row: &[u8; ROW]) {
        // SAFETY: the statement is prepared; the row outlives the step that reads it.
        unsafe {
            (self.bind_number)(put, 1, number as i64);
            (self.bind_bytes)(put, 2, row.as_ptr(), ROW as c_int, null_mut());
            (self.step)(put);
            (self.reset)(put);
        }
    }

    fn load(&self, get: Handle, number: u64, place: &mut [u8; ROW]) -> bool {
        // SAFETY: the statement is prepared; every row of the table has 128 bytes, which stay until the reset.
        unsafe {
            (self.bind_number)(get, 1, number as i64);
            let bytes = if (self.step)(get) == ROW_READY {
                (self.bytes)(get, 0)
            } else {
                null()
            };
            if !bytes.is_null() {
                std::ptr::copy_nonoverlapping(bytes, place.as_mut_ptr(), ROW);
            }
            (self.reset)(get);
            !bytes.is_null()
        }
    }

    fn filled(accounts: u64) -> Option<(Sqlite, Handle)> {
        let sqlite = Sqlite::open()?;
        let put = sqlite.statement(c"insert or replace into rows values (?, ?)");
        for number in 0..accounts {
            sqlite.store(put, number, &row_of(number));
        }
        Some((sqlite, put))
    }
}

pub fn load(accounts: u64, count: u64) -> Option<Done> {
    let (sqlite, _) = Sqlite::filled(accounts)?;
    let get = sqlite.statement(c"select row from rows where number = ?");
    let (mut place, mut at, mut sum) = ([0; ROW], 1, 0);
    let start = Instant::now();
    for _ in 0..count {
        at = jump(at);
        if sqlite.load(get, below(at, accounts), &mut place) {
            sum += u64::from(place[(at & 127) as usize]);
        }
    }
    Some((sum, start.elapsed()))
}

pub fn store(accounts: u64, count: u64) -> Option<Done> {
    let (sqlite, put) = Sqlite::filled(accounts)?;
    let (mut row, mut at) = ([7; ROW], 1);
    let start = Instant::now();
    for i in 0..count {
        at = jump(at);
        row[0] = i as u8;
        sqlite.store(put, below(at, accounts), &row);
    }
    Some((count, start.elapsed()))
}
