//! Rows in an LMDB database, within one transaction and without waiting for the disk.

use crate::cabinet::ROW;
use crate::library::Library;
use crate::work::{Done, below, jump, row_of};
use std::ffi::{CString, c_char, c_int, c_uint, c_void};
use std::path::PathBuf;
use std::ptr::null_mut;
use std::time::Instant;

type Handle = *mut c_void;

const NO_SYNC: c_uint = 0x10000;
const INTEGER_KEY: c_uint = 0x08;

#[repr(C)]
struct Value {
    size: usize,
    data: *mut c_void,
}

struct Lmdb {
    transaction: Handle,
    rows: c_uint,
    put: unsafe extern "C" fn(Handle, c_uint, *mut Value, *mut Value, c_uint) -> c_int,
    get: unsafe extern "C" fn(Handle, c_uint, *mut Value, *mut Value) -> c_int,
    folder: PathBuf,
}

impl Lmdb {
    /// An empty database in a folder of its own, where LMDB is installed.
    fn open() -> Option<Lmdb> {
        let library = Library::open(c"liblmdb.so.0")?;
        let folder = std::env::temp_dir().join(format!("speed-{}", std::process::id()));
        std::fs::create_dir_all(&folder).ok()?;
        let path = CString::new(folder.to_str()?).ok()?;
        let (mut environment, mut transaction, mut rows) = (null_mut(), null_mut(), 0);
        // SAFETY: each type is that of LMDB's function of the name, as its documentation gives it.
        unsafe {
            let create: unsafe extern "C" fn(*mut Handle) -> c_int =
                library.function(c"mdb_env_create")?;
            let size: unsafe extern "C" fn(Handle, usize) -> c_int =
                library.function(c"mdb_env_set_mapsize")?;
            let open: unsafe extern "C" fn(Handle, *const c_char, c_uint, c_uint) -> c_int =
                library.function(c"mdb_env_open")?;
            let begin: unsafe extern "C" fn(Handle, Handle, c_uint, *mut Handle) -> c_int =
                library.function(c"mdb_txn_begin")?;
            let table: unsafe extern "C" fn(Handle, *const c_char, c_uint, *mut c_uint) -> c_int =
                library.function(c"mdb_dbi_open")?;
            let ready = create(&mut environment) == 0
                && size(environment, 1 << 28) == 0
                && open(environment, path.as_ptr(), NO_SYNC, 0o600) == 0
                && begin(environment, null_mut(), 0, &mut transaction) == 0
                && table(transaction, null_mut(), INTEGER_KEY, &mut rows) == 0;
            if !ready {
                return None;
            }
            Some(Lmdb {
                transaction,
                rows,
                put: library.function(c"mdb_put")?,
                get: library.function(c"mdb_get")?,
                folder,
            })
        }
    }

    fn store(&self, number: u64, row: &[u8; ROW]) {
        let mut key = value(&number.to_ne_bytes());
        let mut data = value(row);
        // SAFETY: the transaction is open; key and row are read within the call.
        let status = unsafe { (self.put)(self.transaction, self.rows, &mut key, &mut data, 0) };
        assert_eq!(status, 0, "a row is not stored");
    }

    fn load(&self, number: u64, place: &mut [u8; ROW]) -> bool {
        let mut key = value(&number.to_ne_bytes());
        let mut data = Value {
            size: 0,
            data: null_mut(),
        };
        // SAFETY: the transaction is open, and what was found stays until the next write.
        unsafe {
            if (self.get)(self.transaction, self.rows, &mut key, &mut data) != 0 || data.size != ROW
            {
                return false;
            }
            std::ptr::copy_nonoverlapping(data.data.cast(), place.as_mut_ptr(), ROW);
        }
        true
    }

    fn filled(accounts: u64) -> Option<Lmdb> {
        let lmdb = Lmdb::open()?;
        for number in 0..accounts {
            lmdb.store(number, &row_of(number));
        }
        Some(lmdb)
    }
}

impl Drop for Lmdb {
    fn drop(&mut self) {
        // What stays behind in the folder for temporary files does no harm.
        let _ = std::fs::remove_dir_all(&self.folder);
    }
}

fn value(bytes: &[u8]) -> Value {
    Value {
        size: bytes.len(),
        data: bytes.as_ptr().cast_mut().cast(),
    }
}

pub fn load(accounts: u64, count: u64) -> Option<Done> {
    let lmdb = Lmdb::filled(accounts)?;
    let (mut place, mut at, mut sum) = ([0; ROW], 1, 0);
    let start = Instant::now();
    for _ in 0..count {
        at = jump(at);
        if lmdb.load(below(at, accounts), &mut place) {
            sum += u64::from(place[(at & 127) as usize]);
        }
    }
    Some((sum, start.elapsed()))
}

pub fn store(accounts: u64, count: u64) -> Option<Done> {
    let lmdb = Lmdb::filled(accounts)?;
    let (mut row, mut at) = ([7; ROW], 1);
    let start = Instant::now();
    for i in 0..count {
        at = jump(at);
        row[0] = i as u8;
        lmdb.store(below(at, accounts), &row);
    }
    Some((count, start.elapsed()))
}
