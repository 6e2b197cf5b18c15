//! A store on LMDB, by its C interface (liblmdb 0.9).

use std::ffi::{c_char, c_int, c_uint, c_void, CStr, CString};
use std::path::Path;
use std::ptr;

use crate::store::{Space, Store, StoreError, Transaction};

#[repr(C)]
struct Val {
    size: usize,
    data: *mut c_void,
}

impl Val {
    fn of(bytes: &[u8]) -> Val {
        Val { size: bytes.len(), data: bytes.as_ptr() as *mut c_void }
    }

    fn none() -> Val {
        Val { size: 0, data: ptr::null_mut() }
    }

    /// # Safety
    /// The value came from a transaction that is open as long as the bytes are used.
    unsafe fn bytes<'a>(&self) -> &'a [u8] {
        if self.size == 0 {
            return &[];
        }
        unsafe { std::slice::from_raw_parts(self.data as *const u8, self.size) }
    }
}

extern "C" {
    fn mdb_env_create(env: *mut *mut c_void) -> c_int;
    fn mdb_env_set_mapsize(env: *mut c_void, size: usize) -> c_int;
    fn mdb_env_set_maxdbs(env: *mut c_void, dbs: c_uint) -> c_int;
    fn mdb_env_open(env: *mut c_void, path: *const c_char, flags: c_uint, mode: c_uint) -> c_int;
    fn mdb_env_close(env: *mut c_void);
    fn mdb_txn_begin(env: *mut c_void, parent: *mut c_void, flags: c_uint, txn: *mut *mut c_void) -> c_int;
    fn mdb_txn_commit(txn: *mut c_void) -> c_int;
    fn mdb_txn_abort(txn: *mut c_void);
    fn mdb_txn_reset(txn: *mut c_void);
    fn mdb_txn_renew(txn: *mut c_void) -> c_int;
    fn mdb_dbi_open(txn: *mut c_void, name: *const c_char, flags: c_uint, dbi: *mut c_uint) -> c_int;
    fn mdb_get(txn: *mut c_void, dbi: c_uint, key: *mut Val, data: *mut Val) -> c_int;
    fn mdb_put(txn: *mut c_void, dbi: c_uint, key: *mut Val, data: *mut Val, flags: c_uint) -> c_int;
    fn mdb_del(txn: *mut c_void, dbi: c_uint, key: *mut Val, data: *mut Val) -> c_int;
    fn mdb_cursor_open(txn: *mut c_void, dbi: c_uint, cursor: *mut *mut c_void) -> c_int;
    fn mdb_cursor_get(cursor: *mut c_void, key: *mut Val, data: *mut Val, op: c_uint) -> c_int;
    fn mdb_cursor_close(cursor: *mut c_void);
    fn mdb_strerror(code: c_int) -> *const c_char;
}

const NOT_FOUND: c_int = -30798;
const CREATE: c_uint = 0x40000;
const READ_ONLY: c_uint = 0x20000;
const NO_SYNC: c_uint = 0x10000;
const NO_READ_AHEAD: c_uint = 0x80_0000;
const CURSOR_FIRST: c_uint = 0;
const CURSOR_NEXT: c_uint = 8;

fn ok(code: c_int) -> Result<(), StoreError> {
    if code == 0 {
        return Ok(());
    }
    // SAFETY: mdb_strerror gives a string that lives on.
    Err(StoreError(format!("LMDB: {}", unsafe { CStr::from_ptr(mdb_strerror(code)) }.to_string_lossy())))
}

/// When a commit is on the disk.
#[derive(Clone, Copy, Debug, PartialEq, Eq)]
pub enum Sync {
    /// Before it answers: it outlives the machine.
    EachCommit,
    /// Later: it outlives the process, and a stop of the machine may damage the file.
    Never,
}

/// A store in an LMDB environment. It is used by one thread, and one process may open an environment once at a time.
pub struct LmdbStore {
    env: *mut c_void,
    reader: *mut c_void,
    maps: [c_uint; 4],
}

impl LmdbStore {
    /// Opens or makes the environment in a folder, which may grow to this many bytes.
    pub fn open(folder: &Path, bytes: usize, sync: Sync) -> Result<Self, StoreError> {
        std::fs::create_dir_all(folder).map_err(|error| StoreError(format!("{}: {error}", folder.display())))?;
        let path = CString::new(folder.to_string_lossy().as_bytes()).map_err(|error| StoreError(error.to_string()))?;
        let mut env = ptr::null_mut();
        // SAFETY: the call follows lmdb.h.
        ok(unsafe { mdb_env_create(&mut env) })?;
        // from here on the environment is closed on each way out
        let mut store = LmdbStore { env, reader: ptr::null_mut(), maps: [0; 4] };
        let flags = NO_READ_AHEAD | if sync == Sync::EachCommit { 0 } else { NO_SYNC };
        // SAFETY: an environment is set and opened once, and the maps are opened in one transaction before any other.
        unsafe {
            ok(mdb_env_set_mapsize(env, bytes))?;
            ok(mdb_env_set_maxdbs(env, Space::ALL.len() as c_uint))?;
            ok(mdb_env_open(env, path.as_ptr(), flags, 0o644))?;
            let mut txn = ptr::null_mut();
            ok(mdb_txn_begin(env, ptr::null_mut(), 0, &mut txn))?;
            for space in Space::ALL {
                let name = CString::new(space.name()).expect("a name without a zero");
                if let Err(error) = ok(mdb_dbi_open(txn, name.as_ptr(), CREATE, &mut store.maps[space as usize])) {
                    mdb_txn_abort(txn);
                    return Err(error);
                }
            }
            ok(mdb_txn_commit(txn))?;
            ok(mdb_txn_begin(env, ptr::null_mut(), READ_ONLY, &mut store.reader))?;
        }
        Ok(store)
    }
}

impl Store for LmdbStore {
    type Transaction<'a> = LmdbTransaction<'a>;

    fn get(&self, space: Space, key: &[u8]) -> Result<Option<Vec<u8>>, StoreError> {
        let (mut key, mut value) = (Val::of(key), Val::none());
        // SAFETY: the reader is open, and the value is copied before it is reset.
        unsafe {
            match mdb_get(self.reader, self.maps[space as usize], &mut key, &mut value) {
                NOT_FOUND => Ok(None),
                code => ok(code).map(|()| Some(value.bytes().to_vec())),
            }
        }
    }

    fn for_each(&self, space: Space, found: &mut dyn FnMut(&[u8], &[u8]) -> Result<(), StoreError>) -> Result<(), StoreError> {
        let mut cursor = ptr::null_mut();
        let (mut key, mut value, mut op) = (Val::none(), Val::none(), CURSOR_FIRST);
        // SAFETY: the cursor lives in the open reader and is closed before it ends; `found` has the bytes as long as it is called.
        unsafe {
            ok(mdb_cursor_open(self.reader, self.maps[space as usize], &mut cursor))?;
            let done = loop {
                match mdb_cursor_get(cursor, &mut key, &mut value, op) {
                    0 => {
                        if let Err(error) = found(key.bytes(), value.bytes()) {
                            break Err(error);
                        }
                    }
                    NOT_FOUND => break Ok(()),
                    code => break ok(code),
                }
                op = CURSOR_NEXT;
            };
            mdb_cursor_close(cursor);
            done
        }
    }

    fn transaction(&mut self) -> Result<LmdbTransaction<'_>, StoreError> {
        let mut txn = ptr::null_mut();
        // SAFETY: the reader is given up until the transaction ends, which renews it.
        unsafe {
            mdb_txn_reset(self.reader);
            if let Err(error) = ok(mdb_txn_begin(self.env, ptr::null_mut(), 0, &mut txn)) {
                ok(mdb_txn_renew(self.reader))?;
                return Err(error);
            }
        }
        Ok(LmdbTransaction { store: self, txn })
    }
}

impl Drop for LmdbStore {
    fn drop(&mut self) {
        // SAFETY: the reader is the only open transaction.
        unsafe {
            if !self.reader.is_null() {
                mdb_txn_abort(self.reader);
            }
            mdb_env_close(self.env);
        }
    }
}

/// A transaction of an [`LmdbStore`].
pub struct LmdbTransaction<'a> {
    store: &'a mut LmdbStore,
    txn: *mut c_void,
}

impl Transaction for LmdbTransaction<'_> {
    fn put(&mut self, space: Space, key: &[u8], value: &[u8]) -> Result<(), StoreError> {
        // SAFETY: the transaction is open; key and value are live borrows.
        ok(unsafe { mdb_put(self.txn, self.store.maps[space as usize], &mut Val::of(key), &mut Val::of(value), 0) })
    }

    fn remove(&mut self, space: Space, key: &[u8]) -> Result<(), StoreError> {
        // SAFETY: as for a put.
        match unsafe { mdb_del(self.txn, self.store.maps[space as usize], &mut Val::of(key), ptr::null_mut()) } {
            NOT_FOUND => Ok(()),
            code => ok(code),
        }
    }

    fn commit(mut self) -> Result<(), StoreError> {
        // SAFETY: the transaction ends here, whatever the answer.
        ok(unsafe { mdb_txn_commit(std::mem::replace(&mut self.txn, ptr::null_mut())) })
    }
}

impl Drop for LmdbTransaction<'_> {
    fn drop(&mut self) {
        // SAFETY: a transaction that was not committed is open; the reader was reset when it began.
        unsafe {
            if !self.txn.is_null() {
                mdb_txn_abort(self.txn);
            }
            let renewed = mdb_txn_renew(self.store.reader);
            assert_eq!(renewed, 0, "a reader of an open environment is renewed");
        }
    }
}
