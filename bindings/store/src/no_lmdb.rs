//! What stands for the store on LMDB where the crate was built without liblmdb: opening it says so.

use std::convert::Infallible;
use std::path::Path;

use crate::store::{Space, Store, StoreError, Transaction};

/// When a commit is on the disk.
#[derive(Clone, Copy, Debug, PartialEq, Eq)]
pub enum Sync {
    /// Before it answers: it outlives the machine.
    EachCommit,
    /// Later: it outlives the process, and a stop of the machine may damage the file.
    Never,
}

/// A store in an LMDB environment, of which there is none: the crate was built without liblmdb.
pub struct LmdbStore(Infallible);

impl LmdbStore {
    /// Fails.
    pub fn open(_: &Path, _: usize, _: Sync) -> Result<Self, StoreError> {
        Err(StoreError("built without LMDB: install liblmdb-dev (`make setup`) and build again, or keep the index in a MemoryStore".into()))
    }
}

impl Store for LmdbStore {
    type Transaction<'a> = LmdbTransaction;

    fn get(&self, _: Space, _: &[u8]) -> Result<Option<Vec<u8>>, StoreError> {
        match self.0 {}
    }

    fn for_each(&self, _: Space, _: &mut dyn FnMut(&[u8], &[u8]) -> Result<(), StoreError>) -> Result<(), StoreError> {
        match self.0 {}
    }

    fn transaction(&mut self) -> Result<LmdbTransaction, StoreError> {
        match self.0 {}
    }
}

/// A transaction of an [`LmdbStore`].
pub struct LmdbTransaction(Infallible);

impl Transaction for LmdbTransaction {
    fn put(&mut self, _: Space, _: &[u8], _: &[u8]) -> Result<(), StoreError> {
        match self.0 {}
    }

    fn remove(&mut self, _: Space, _: &[u8]) -> Result<(), StoreError> {
        match self.0 {}
    }

    fn commit(self) -> Result<(), StoreError> {
        match self.0 {}
    }
}
