//! Stand-in for `redb`: ordered tables in memory, changed by transactions that commit or are dropped.

use std::cell::RefCell;
use std::collections::btree_map::{self, BTreeMap};
use std::collections::BTreeSet;
use std::marker::PhantomData;
use std::path::Path;
use std::rc::Rc;

mod errors;
pub use errors::*;

type Bytes = Rc<[u8]>;
type Rows = BTreeMap<Bytes, Bytes>;

/// What a table's keys and values may be.
pub trait Stored {
    type Of<'a>;
    fn bytes_of(value: Self::Of<'_>) -> Bytes;
    fn of_bytes(bytes: &[u8]) -> Self::Of<'_>;
    /// The row under a key, without a copy of the key where it is bytes already.
    fn row(rows: &Rows, key: Self::Of<'_>) -> Option<Bytes>;
}

impl Stored for &[u8] {
    type Of<'a> = &'a [u8];

    fn bytes_of(value: &[u8]) -> Bytes {
        value.into()
    }

    fn of_bytes(bytes: &[u8]) -> &[u8] {
        bytes
    }

    fn row(rows: &Rows, key: &[u8]) -> Option<Bytes> {
        rows.get(key).cloned()
    }
}

impl Stored for u64 {
    type Of<'a> = u64;

    fn bytes_of(value: u64) -> Bytes {
        value.to_be_bytes().as_slice().into()
    }

    fn of_bytes(bytes: &[u8]) -> u64 {
        u64::from_be_bytes(bytes.try_into().expect("eight bytes"))
    }

    fn row(rows: &Rows, key: u64) -> Option<Bytes> {
        rows.get(key.to_be_bytes().as_slice()).cloned()
    }
}

pub struct TableDefinition<K, V> {
    name: &'static str,
    rows: PhantomData<fn(K) -> V>,
}

impl<K, V> TableDefinition<K, V> {
    pub const fn new(name: &'static str) -> Self {
        Self { name, rows: PhantomData }
    }
}

#[derive(Default)]
pub struct Database {
    tables: Rc<RefCell<BTreeMap<&'static str, Rows>>>,
}

impl Database {
    pub fn create(_: impl AsRef<Path>) -> Result<Self, DatabaseError> {
        Ok(Self::default())
    }

    pub fn begin_write(&self) -> Result<WriteTransaction, TransactionError> {
        Ok(WriteTransaction {
            committed: Rc::clone(&self.tables),
            opened: RefCell::default(),
        })
    }

    pub fn begin_read(&self) -> Result<ReadTransaction, TransactionError> {
        Ok(ReadTransaction {
            tables: self.tables.borrow().clone(),
        })
    }
}

#[derive(Debug, Clone, Copy)]
pub enum Durability {
    None,
    Immediate,
}

pub struct WriteTransaction {
    committed: Rc<RefCell<BTreeMap<&'static str, Rows>>>,
    opened: RefCell<BTreeMap<&'static str, Rc<RefCell<Rows>>>>,
}

impl WriteTransaction {
    pub fn set_durability(&mut self, _: Durability) -> Result<(), SetDurabilityError> {
        Ok(())
    }

    pub fn open_table<K, V>(&self, table: TableDefinition<K, V>) -> Result<Table<K, V>, TableError> {
        let mut opened = self.opened.borrow_mut();
        let rows = opened.entry(table.name).or_insert_with(|| {
            let committed = self.committed.borrow();
            Rc::new(RefCell::new(committed.get(table.name).cloned().unwrap_or_default()))
        });
        Ok(Table {
            rows: Rc::clone(rows),
            below: None,
            removed: BTreeSet::new(),
            of: PhantomData,
        })
    }

    pub fn commit(self) -> Result<(), CommitError> {
        let mut committed = self.committed.borrow_mut();
        for (name, rows) in self.opened.into_inner() {
            committed.insert(name, rows.take());
        }
        Ok(())
    }
}

pub struct ReadTransaction {
    tables: BTreeMap<&'static str, Rows>,
}

impl ReadTransaction {
    pub fn open_table<K, V>(&self, table: TableDefinition<K, V>) -> Result<Table<K, V>, TableError> {
        let rows = self.tables.get(table.name).cloned().unwrap_or_default();
        Ok(Table {
            rows: Rc::new(RefCell::new(rows)),
            below: None,
            removed: BTreeSet::new(),
            of: PhantomData,
        })
    }
}

/// Rows that are kept elsewhere, under those that a table holds.
pub trait Kept {
    fn get(&self, key: &[u8]) -> Option<Vec<u8>>;
}

pub struct Table<K, V> {
    rows: Rc<RefCell<Rows>>,
    below: Option<Box<dyn Kept>>,
    removed: BTreeSet<Bytes>,
    of: PhantomData<fn(K) -> V>,
}

impl<K: Stored, V: Stored> Table<K, V> {
    /// A table that reads the rows kept elsewhere, and holds what changes.
    pub fn over(below: Box<dyn Kept>) -> Self {
        Table {
            rows: Rc::default(),
            below: Some(below),
            removed: BTreeSet::new(),
            of: PhantomData,
        }
    }

    /// What has changed over the rows kept elsewhere, each key with its row or none: it is held no longer.
    pub fn take_changes(&mut self) -> Vec<(Vec<u8>, Option<Vec<u8>>)> {
        let put = self
            .rows
            .take()
            .into_iter()
            .map(|(key, row)| (key.to_vec(), Some(row.to_vec())));
        let removed = std::mem::take(&mut self.removed).into_iter().map(|key| (key.to_vec(), None));
        removed.chain(put).collect()
    }

    pub fn insert<'k, 'v>(&mut self, key: K::Of<'k>, value: V::Of<'v>) -> Result<(), StorageError> {
        let key = K::bytes_of(key);
        if self.below.is_some() {
            self.removed.remove(&key);
        }
        self.rows.borrow_mut().insert(key, V::bytes_of(value));
        Ok(())
    }

    pub fn remove<'k>(&mut self, key: K::Of<'k>) -> Result<bool, StorageError> {
        let key = K::bytes_of(key);
        let held = self.rows.borrow_mut().remove(&key).is_some();
        if self.below.is_some() {
            self.removed.insert(key);
        }
        Ok(held)
    }

    pub fn retain(&mut self, mut keeps: impl for<'f> FnMut(K::Of<'f>, V::Of<'f>) -> bool) -> Result<(), StorageError> {
        self.rows
            .borrow_mut()
            .retain(|key, value| keeps(K::of_bytes(key), V::of_bytes(value)));
        Ok(())
    }
}

pub struct AccessGuard<V> {
    bytes: Bytes,
    of: PhantomData<fn() -> V>,
}

impl<V: Stored> AccessGuard<V> {
    fn new(bytes: Bytes) -> Self {
        Self { bytes, of: PhantomData }
    }

    pub fn value(&self) -> V::Of<'_> {
        V::of_bytes(&self.bytes)
    }
}

pub trait ReadableTable<K: Stored, V: Stored> {
    fn get<'k>(&self, key: K::Of<'k>) -> Result<Option<AccessGuard<V>>, StorageError>;
    fn iter(&self) -> Result<Range<K, V>, StorageError>;
}

impl<K: Stored, V: Stored> Table<K, V> {
    pub fn get<'k>(&self, key: K::Of<'k>) -> Result<Option<AccessGuard<V>>, StorageError> {
        let Some(below) = &self.below else {
            return Ok(K::row(&self.rows.borrow(), key).map(AccessGuard::new));
        };
        let key = K::bytes_of(key);
        let held = self.rows.borrow().get(&key).cloned();
        let kept = || {
            let there = !self.removed.contains(&key);
            there.then(|| below.get(&key)).flatten().map(Bytes::from)
        };
        Ok(held.or_else(kept).map(AccessGuard::new))
    }
}

impl<K: Stored, V: Stored> ReadableTable<K, V> for Table<K, V> {
    fn get<'k>(&self, key: K::Of<'k>) -> Result<Option<AccessGuard<V>>, StorageError> {
        Table::get(self, key)
    }

    fn iter(&self) -> Result<Range<K, V>, StorageError> {
        Ok(Range {
            rows: self.rows.borrow().clone().into_iter(),
            of: PhantomData,
        })
    }
}

pub struct Range<K, V> {
    rows: btree_map::IntoIter<Bytes, Bytes>,
    of: PhantomData<fn(K) -> V>,
}

impl<K: Stored, V: Stored> Iterator for Range<K, V> {
    type Item = Result<(AccessGuard<K>, AccessGuard<V>), StorageError>;

    fn next(&mut self) -> Option<Self::Item> {
        let (key, value) = self.rows.next()?;
        Some(Ok((AccessGuard::new(key), AccessGuard::new(value))))
    }
}
