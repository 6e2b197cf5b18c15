//! Where an index is kept between blocks: four maps from keys to values, changed by transactions.

use std::collections::BTreeMap;
use std::fmt;

/// What a store keeps, each in a map of its own.
#[derive(Clone, Copy, Debug, PartialEq, Eq, PartialOrd, Ord, Hash)]
pub enum Space {
    /// Segment rows by row key.
    Rows = 0,
    /// Address records by the address's hash.
    Addresses = 1,
    /// What takes a block back, by height.
    Undo = 2,
    /// The tip.
    Meta = 3,
}

impl Space {
    /// All of them.
    pub const ALL: [Space; 4] = [Space::Rows, Space::Addresses, Space::Undo, Space::Meta];

    /// The name of the map.
    pub const fn name(self) -> &'static str {
        match self {
            Space::Rows => "rows",
            Space::Addresses => "addresses",
            Space::Undo => "undo",
            Space::Meta => "meta",
        }
    }
}

/// Why a store failed.
#[derive(Clone, Debug, PartialEq, Eq)]
pub struct StoreError(pub String);

impl fmt::Display for StoreError {
    fn fmt(&self, f: &mut fmt::Formatter<'_>) -> fmt::Result {
        f.write_str(&self.0)
    }
}

impl std::error::Error for StoreError {}

/// Maps that are changed by transactions: after a commit all changes of a transaction stand; before it, and without it, none.
pub trait Store {
    /// A transaction of this store.
    type Transaction<'a>: Transaction
    where
        Self: 'a;

    /// The value under a key, as the last commit left it.
    fn get(&self, space: Space, key: &[u8]) -> Result<Option<Vec<u8>>, StoreError>;

    /// Every key and value of a map, by ascending key, until one is refused.
    fn for_each(&self, space: Space, found: &mut dyn FnMut(&[u8], &[u8]) -> Result<(), StoreError>) -> Result<(), StoreError>;

    /// Begins the one transaction that there may be at a time. Dropped, it leaves everything as it was.
    fn transaction(&mut self) -> Result<Self::Transaction<'_>, StoreError>;
}

/// Changes that are made together.
pub trait Transaction {
    /// Puts a value under a key.
    fn put(&mut self, space: Space, key: &[u8], value: &[u8]) -> Result<(), StoreError>;

    /// Removes a key, if it is there.
    fn remove(&mut self, space: Space, key: &[u8]) -> Result<(), StoreError>;

    /// Makes all changes.
    fn commit(self) -> Result<(), StoreError>;
}

type Maps = [BTreeMap<Vec<u8>, Vec<u8>>; 4];

/// A store in memory.
#[derive(Clone, Debug, Default, PartialEq, Eq)]
pub struct MemoryStore {
    maps: Maps,
}

impl MemoryStore {
    /// A copy of what another store holds.
    pub fn copy_of(other: &impl Store) -> Result<Self, StoreError> {
        let mut copy = MemoryStore::default();
        for space in Space::ALL {
            other.for_each(space, &mut |key, value| {
                copy.maps[space as usize].insert(key.to_vec(), value.to_vec());
                Ok(())
            })?;
        }
        Ok(copy)
    }

    /// How many keys a map has, and the bytes of its keys and values.
    pub fn size(&self, space: Space) -> (usize, usize) {
        let map = &self.maps[space as usize];
        (map.len(), map.iter().map(|(key, value)| key.len() + value.len()).sum())
    }
}

/// A transaction of a [`MemoryStore`].
pub struct MemoryTransaction<'a> {
    maps: &'a mut Maps,
    changes: Vec<(Space, Vec<u8>, Option<Vec<u8>>)>,
}

impl Store for MemoryStore {
    type Transaction<'a> = MemoryTransaction<'a>;

    fn get(&self, space: Space, key: &[u8]) -> Result<Option<Vec<u8>>, StoreError> {
        Ok(self.maps[space as usize].get(key).cloned())
    }

    fn for_each(&self, space: Space, found: &mut dyn FnMut(&[u8], &[u8]) -> Result<(), StoreError>) -> Result<(), StoreError> {
        self.maps[space as usize].iter().try_for_each(|(key, value)| found(key, value))
    }

    fn transaction(&mut self) -> Result<MemoryTransaction<'_>, StoreError> {
        Ok(MemoryTransaction { maps: &mut self.maps, changes: Vec::new() })
    }
}

impl Transaction for MemoryTransaction<'_> {
    fn put(&mut self, space: Space, key: &[u8], value: &[u8]) -> Result<(), StoreError> {
        self.changes.push((space, key.to_vec(), Some(value.to_vec())));
        Ok(())
    }

    fn remove(&mut self, space: Space, key: &[u8]) -> Result<(), StoreError> {
        self.changes.push((space, key.to_vec(), None));
        Ok(())
    }

    fn commit(self) -> Result<(), StoreError> {
        for (space, key, value) in self.changes {
            let map = &mut self.maps[space as usize];
            match value {
                Some(value) => drop(map.insert(key, value)),
                None => drop(map.remove(&key)),
            }
        }
        Ok(())
    }
}
