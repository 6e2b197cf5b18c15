//! Which rows were changed, for a driver that keeps them elsewhere.

use std::collections::{HashMap, HashSet};

use crate::lists::{DeletedSpills, Key, SegmentTable, StagedSpills};

/// A row that was changed since the changes were written last: its bytes now, or nothing where it was removed.
#[derive(Clone, Copy, Debug, PartialEq, Eq)]
pub struct RowChange<'a> {
    /// The row's key.
    pub key: Key,
    /// The row, if there still is one.
    pub row: Option<&'a [u8]>,
}

/// Keys of rows that were flushed since the changes were written last.
#[derive(Clone, Default)]
pub(super) struct Changes {
    pub(super) noted: HashSet<Key>,
    /// The staged and deleted rows have been written already.
    pub(super) written: bool,
}

impl Changes {
    /// What a flush is about to change.
    pub(super) fn note_flush(&mut self, staged: &StagedSpills, deleted: &DeletedSpills) {
        if !self.written {
            self.noted.extend(staged.iter().map(|(key, _)| key));
            self.noted.extend(deleted.iter());
        }
        self.written = false;
    }

    /// Before calls that flush and then take rows back: a row that was written while it was staged may go.
    pub(super) fn note_undo(&mut self, staged: &StagedSpills, deleted: &DeletedSpills) {
        self.written = false;
        self.note_flush(staged, deleted);
    }

    /// What is different between a table before and after calls that flushed on their own.
    pub(super) fn note_difference(&mut self, before: &SegmentTable, after: &SegmentTable) {
        let mut gone: HashMap<Key, &[u8]> = before.iter().collect();
        for (key, row) in after.iter() {
            if gone.remove(&key) != Some(row) {
                self.noted.insert(key);
            }
        }
        self.noted.extend(gone.into_keys());
    }

    /// Every changed row as it stands now: as a flush would leave it.
    pub(super) fn list<'a>(&self, staged: &'a StagedSpills, table: &'a SegmentTable, deleted: &DeletedSpills) -> Vec<RowChange<'a>> {
        let removed: HashSet<Key> = deleted.iter().collect();
        let staged: HashMap<Key, &[u8]> = staged.iter().collect();
        let unstaged = self.noted.iter().any(|key| !removed.contains(key) && !staged.contains_key(key));
        let table: HashMap<Key, &[u8]> = if unstaged { table.iter().collect() } else { HashMap::new() };
        let fresh = (!self.written).then(|| staged.keys().chain(&removed));
        let keys: HashSet<Key> = self.noted.iter().chain(fresh.into_iter().flatten()).copied().collect();
        let row = |key: &Key| if removed.contains(key) { None } else { staged.get(key).or_else(|| table.get(key)).copied() };
        keys.into_iter().map(|key| RowChange { key, row: row(&key) }).collect()
    }
}
