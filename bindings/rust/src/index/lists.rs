//! The lists and the journal of an index, and which rows its flushes changed.

use super::calls::Queue;
use super::changes::{Changes, RowChange};
use super::{Index, Journal};
use crate::ffi;
use crate::lists::{DeletedSpills, SegmentTable, StagedSpills};
use crate::refusal::Refusal;

impl Index {
    /// Writes the staged rows to the table and removes the deleted ones. Refused by 25.
    pub fn flush(&mut self) -> Result<(), Refusal> {
        self.before_a_flush();
        let mut flush = Queue::default();
        flush.begin(Default::default());
        match self.batch(&flush.bytes, &mut [0; 2])?.end {
            ffi::END_OF_INPUT => Ok(()),
            code => Err(Refusal::from_code(code).expect("what ends a flush is a refusal")),
        }
    }

    /// Room in the table for every staged row.
    pub(super) fn make_room(&mut self) {
        let free = self.table.capacity() - self.table.len().min(self.table.capacity());
        if free < self.staged.len() {
            self.table.list.grow(self.staged.len());
        }
    }

    /// The staged spills.
    pub fn staged(&self) -> &StagedSpills {
        &self.staged
    }

    /// The segments table.
    pub fn table(&self) -> &SegmentTable {
        &self.table
    }

    /// The deleted spills.
    pub fn deleted(&self) -> &DeletedSpills {
        &self.deleted
    }

    /// The calls that stand.
    pub fn journal(&self) -> &Journal {
        &self.journal
    }

    /// No call stands any more that could be taken back.
    pub fn forget_journal(&mut self) {
        self.journal.clear();
        self.blocks.clear();
    }

    /// The calls that stand are these, of the parents by their numbers here; no block has ended.
    pub fn set_journal(&mut self, entries: &[u8], standing: usize) {
        self.journal.replace(entries, standing);
        self.blocks.clear();
    }

    /// From now on changed rows are noted for [`Index::changes`].
    pub fn note_changes(&mut self) {
        self.changes.get_or_insert_with(Changes::default);
    }

    /// The rows that flushes changed since [`Index::changes_written`], and those that the next flush will change, each as it will stand then, in no order. Nothing unless
    /// [`Index::note_changes`] was called.
    pub fn changes(&self) -> Vec<RowChange<'_>> {
        self.changes.as_ref().map_or_else(Vec::new, |changes| changes.list(&self.staged, &self.table, &self.deleted))
    }

    /// The changed rows are kept elsewhere now.
    pub fn changes_written(&mut self) {
        if let Some(changes) = &mut self.changes {
            *changes = Changes { written: true, ..Changes::default() };
        }
    }

    /// Holds no row any more: each is kept elsewhere, as [`Index::changes`] told, and fetched when a call needs it.
    pub fn forget_rows(&mut self) {
        (self.staged.list.count, self.table.list.count, self.deleted.list.count) = (0, 0, 0);
    }
}
