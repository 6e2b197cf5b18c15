//! The reference's calls, opened to other crates, over state that is held in one place.

use std::collections::{HashMap, HashSet};

use redb::{Database, ReadableTable, Table, WriteTransaction};

use crate::address::{BalanceInfo, IndexedAddress};
use crate::error::IndexerError;
use crate::segment::Segment;
use crate::store::tables::{INDEXER_UNDO, SEGMENTS};
use crate::{segment_buffer, store, Digest32, ReadError, VlqReader, VlqWriter};

pub type SegmentsTable = Table<&'static [u8], &'static [u8]>;

/// The segments table with the staged and the deleted spills.
pub struct Spills {
    pub table: SegmentsTable,
    pub staged: HashMap<Digest32, Segment>,
    pub deleted: HashSet<Digest32>,
    writer: VlqWriter,
}

impl Default for Spills {
    fn default() -> Self {
        let db = Database::create("segments").expect("a table in memory");
        let write = db.begin_write().expect("a table in memory");
        Self {
            table: write.open_table(SEGMENTS).expect("a table in memory"),
            staged: HashMap::new(),
            deleted: HashSet::new(),
            writer: VlqWriter::new(),
        }
    }
}

impl Spills {
    /// Over rows that are kept elsewhere.
    pub fn over(below: Box<dyn redb::Kept>) -> Self {
        Self {
            table: Table::over(below),
            staged: HashMap::new(),
            deleted: HashSet::new(),
            writer: VlqWriter::new(),
        }
    }

    /// Every row of the table by its key, in the order of the keys.
    pub fn rows(&self) -> Vec<(Vec<u8>, Vec<u8>)> {
        let rows = self.table.iter().expect("a table in memory");
        rows.map(|row| row.map(|(key, row)| (key.value().to_vec(), row.value().to_vec())))
            .collect::<Result<_, _>>()
            .expect("a table in memory")
    }

    pub fn put_row(&mut self, key: &Digest32, row: &[u8]) {
        self.table.insert(key.as_bytes().as_slice(), row).expect("a table in memory");
    }

    pub fn remove_row(&mut self, key: &Digest32) {
        store::segment::remove_spill(&mut self.table, key).expect("a table in memory");
    }

    pub fn append_box(&mut self, parent: &mut IndexedAddress, number: i64) -> Result<(), IndexerError> {
        segment_buffer::append_box_entry(&parent.tree_hash, &mut parent.segment, number, &mut self.staged)
    }

    pub fn append_tx(&mut self, parent: &mut IndexedAddress, number: i64) -> Result<(), IndexerError> {
        segment_buffer::append_tx_entry(parent, number, &mut self.staged)
    }

    pub fn flip(&mut self, parent: &mut IndexedAddress, target: i64) -> Result<(), IndexerError> {
        let hash = parent.tree_hash;
        segment_buffer::flip_box_segment_entry(&hash, &mut parent.segment, target, &mut self.staged, &self.table)
    }

    pub fn unflip(&mut self, parent: &mut IndexedAddress, target: i64) -> Result<(), IndexerError> {
        let hash = parent.tree_hash;
        segment_buffer::unflip_box_segment_entry(&hash, &mut parent.segment, target, &mut self.staged, &self.table)
    }

    pub fn pop_box(&mut self, parent: &mut IndexedAddress) -> Result<i64, IndexerError> {
        let hash = parent.tree_hash;
        segment_buffer::pop_box_entry(&hash, &mut parent.segment, &mut self.staged, &mut self.deleted, &self.table)
    }

    pub fn pop_tx(&mut self, parent: &mut IndexedAddress) -> Result<i64, IndexerError> {
        segment_buffer::pop_tx_entry(parent, &mut self.staged, &mut self.deleted, &self.table)
    }

    /// The flush alone, which leaves staged and deleted spills to its caller.
    pub fn write_staged(&mut self) -> Result<(), IndexerError> {
        segment_buffer::flush_staged_spills(&mut self.table, &mut self.writer, &self.staged, &self.deleted)
    }

    /// The flush as a block ends: staged and deleted spills are empty afterwards.
    pub fn flush(&mut self) -> Result<(), IndexerError> {
        self.write_staged()?;
        self.staged.clear();
        self.deleted.clear();
        Ok(())
    }
}

/// A segment row: the segment, and how many bytes it took.
pub fn read_persisted_segment(row: &[u8]) -> Result<(Segment, usize), ReadError> {
    let mut reader = VlqReader::new(row);
    let segment = crate::segment::read_persisted_segment(&mut reader)?;
    Ok((segment, reader.position()))
}

pub fn write_segment(segment: &Segment) -> Vec<u8> {
    let mut writer = VlqWriter::new();
    crate::segment::write_segment(&mut writer, segment);
    writer.result()
}

/// An address record, and how many bytes it took.
pub fn read_indexed_address(row: &[u8]) -> Result<(IndexedAddress, usize), ReadError> {
    let mut reader = VlqReader::new(row);
    let address = crate::address::read_indexed_address(&mut reader)?;
    Ok((address, reader.position()))
}

pub fn write_indexed_address(address: &IndexedAddress) -> Vec<u8> {
    let mut writer = VlqWriter::new();
    crate::address::write_indexed_address(&mut writer, address);
    writer.result()
}

/// Whether the drift rule skips the flip with this result.
pub fn tolerate(flip: Result<(), IndexerError>) -> Result<bool, IndexerError> {
    segment_buffer::tolerate_secondary_drift("template", &Digest32::default(), 0, flip)
}

/// The undo entries whose retention is compared.
pub struct UndoTable(WriteTransaction);

impl UndoTable {
    /// Entries at these heights.
    pub fn new(heights: &[u64]) -> Self {
        let db = Database::create("undo").expect("a table in memory");
        let write = db.begin_write().expect("a table in memory");
        let mut table = write.open_table(INDEXER_UNDO).expect("a table in memory");
        for &height in heights {
            table.insert(height, &[]).expect("a table in memory");
        }
        Self(write)
    }

    /// The heights that pruning leaves.
    pub fn prune(&self, current: u64, window: u64) -> Vec<u64> {
        store::undo::prune_below_window(&self.0, current, window).expect("a table in memory");
        let table = self.0.open_table(INDEXER_UNDO).expect("a table in memory");
        let rows = table.iter().expect("a table in memory");
        rows.map(|row| row.expect("a table in memory").0.value()).collect()
    }
}

pub type Balance = BalanceInfo;
