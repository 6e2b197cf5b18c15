//! A segments table turned from one edition into the other, row by row.

use std::collections::HashMap;
use std::error::Error;
use std::fmt;

use crate::codec::{box_segment_id, tx_segment_id, VlqReader};
use crate::edition::{row_to_first, row_to_second, Edition, First, RowKind, Second};
use crate::lists::{Key, SegmentTable};
use crate::refusal::Refusal;

/// A spill: whose row it is, what it holds, and its number.
#[derive(Clone, Copy, Debug, PartialEq, Eq, Hash)]
pub struct SpillId {
    /// The parent's id.
    pub parent: [u8; 32],
    /// What the row holds.
    pub kind: RowKind,
    /// The spill number.
    pub number: i32,
}

impl SpillId {
    /// The key under which the spill's row stands, the same in both editions.
    pub fn key(&self) -> Key {
        match self.kind {
            RowKind::Boxes => box_segment_id(&self.parent, self.number),
            RowKind::Txs => tx_segment_id(&self.parent, self.number),
        }
    }

    /// The spill that a row of edition 2 says it is of. Refused by 1, 2 or 34, and by 35 if its kind byte is neither 1 nor 2.
    pub fn of_row(row: &[u8]) -> Result<Self, Refusal> {
        let (header, number) = row.split_at_checked(33).ok_or(Refusal::BytesEnd)?;
        let number = VlqReader::new(number).get_i32()?;
        let kind = match header[32] {
            1 => RowKind::Boxes,
            2 => RowKind::Txs,
            _ => return Err(Refusal::RowOfAnotherSpill),
        };
        let mut parent = [0; 32];
        parent.copy_from_slice(&header[..32]);
        Ok(SpillId { parent, kind, number })
    }
}

/// The record that kept a table from being converted.
#[derive(Clone, Copy, Debug, PartialEq, Eq)]
pub struct Unconverted {
    /// Its key.
    pub key: Key,
    /// Why its row was refused; none if no spill that was given has its key.
    pub refusal: Option<Refusal>,
}

impl fmt::Display for Unconverted {
    fn fmt(&self, f: &mut fmt::Formatter<'_>) -> fmt::Result {
        write!(f, "the row under key ")?;
        for byte in self.key {
            write!(f, "{byte:02x}")?;
        }
        match self.refusal {
            Some(refusal) => write!(f, ": {refusal}"),
            None => write!(f, " is of no spill that was given"),
        }
    }
}

impl Error for Unconverted {}

fn convert<E: Edition, F: Edition>(
    table: &SegmentTable<E>,
    edition: F,
    mut row_of: impl FnMut(&Key, &[u8]) -> Result<Vec<u8>, Option<Refusal>>,
) -> Result<SegmentTable<F>, Unconverted> {
    let mut bytes = vec![0; table.capacity() * F::RECORD_SIZE];
    for (record, (key, row)) in bytes.chunks_exact_mut(F::RECORD_SIZE).zip(table.iter()) {
        let row = row_of(&key, row).map_err(|refusal| Unconverted { key, refusal })?;
        let length = u16::try_from(row.len()).expect("a row is within its limit");
        record[..32].copy_from_slice(&key);
        record[32..34].copy_from_slice(&length.to_be_bytes());
        record[34..34 + row.len()].copy_from_slice(&row);
    }
    Ok(SegmentTable::from_bytes_in_edition(edition, bytes, table.len()))
}

impl SegmentTable {
    /// The table in edition 2: the same keys in the same order, each row saying its spill. A row of edition 1 does not say whose it is, so that the spills
    /// whose rows the table holds must be given; more may be. What a flush has not taken from the staged spills is not in it.
    ///
    /// ```
    /// use ergo_index::*;
    /// let mut segment = Segment::new([7; 32]);
    /// let (mut staged, mut table) = (StagedSpills::with_capacity(2), SegmentTable::with_capacity(2));
    /// for n in 1..=513 {
    ///     segment.append_box_entry(BoxNumber(n), &mut staged).expect("room");
    /// }
    /// flush_staged_spills(&mut staged, &mut table, &mut DeletedSpills::with_capacity(0)).expect("room");
    ///
    /// let second = table.to_second(segment.spills())?;
    /// assert_eq!(second.to_first()?, table);
    /// assert_eq!(table.to_second([]).map_err(|e| e.refusal), Err(None));
    /// # Ok::<(), Unconverted>(())
    /// ```
    pub fn to_second(&self, spills: impl IntoIterator<Item = SpillId>) -> Result<SegmentTable<Second>, Unconverted> {
        let spills: HashMap<Key, SpillId> = spills.into_iter().map(|spill| (spill.key(), spill)).collect();
        convert(self, Second, |key, row| {
            let spill = spills.get(key).ok_or(None)?;
            row_to_second(row, &spill.parent, spill.kind, spill.number).map_err(Some)
        })
    }
}

impl SegmentTable<Second> {
    /// The table in edition 1: the same keys in the same order. A row that does not say the spill of its key is refused by 35.
    pub fn to_first(&self) -> Result<SegmentTable, Unconverted> {
        convert(self, First, |key, row| {
            let spill = SpillId::of_row(row)?;
            if spill.key() != *key {
                return Err(Some(Refusal::RowOfAnotherSpill));
            }
            row_to_first(row, &spill.parent, spill.kind, spill.number).map_err(Some)
        })
    }
}
