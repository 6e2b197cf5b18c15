//! Staged spills, the segments table and deleted spills: record lists in boxed buffers of a fixed capacity.

use std::marker::PhantomData;

use crate::edition::{Edition, First};
use crate::ffi;
use crate::memory::zeroed;
use crate::refusal::{accepted, Refusal};

/// The bytes of a record of edition 1: 32 of the key, 2 of the row's length (high byte first), then the row and zeros.
pub const RECORD_SIZE: usize = First::RECORD_SIZE;

/// The bytes of the longest row of edition 1.
pub const ROW_LIMIT: usize = First::ROW_LIMIT;

/// The bytes of a row key.
pub const KEY_SIZE: usize = 32;

/// A row key.
pub type Key = [u8; KEY_SIZE];

/// A list of records of `size` bytes: the first `count` of the buffer, which has room for `capacity`.
#[derive(Clone, Debug, PartialEq, Eq)]
pub(crate) struct List {
    size: usize,
    pub(crate) count: usize,
    pub(crate) bytes: Box<[u8]>,
}

impl List {
    fn with_capacity(size: usize, capacity: usize) -> Self {
        let bytes = capacity.checked_mul(size).expect("the list fits the address space");
        List { size, count: 0, bytes: zeroed(bytes) }
    }

    fn from_bytes(size: usize, bytes: Vec<u8>, count: usize) -> Self {
        List { size, count, bytes: bytes.into_boxed_slice() }
    }

    pub(crate) fn capacity(&self) -> usize {
        self.bytes.len() / self.size
    }

    /// Room for at least this many records more.
    pub(crate) fn grow(&mut self, records: usize) {
        let capacity = (2 * self.capacity()).max(self.count + records);
        let mut bytes = zeroed(capacity * self.size);
        bytes[..self.bytes.len()].copy_from_slice(&self.bytes);
        self.bytes = bytes;
    }

    fn records(&self) -> impl Iterator<Item = &[u8]> {
        self.bytes.chunks_exact(self.size).take(self.count)
    }
}

fn key_of(record: &[u8]) -> Key {
    let mut key = [0; KEY_SIZE];
    key.copy_from_slice(&record[..KEY_SIZE]);
    key
}

fn row_of(record: &[u8]) -> &[u8] {
    let length = usize::from(u16::from_be_bytes([record[32], record[33]]));
    &record[34..(34 + length).min(record.len())]
}

macro_rules! record_list {
    ($(#[$doc:meta])* $name:ident) => {
        $(#[$doc])*
        #[derive(Clone, Debug, PartialEq, Eq)]
        pub struct $name<E = First> {
            pub(crate) list: List,
            edition: PhantomData<E>,
        }

        impl $name {
            /// An empty list with room for this many rows of edition 1.
            pub fn with_capacity(rows: usize) -> Self {
                Self::in_edition(First, rows)
            }

            /// A list of edition 1 from its bytes, as [`Self::from_bytes_in_edition`] makes it.
            pub fn from_bytes(bytes: Vec<u8>, count: usize) -> Self {
                Self::from_bytes_in_edition(First, bytes, count)
            }
        }

        impl<E: Edition> $name<E> {
            /// An empty list with room for this many rows of an edition.
            pub fn in_edition(_: E, rows: usize) -> Self {
                $name { list: List::with_capacity(E::RECORD_SIZE, rows), edition: PhantomData }
            }

            /// A list from its bytes, the first `count` records of which are in use. Its capacity is the number of whole records.
            /// Nothing is tested here: every call that is given the list tests it first, and answers [`Refusal::Buffers`].
            pub fn from_bytes_in_edition(_: E, bytes: Vec<u8>, count: usize) -> Self {
                $name { list: List::from_bytes(E::RECORD_SIZE, bytes, count), edition: PhantomData }
            }

            /// The bytes of the whole buffer.
            pub fn as_bytes(&self) -> &[u8] {
                &self.list.bytes
            }

            /// How many rows the list holds.
            pub fn len(&self) -> usize {
                self.list.count
            }

            /// Whether it holds none.
            pub fn is_empty(&self) -> bool {
                self.list.count == 0
            }

            /// How many rows it has room for.
            pub fn capacity(&self) -> usize {
                self.list.capacity()
            }

            /// The keys and rows, in the order of the list.
            pub fn iter(&self) -> impl Iterator<Item = (Key, &[u8])> {
                self.list.records().map(|record| (key_of(record), row_of(record)))
            }
        }
    };
}

record_list! {
    /// Spilled rows that are not written to the segments table yet.
    ///
    /// ```
    /// use ergo_index::StagedSpills;
    /// let staged = StagedSpills::with_capacity(4);
    /// assert_eq!((staged.len(), staged.capacity()), (0, 4));
    /// ```
    StagedSpills
}

record_list! {
    /// The segments table: the rows that were flushed.
    ///
    /// ```
    /// use ergo_index::SegmentTable;
    /// let table = SegmentTable::with_capacity(4);
    /// assert!(table.iter().next().is_none());
    /// ```
    SegmentTable
}

/// The keys of rows that were merged back into a head and leave the table at the next flush.
///
/// ```
/// use ergo_index::DeletedSpills;
/// let deleted = DeletedSpills::with_capacity(4);
/// assert!(deleted.is_empty());
/// ```
#[derive(Clone, Debug, PartialEq, Eq)]
pub struct DeletedSpills {
    pub(crate) list: List,
}

impl DeletedSpills {
    /// An empty list with room for this many keys.
    pub fn with_capacity(keys: usize) -> Self {
        DeletedSpills { list: List::with_capacity(KEY_SIZE, keys) }
    }

    /// A list from its bytes, the first `count` keys of which are in use; calls test it as [`StagedSpills::from_bytes`] says.
    pub fn from_bytes(bytes: Vec<u8>, count: usize) -> Self {
        DeletedSpills { list: List::from_bytes(KEY_SIZE, bytes, count) }
    }

    /// How many keys the list holds.
    pub fn len(&self) -> usize {
        self.list.count
    }

    /// Whether it holds none.
    pub fn is_empty(&self) -> bool {
        self.list.count == 0
    }

    /// How many keys it has room for.
    pub fn capacity(&self) -> usize {
        self.list.capacity()
    }

    /// The keys, in the order of the list.
    pub fn iter(&self) -> impl Iterator<Item = Key> + '_ {
        self.list.records().map(key_of)
    }
}

/// A row that was inspected, and the list that holds it.
#[derive(Clone, Copy, Debug, PartialEq, Eq)]
pub enum Spill<'a> {
    /// The row is among the staged spills.
    Staged(&'a [u8]),
    /// The row is in the segments table.
    Table(&'a [u8]),
}

impl<'a> Spill<'a> {
    /// The row's bytes.
    pub fn row(self) -> &'a [u8] {
        match self {
            Spill::Staged(row) | Spill::Table(row) => row,
        }
    }
}

/// The row under a key: from the staged spills if the key is there, otherwise from the table. Refused by 25, and by 12 if the key is in neither.
///
/// ```
/// use ergo_index::{box_segment_id, inspect_spill, Refusal, SegmentTable, StagedSpills};
/// let (staged, table) = (StagedSpills::with_capacity(1), SegmentTable::with_capacity(1));
/// assert_eq!(inspect_spill(&staged, &table, &box_segment_id(&[0; 32], 0)), Err(Refusal::RowMissing));
/// ```
pub fn inspect_spill<'a, E: Edition>(staged: &'a StagedSpills<E>, table: &'a SegmentTable<E>, key: &Key) -> Result<Spill<'a>, Refusal> {
    let (s, t) = (&staged.list, &table.list);
    let (mut list, mut offset, mut length) = (0, 0, 0);
    // SAFETY: each pointer comes from a live borrow, each length is that of its slice, and nothing that is written overlaps anything else.
    accepted(unsafe {
        ffi::ergo_index_inspect_spill_in_edition(
            E::SECOND,
            s.count,
            s.capacity(),
            s.bytes.as_ptr(),
            s.bytes.len(),
            t.count,
            t.capacity(),
            t.bytes.as_ptr(),
            t.bytes.len(),
            key.as_ptr(),
            &mut list,
            &mut offset,
            &mut length,
        )
    })?;
    Ok(match list {
        1 => Spill::Staged(&s.bytes[offset..offset + length]),
        _ => Spill::Table(&t.bytes[offset..offset + length]),
    })
}

/// Writes the staged rows whose key is not deleted to the table, then removes the deleted keys from it; staged and deleted spills end empty.
/// Refused by 25, 22.
///
/// ```
/// use ergo_index::{flush_staged_spills, DeletedSpills, SegmentTable, StagedSpills};
/// let (mut staged, mut table) = (StagedSpills::with_capacity(1), SegmentTable::with_capacity(1));
/// let mut deleted = DeletedSpills::with_capacity(1);
/// flush_staged_spills(&mut staged, &mut table, &mut deleted)?;
/// # Ok::<(), ergo_index::Refusal>(())
/// ```
pub fn flush_staged_spills<E: Edition>(
    staged: &mut StagedSpills<E>,
    table: &mut SegmentTable<E>,
    deleted: &mut DeletedSpills,
) -> Result<(), Refusal> {
    let (places, keys) = (staged.capacity(), deleted.capacity());
    flush_places(staged, places, table, deleted, keys)
}

/// The same of lists whose unused places are zero: only the used ones are cleared.
pub(crate) fn flush_used(staged: &mut StagedSpills, table: &mut SegmentTable, deleted: &mut DeletedSpills) -> Result<(), Refusal> {
    let (places, keys) = (staged.len(), deleted.len());
    flush_places(staged, places, table, deleted, keys)
}

/// A flush that borrows so many places of the staged spills, and so many keys of the deleted ones: it clears them all.
fn flush_places<E: Edition>(
    staged: &mut StagedSpills<E>,
    places: usize,
    table: &mut SegmentTable<E>,
    deleted: &mut DeletedSpills,
    keys: usize,
) -> Result<(), Refusal> {
    let (s, t, d) = (&mut staged.list, &mut table.list, &mut deleted.list);
    let t_capacity = t.capacity();
    // SAFETY: as in `inspect_spill`; the three lists are borrowed apart.
    accepted(unsafe {
        ffi::ergo_index_flush_staged_spills_in_edition(
            E::SECOND,
            &mut s.count,
            places,
            s.bytes.as_mut_ptr(),
            s.bytes.len(),
            &mut t.count,
            t_capacity,
            t.bytes.as_mut_ptr(),
            t.bytes.len(),
            &mut d.count,
            keys,
            d.bytes.as_mut_ptr(),
            d.bytes.len(),
        )
    })
}
