//! Editions of the spill rows, and the converters between them.

use std::fmt::Debug;

use crate::ffi;
use crate::refusal::{accepted, Refusal};

mod sealed {
    pub trait Sealed {}
}

/// An edition of the spill rows: [`First`] or [`Second`]. It is a type of the lists of spills, so that no call is given lists of two editions.
///
/// ```
/// use ergo_index::*;
///
/// let mut segment = Segment::new([7; 32]);
/// let mut staged = StagedSpills::in_edition(Second, 2);
/// let mut table = SegmentTable::in_edition(Second, 2);
/// let mut deleted = DeletedSpills::with_capacity(2);
/// for n in 1..=513 {
///     segment.append_box_entry(BoxNumber(n), &mut staged)?;
/// }
/// flush_staged_spills(&mut staged, &mut table, &mut deleted)?;
///
/// // the row says whose it is
/// let (_, row) = table.iter().next().expect("a row");
/// assert_eq!((&row[..32], &row[32..34]), (&[7; 32][..], &[1, 0][..]));
/// # Ok::<(), Refusal>(())
/// ```
///
/// Lists of two editions are no arguments of one call:
///
/// ```compile_fail
/// use ergo_index::*;
/// let (staged, table) = (StagedSpills::in_edition(Second, 2), SegmentTable::with_capacity(2));
/// let tally = Segment::new([7; 32]).tally(&staged, &table);
/// ```
pub trait Edition: sealed::Sealed + Copy + Debug + Eq {
    /// Whether it is the second.
    const SECOND: bool;
    /// The bytes of a record: 32 of the key, 2 of the row's length (high byte first), then the row and zeros.
    const RECORD_SIZE: usize;
    /// The bytes of the longest row.
    const ROW_LIMIT: usize;
}

/// Edition 1: rows have the body only.
#[derive(Clone, Copy, Debug, PartialEq, Eq)]
pub struct First;

/// Edition 2: rows say their parent, kind and spill number before the body. A row that says another spill than the one behind its key is refused by 35.
#[derive(Clone, Copy, Debug, PartialEq, Eq)]
pub struct Second;

impl sealed::Sealed for First {}

impl sealed::Sealed for Second {}

impl Edition for First {
    const SECOND: bool = false;
    const RECORD_SIZE: usize = 10_288;
    const ROW_LIMIT: usize = 10_254;
}

impl Edition for Second {
    const SECOND: bool = true;
    const RECORD_SIZE: usize = 10_326;
    const ROW_LIMIT: usize = 10_292;
}

/// What a spill row holds.
#[derive(Clone, Copy, Debug, PartialEq, Eq, Hash)]
#[repr(u8)]
pub enum RowKind {
    /// Boxes, in edition 2 the byte 1.
    Boxes = 1,
    /// Transactions, in edition 2 the byte 2.
    Txs = 2,
}

type Converter = unsafe extern "C" fn(*const u8, usize, *const u8, u8, i32, *mut u8, usize, *mut usize) -> u8;

fn convert(call: Converter, limit: usize, row: &[u8], parent: &[u8; 32], kind: RowKind, number: i32) -> Result<Vec<u8>, Refusal> {
    let mut out = vec![0; limit];
    let mut written = 0;
    // SAFETY: each pointer comes from a live borrow, each length is that of its slice, and nothing that is written overlaps anything else.
    accepted(unsafe { call(row.as_ptr(), row.len(), parent.as_ptr(), kind as u8, number, out.as_mut_ptr(), out.len(), &mut written) })?;
    out.truncate(written);
    Ok(out)
}

/// A row of edition 1 as one of edition 2, which says this parent, kind and spill number. Refused by 25, 1 to 6 or 34, 8.
///
/// ```
/// use ergo_index::{row_to_first, row_to_second, Refusal, RowKind, Segment};
/// let first = Segment::new([0; 32]).to_row();
/// let second = row_to_second(&first, &[7; 32], RowKind::Boxes, 64)?;
/// assert_eq!(second[..35], [&[7; 32][..], &[1, 0x80, 0x01]].concat());
/// assert_eq!(row_to_first(&second, &[7; 32], RowKind::Boxes, 64)?, first);
/// assert_eq!(row_to_first(&second, &[7; 32], RowKind::Txs, 64), Err(Refusal::RowOfAnotherSpill));
/// # Ok::<(), Refusal>(())
/// ```
pub fn row_to_second(row: &[u8], parent: &[u8; 32], kind: RowKind, number: i32) -> Result<Vec<u8>, Refusal> {
    convert(ffi::ergo_index_row_to_second, Second::ROW_LIMIT, row, parent, kind, number)
}

/// A row of edition 2 as one of edition 1. Refused by 25, 1 to 6 or 34, 8, and by 35 if it says another parent, kind or number.
pub fn row_to_first(row: &[u8], parent: &[u8; 32], kind: RowKind, number: i32) -> Result<Vec<u8>, Refusal> {
    convert(ffi::ergo_index_row_to_first, First::ROW_LIMIT, row, parent, kind, number)
}
