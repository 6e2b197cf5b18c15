//! A working set: a table that holds some rows of those that are kept, and which row a call needs next.

use crate::edition::Edition;
use crate::entry::BoxNumber;
use crate::ffi;
use crate::lists::{DeletedSpills, Key, SegmentTable, StagedSpills, KEY_SIZE};
use crate::pages::PAGE_LENGTH;
use crate::refusal::{accepted, Refusal};
use crate::segment::{Segment, SEGMENT_THRESHOLD};
use crate::summary::Summary;

/// A row that a call needs and that is neither staged nor in the table that it is given.
#[derive(Clone, Copy, Debug, PartialEq, Eq)]
pub struct MissingRow {
    /// The number of the spill.
    pub number: i32,
    /// The key of its row.
    pub key: Key,
}

/// A head as a call borrows it.
#[derive(Clone, Copy)]
pub(crate) struct HeadView<'a> {
    pub(crate) parent: &'a [u8; 32],
    pub(crate) len: usize,
    pub(crate) spills: i32,
    pub(crate) places: &'a [i64; SEGMENT_THRESHOLD],
}

type FlipMissing = unsafe extern "C" fn(
    bool,
    *const u8,
    usize,
    i32,
    *const i64,
    usize,
    i64,
    usize,
    usize,
    *const u8,
    usize,
    usize,
    usize,
    *const u8,
    usize,
    *mut i32,
    *mut u8,
) -> u8;

type PopMissing = unsafe extern "C" fn(
    bool,
    *const u8,
    usize,
    i32,
    *const i64,
    usize,
    usize,
    usize,
    *const u8,
    usize,
    usize,
    usize,
    *const u8,
    usize,
    usize,
    usize,
    *const u8,
    usize,
    *mut i32,
    *mut u8,
) -> u8;

/// What a call answers of a missing row.
fn told(missing: MissingRow, code: u8) -> Option<MissingRow> {
    (code == Refusal::RowMissing.code()).then_some(missing)
}

const NONE: MissingRow = MissingRow { number: 0, key: [0; KEY_SIZE] };

pub(crate) fn for_flip<E: Edition>(
    call: FlipMissing,
    head: HeadView<'_>,
    target: i64,
    staged: &StagedSpills<E>,
    table: &SegmentTable<E>,
) -> Option<MissingRow> {
    let (s, t) = (&staged.list, &table.list);
    let mut missing = NONE;
    // SAFETY: each pointer comes from a live borrow, each length is that of its slice or array, and the outs are locals.
    let code = unsafe {
        call(
            E::SECOND,
            head.parent.as_ptr(),
            head.len,
            head.spills,
            head.places.as_ptr(),
            SEGMENT_THRESHOLD,
            target,
            s.count,
            s.capacity(),
            s.bytes.as_ptr(),
            s.bytes.len(),
            t.count,
            t.capacity(),
            t.bytes.as_ptr(),
            t.bytes.len(),
            &mut missing.number,
            missing.key.as_mut_ptr(),
        )
    };
    told(missing, code)
}

type FlipMissingWith = unsafe extern "C" fn(
    bool,
    *const u8,
    usize,
    i32,
    *const i64,
    usize,
    i64,
    usize,
    usize,
    *const u8,
    usize,
    usize,
    usize,
    *const u8,
    usize,
    usize,
    *const u64,
    usize,
    *mut i32,
    *mut u8,
) -> u8;

fn for_flip_with<E: Edition>(
    call: FlipMissingWith,
    summary: &Summary,
    head: HeadView<'_>,
    target: i64,
    staged: &StagedSpills<E>,
    table: &SegmentTable<E>,
) -> Option<MissingRow> {
    let (s, t, (lines, numbers, numbers_len)) = (&staged.list, &table.list, summary.borrowed());
    let mut missing = NONE;
    // SAFETY: as in `for_flip`.
    let code = unsafe {
        call(
            E::SECOND,
            head.parent.as_ptr(),
            head.len,
            head.spills,
            head.places.as_ptr(),
            SEGMENT_THRESHOLD,
            target,
            s.count,
            s.capacity(),
            s.bytes.as_ptr(),
            s.bytes.len(),
            t.count,
            t.capacity(),
            t.bytes.as_ptr(),
            t.bytes.len(),
            lines,
            numbers,
            numbers_len,
            &mut missing.number,
            missing.key.as_mut_ptr(),
        )
    };
    told(missing, code)
}

pub(crate) fn for_pop<E: Edition>(
    call: PopMissing,
    head: HeadView<'_>,
    staged: &StagedSpills<E>,
    table: &SegmentTable<E>,
    deleted: &DeletedSpills,
) -> Option<MissingRow> {
    let (s, t, d) = (&staged.list, &table.list, &deleted.list);
    let mut missing = NONE;
    // SAFETY: as in `for_flip`.
    let code = unsafe {
        call(
            E::SECOND,
            head.parent.as_ptr(),
            head.len,
            head.spills,
            head.places.as_ptr(),
            SEGMENT_THRESHOLD,
            s.count,
            s.capacity(),
            s.bytes.as_ptr(),
            s.bytes.len(),
            t.count,
            t.capacity(),
            t.bytes.as_ptr(),
            t.bytes.len(),
            d.count,
            d.capacity(),
            d.bytes.as_ptr(),
            d.bytes.len(),
            &mut missing.number,
            missing.key.as_mut_ptr(),
        )
    };
    told(missing, code)
}

impl<E: Edition> SegmentTable<E> {
    /// Puts a row under its key, which takes the place of a row that stands there. Refused by 25 (the table; a row above the limit of its edition), 22.
    ///
    /// ```
    /// use ergo_index::{Refusal, SegmentTable, ROW_LIMIT};
    /// let mut work = SegmentTable::with_capacity(1);
    /// work.put_row(&[5; 32], &[1, 2, 3])?;
    /// assert_eq!(work.iter().next(), Some(([5; 32], &[1, 2, 3][..])));
    /// assert_eq!(work.put_row(&[6; 32], &[1]), Err(Refusal::TableFull));
    /// assert_eq!(work.put_row(&[6; 32], &vec![0; ROW_LIMIT + 1]), Err(Refusal::Buffers));
    /// # Ok::<(), Refusal>(())
    /// ```
    pub fn put_row(&mut self, key: &Key, row: &[u8]) -> Result<(), Refusal> {
        let t = &mut self.list;
        let capacity = t.capacity();
        // SAFETY: as in `for_flip`; nothing that is written overlaps anything else.
        accepted(unsafe {
            ffi::ergo_index_put_row(E::SECOND, key.as_ptr(), row.as_ptr(), row.len(), &mut t.count, capacity, t.bytes.as_mut_ptr(), t.bytes.len())
        })
    }
}

impl Segment {
    fn boxes_view(&self) -> HeadView<'_> {
        HeadView { parent: &self.parent, len: self.boxes.len, spills: self.boxes.spills, places: &self.boxes.numbers }
    }

    fn txs_view(&self) -> HeadView<'_> {
        HeadView { parent: &self.parent, len: self.txs.len, spills: self.txs.spills, places: &self.txs.numbers }
    }

    /// The row that a spend needs next and that is neither staged nor in the table, if one is missing: then the spend answers 12. Once it is put there
    /// ([`SegmentTable::put_row`]), another may be missing, at most as many as the spend reads. A table that holds some of the rows does for every call that is
    /// not refused by 12 what the table of all rows does. A segment that keeps a summary asks for the rows that its lines do not rule out, mostly one.
    ///
    /// ```
    /// use ergo_index::*;
    /// let mut segment = Segment::new([7; 32]);
    /// let (mut staged, mut table, mut deleted) = (StagedSpills::with_capacity(2), SegmentTable::with_capacity(2), DeletedSpills::with_capacity(2));
    /// for n in 1..=513 {
    ///     segment.append_box_entry(BoxNumber(n), &mut staged)?;
    /// }
    /// flush_staged_spills(&mut staged, &mut table, &mut deleted)?;
    ///
    /// // a working set without that row
    /// let mut work = SegmentTable::with_capacity(1);
    /// assert_eq!(segment.flip_box_segment_entry(BoxNumber(9), &mut staged, &work), Err(Refusal::RowMissing));
    /// let missing = segment.missing_for_spend(BoxNumber(9), &staged, &work).unwrap();
    /// assert_eq!((missing.number, missing.key), (0, box_segment_id(&[7; 32], 0)));
    /// let (key, row) = table.iter().next().unwrap();
    /// work.put_row(&key, row)?;
    /// assert_eq!(segment.missing_for_spend(BoxNumber(9), &staged, &work), None);
    /// segment.flip_box_segment_entry(BoxNumber(9), &mut staged, &work)?;
    /// # Ok::<(), Refusal>(())
    /// ```
    pub fn missing_for_spend<E: Edition>(&self, target: BoxNumber, staged: &StagedSpills<E>, table: &SegmentTable<E>) -> Option<MissingRow> {
        match &self.summary {
            None => for_flip(ffi::ergo_index_missing_for_spend, self.boxes_view(), target.0, staged, table),
            Some(summary) => for_flip_with(ffi::ergo_index_missing_for_spend_with_summary, summary, self.boxes_view(), target.0, staged, table),
        }
    }

    /// The row that an unspend needs next, as [`Segment::missing_for_spend`] has it.
    pub fn missing_for_unspend<E: Edition>(&self, target: BoxNumber, staged: &StagedSpills<E>, table: &SegmentTable<E>) -> Option<MissingRow> {
        match &self.summary {
            None => for_flip(ffi::ergo_index_missing_for_unspend, self.boxes_view(), target.0, staged, table),
            Some(summary) => for_flip_with(ffi::ergo_index_missing_for_unspend_with_summary, summary, self.boxes_view(), target.0, staged, table),
        }
    }

    /// The row that a pop of a box needs.
    pub fn missing_for_pop_box<E: Edition>(&self, staged: &StagedSpills<E>, table: &SegmentTable<E>, deleted: &DeletedSpills) -> Option<MissingRow> {
        for_pop(ffi::ergo_index_missing_for_pop_box, self.boxes_view(), staged, table, deleted)
    }

    /// The row that a pop of a transaction needs.
    pub fn missing_for_pop_tx<E: Edition>(&self, staged: &StagedSpills<E>, table: &SegmentTable<E>, deleted: &DeletedSpills) -> Option<MissingRow> {
        for_pop(ffi::ergo_index_missing_for_pop_tx, self.txs_view(), staged, table, deleted)
    }

    /// The row that a tally without a summary needs next.
    pub fn missing_for_tally<E: Edition>(&self, staged: &StagedSpills<E>, table: &SegmentTable<E>) -> Option<MissingRow> {
        let (s, t, head) = (&staged.list, &table.list, self.boxes_view());
        let mut missing = NONE;
        // SAFETY: as in `for_flip`.
        let code = unsafe {
            ffi::ergo_index_missing_for_tally(
                E::SECOND,
                head.parent.as_ptr(),
                head.len,
                head.spills,
                head.places.as_ptr(),
                SEGMENT_THRESHOLD,
                s.count,
                s.capacity(),
                s.bytes.as_ptr(),
                s.bytes.len(),
                t.count,
                t.capacity(),
                t.bytes.as_ptr(),
                t.bytes.len(),
                &mut missing.number,
                missing.key.as_mut_ptr(),
            )
        };
        told(missing, code)
    }

    /// The row that a page of unspent boxes needs next.
    pub fn missing_for_page<E: Edition>(&self, staged: &StagedSpills<E>, table: &SegmentTable<E>) -> Option<MissingRow> {
        let (s, t, head) = (&staged.list, &table.list, self.boxes_view());
        let (mut missing, page) = (NONE, [0; PAGE_LENGTH]);
        // SAFETY: as in `for_flip`.
        let code = unsafe {
            ffi::ergo_index_missing_for_page(
                E::SECOND,
                head.parent.as_ptr(),
                head.len,
                head.spills,
                head.places.as_ptr(),
                SEGMENT_THRESHOLD,
                s.count,
                s.capacity(),
                s.bytes.as_ptr(),
                s.bytes.len(),
                t.count,
                t.capacity(),
                t.bytes.as_ptr(),
                t.bytes.len(),
                page.len(),
                page.as_ptr(),
                page.len(),
                &mut missing.number,
                missing.key.as_mut_ptr(),
            )
        };
        told(missing, code)
    }
}
