//! A summary of a segment's spilled boxes: a line for each row, so that a tally reads no row and a spend reads the rows that it searches.

use crate::edition::Edition;
use crate::ffi;
use crate::lists::{DeletedSpills, SegmentTable, StagedSpills};
use crate::refusal::{accepted, Refusal};
use crate::segment::{Head, Tally, SEGMENT_THRESHOLD};

/// What a line says of one row of boxes. The three counts add up to 512.
#[derive(Clone, Copy, Debug, Default, PartialEq, Eq)]
#[repr(C)]
pub struct SummaryLine {
    /// The absolute value of the row's first entry.
    pub first: u64,
    /// The absolute value of its last entry.
    pub last: u64,
    /// Entries above 0.
    pub unspent: u64,
    /// Entries equal to 0.
    pub unknown: u64,
    /// Negative entries.
    pub spent: u64,
}

/// The numbers of a line.
const NUMBERS: usize = std::mem::size_of::<SummaryLine>() / std::mem::size_of::<u64>();

/// The lines that a segment lends to its calls; those behind its spills are zero.
#[derive(Clone, Debug, Default)]
pub(crate) struct Summary {
    lines: Vec<SummaryLine>,
}

impl Summary {
    /// As a call borrows it: how many lines, and their numbers.
    pub(crate) fn borrowed(&self) -> (usize, *const u64, usize) {
        (self.lines.len(), self.numbers(), self.numbers_len())
    }

    fn numbers(&self) -> *const u64 {
        self.lines.as_ptr().cast()
    }

    fn numbers_mut(&mut self) -> *mut u64 {
        self.lines.as_mut_ptr().cast()
    }

    fn numbers_len(&self) -> usize {
        self.lines.len() * NUMBERS
    }

    /// The lines of the spills.
    pub(crate) fn of_spills(&self, spills: i32) -> &[SummaryLine] {
        &self.lines[..usize::try_from(spills).unwrap_or(0)]
    }

    /// A summary made from the rows.
    pub(crate) fn fresh<E: Edition>(parent: &[u8; 32], head: &Head, staged: &StagedSpills<E>, table: &SegmentTable<E>) -> Result<Self, Refusal> {
        let (s, t) = (&staged.list, &table.list);
        // without its row no spill has a line, so lines for all records suffice
        let lines = usize::try_from(head.spills).unwrap_or(0).min(s.count.saturating_add(t.count));
        let mut summary = Summary { lines: vec![SummaryLine::default(); lines] };
        // SAFETY: each pointer comes from a live borrow, each length is that of its slice, and nothing that is written overlaps anything else.
        // `SummaryLine` is five numbers of 64 bits in the order of the header.
        accepted(unsafe {
            ffi::ergo_index_summarize_boxes(
                E::SECOND,
                parent.as_ptr(),
                head.len,
                head.spills,
                head.numbers.as_ptr(),
                SEGMENT_THRESHOLD,
                s.count,
                s.capacity(),
                s.bytes.as_ptr(),
                s.bytes.len(),
                t.count,
                t.capacity(),
                t.bytes.as_ptr(),
                t.bytes.len(),
                summary.lines.len(),
                summary.numbers_mut(),
                summary.numbers_len(),
            )
        })?;
        Ok(summary)
    }

    pub(crate) fn append<E: Edition>(
        &mut self,
        parent: &[u8; 32],
        head: &mut Head,
        number: i64,
        staged: &mut StagedSpills<E>,
    ) -> Result<(), Refusal> {
        // a line for the row that a full head becomes
        if head.len == SEGMENT_THRESHOLD && usize::try_from(head.spills) == Ok(self.lines.len()) {
            self.lines.push(SummaryLine::default());
        }
        let s = &mut staged.list;
        let capacity = s.capacity();
        // SAFETY: as in `fresh`.
        accepted(unsafe {
            ffi::ergo_index_append_box_entry_with_summary(
                E::SECOND,
                parent.as_ptr(),
                &mut head.len,
                &mut head.spills,
                head.numbers.as_mut_ptr(),
                SEGMENT_THRESHOLD,
                number,
                &mut s.count,
                capacity,
                s.bytes.as_mut_ptr(),
                s.bytes.len(),
                self.lines.len(),
                self.numbers_mut(),
                self.numbers_len(),
            )
        })
    }

    pub(crate) fn pop<E: Edition>(
        &mut self,
        parent: &[u8; 32],
        head: &mut Head,
        staged: &mut StagedSpills<E>,
        table: &SegmentTable<E>,
        deleted: &mut DeletedSpills,
    ) -> Result<i64, Refusal> {
        let (s, t, d) = (&mut staged.list, &table.list, &mut deleted.list);
        let (s_capacity, d_capacity) = (s.capacity(), d.capacity());
        let mut number = 0;
        // SAFETY: as in `fresh`.
        accepted(unsafe {
            ffi::ergo_index_pop_box_entry_with_summary(
                E::SECOND,
                parent.as_ptr(),
                &mut head.len,
                &mut head.spills,
                head.numbers.as_mut_ptr(),
                SEGMENT_THRESHOLD,
                &mut s.count,
                s_capacity,
                s.bytes.as_mut_ptr(),
                s.bytes.len(),
                t.count,
                t.capacity(),
                t.bytes.as_ptr(),
                t.bytes.len(),
                &mut d.count,
                d_capacity,
                d.bytes.as_mut_ptr(),
                d.bytes.len(),
                self.lines.len(),
                self.numbers_mut(),
                self.numbers_len(),
                &mut number,
            )
        })?;
        Ok(number)
    }

    /// A spend or an unspend.
    pub(crate) fn flip<E: Edition>(
        &mut self,
        call: FlipCall,
        parent: &[u8; 32],
        head: &mut Head,
        target: i64,
        staged: &mut StagedSpills<E>,
        table: &SegmentTable<E>,
    ) -> Result<(), Refusal> {
        let (s, t) = (&mut staged.list, &table.list);
        let capacity = s.capacity();
        // SAFETY: as in `fresh`.
        accepted(unsafe {
            call(
                E::SECOND,
                parent.as_ptr(),
                head.len,
                head.spills,
                head.numbers.as_mut_ptr(),
                SEGMENT_THRESHOLD,
                target,
                &mut s.count,
                capacity,
                s.bytes.as_mut_ptr(),
                s.bytes.len(),
                t.count,
                t.capacity(),
                t.bytes.as_ptr(),
                t.bytes.len(),
                self.lines.len(),
                self.numbers_mut(),
                self.numbers_len(),
            )
        })
    }

    pub(crate) fn tally(&self, head: &Head) -> Result<Tally, Refusal> {
        let mut tally = Tally { unspent: 0, spent: 0, unknown: 0 };
        // SAFETY: as in `fresh`.
        accepted(unsafe {
            ffi::ergo_index_tally_with_summary(
                head.len,
                head.spills,
                head.numbers.as_ptr(),
                SEGMENT_THRESHOLD,
                self.lines.len(),
                self.numbers(),
                self.numbers_len(),
                &mut tally.unspent,
                &mut tally.spent,
                &mut tally.unknown,
            )
        })?;
        Ok(tally)
    }
}

pub(crate) type FlipCall = unsafe extern "C" fn(
    bool,
    *const u8,
    usize,
    i32,
    *mut i64,
    usize,
    i64,
    *mut usize,
    usize,
    *mut u8,
    usize,
    usize,
    usize,
    *const u8,
    usize,
    usize,
    *mut u64,
    usize,
) -> u8;
