//! A segment's unspent boxes, newest first, a page at a time.

use std::iter::FusedIterator;
use std::vec::IntoIter;

use crate::edition::{Edition, First};
use crate::entry::BoxNumber;
use crate::ffi;
use crate::lists::{SegmentTable, StagedSpills};
use crate::refusal::{accepted, Refusal};
use crate::segment::{Segment, SEGMENT_THRESHOLD};

/// The most numbers of a page.
pub const PAGE_LENGTH: usize = 64;

impl Segment {
    /// A page of the unspent boxes (entries above 0), newest first over the head and the rows: `offset` of them are passed over, and the next `length`
    /// are given, fewer only where they end. Refused by 25, 33 for a length above [`PAGE_LENGTH`], and as [`Segment::tally`] is; every row is checked,
    /// whether the page needs it or not.
    ///
    /// ```
    /// use ergo_index::{BoxNumber, Refusal, Segment, SegmentTable, StagedSpills};
    /// let mut segment = Segment::new([7; 32]);
    /// let (mut staged, table) = (StagedSpills::with_capacity(1), SegmentTable::with_capacity(1));
    /// for n in [0, 1, 2, 3, 4] {
    ///     segment.append_box_entry(BoxNumber(n), &mut staged)?;
    /// }
    /// segment.flip_box_segment_entry(BoxNumber(3), &mut staged, &table)?;
    /// assert_eq!(segment.unspent_page(0, 2, &staged, &table)?, [BoxNumber(4), BoxNumber(2)]);
    /// assert_eq!(segment.unspent_page(2, 64, &staged, &table)?, [BoxNumber(1)]);
    /// assert_eq!(segment.unspent_page(3, 64, &staged, &table)?, []);
    /// assert_eq!(segment.unspent_page(0, 65, &staged, &table), Err(Refusal::PageTooLong));
    /// # Ok::<(), Refusal>(())
    /// ```
    pub fn unspent_page<E: Edition>(
        &self,
        offset: usize,
        length: usize,
        staged: &StagedSpills<E>,
        table: &SegmentTable<E>,
    ) -> Result<Vec<BoxNumber>, Refusal> {
        let (s, t) = (&staged.list, &table.list);
        let mut page = [0; PAGE_LENGTH];
        let mut numbers = 0;
        // SAFETY: each pointer comes from a live borrow, each length is that of its slice, and nothing that is written overlaps anything else.
        accepted(unsafe {
            ffi::ergo_index_unspent_page_in_edition(
                E::SECOND,
                self.parent.as_ptr(),
                self.boxes.len,
                self.boxes.spills,
                self.boxes.numbers.as_ptr(),
                SEGMENT_THRESHOLD,
                s.count,
                s.capacity(),
                s.bytes.as_ptr(),
                s.bytes.len(),
                t.count,
                t.capacity(),
                t.bytes.as_ptr(),
                t.bytes.len(),
                offset,
                length,
                page.as_mut_ptr(),
                PAGE_LENGTH,
                &mut numbers,
            )
        })?;
        Ok(page[..numbers].iter().copied().map(BoxNumber).collect())
    }

    /// All unspent boxes, newest first, read in pages of [`PAGE_LENGTH`] as they are asked for. A refusal is the last item. Every page checks every row, so
    /// that a walk through all boxes takes time in the square of their number.
    ///
    /// ```
    /// use ergo_index::{BoxNumber, Refusal, Segment, SegmentTable, StagedSpills};
    /// let mut segment = Segment::new([7; 32]);
    /// let (mut staged, table) = (StagedSpills::with_capacity(1), SegmentTable::with_capacity(1));
    /// for n in 1..=600 {
    ///     segment.append_box_entry(BoxNumber(n), &mut staged)?;
    /// }
    /// segment.flip_box_segment_entry(BoxNumber(100), &mut staged, &table)?;
    /// let unspent = segment.unspent_boxes(&staged, &table).collect::<Result<Vec<_>, Refusal>>()?;
    /// assert!(unspent.into_iter().eq((1..=600).rev().filter(|n| *n != 100).map(BoxNumber)));
    /// # Ok::<(), Refusal>(())
    /// ```
    pub fn unspent_boxes<'a, E: Edition>(&'a self, staged: &'a StagedSpills<E>, table: &'a SegmentTable<E>) -> UnspentBoxes<'a, E> {
        UnspentBoxes { segment: self, staged, table, page: Vec::new().into_iter(), offset: 0, ended: false }
    }
}

/// The unspent boxes of a segment, newest first; [`Segment::unspent_boxes`] makes it.
#[derive(Clone, Debug)]
pub struct UnspentBoxes<'a, E = First> {
    segment: &'a Segment,
    staged: &'a StagedSpills<E>,
    table: &'a SegmentTable<E>,
    page: IntoIter<BoxNumber>,
    offset: usize,
    ended: bool,
}

impl<E: Edition> Iterator for UnspentBoxes<'_, E> {
    type Item = Result<BoxNumber, Refusal>;

    fn next(&mut self) -> Option<Self::Item> {
        if self.page.len() == 0 && !self.ended {
            let page = match self.segment.unspent_page(self.offset, PAGE_LENGTH, self.staged, self.table) {
                Ok(page) => page,
                Err(refusal) => {
                    self.ended = true;
                    return Some(Err(refusal));
                }
            };
            self.offset += page.len();
            self.ended = page.len() < PAGE_LENGTH;
            self.page = page.into_iter();
        }
        self.page.next().map(Ok)
    }
}

impl<E: Edition> FusedIterator for UnspentBoxes<'_, E> {}
