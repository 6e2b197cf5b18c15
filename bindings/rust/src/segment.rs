//! A parent's segment: a head of boxes and a head of transactions, with the rows that each has spilled.

use std::fmt;

use crate::codec::decode_segment;
use crate::convert::SpillId;
use crate::edition::{Edition, RowKind};
use crate::entry::{BoxEntry, BoxNumber, TxNumber};
use crate::ffi;
use crate::lists::{DeletedSpills, SegmentTable, StagedSpills};
use crate::refusal::{accepted, Refusal};
use crate::summary::{Summary, SummaryLine};

/// The numbers of a full head, and of a spilled row.
pub const SEGMENT_THRESHOLD: usize = 512;

/// How many entries of a segment's boxes are unspent, spent and unknown; the three add up to all entries.
#[derive(Clone, Copy, Debug, PartialEq, Eq)]
pub struct Tally {
    /// Entries above 0.
    pub unspent: usize,
    /// Negative entries.
    pub spent: usize,
    /// Entries equal to 0: the first box of the chain, whose entry has no sign.
    pub unknown: usize,
}

/// A head: up to 512 numbers, and how many rows it has spilled.
#[derive(Clone)]
pub(crate) struct Head {
    pub(crate) len: usize,
    pub(crate) spills: i32,
    pub(crate) numbers: Box<[i64; SEGMENT_THRESHOLD]>,
}

impl Head {
    fn empty() -> Self {
        Head { len: 0, spills: 0, numbers: Box::new([0; SEGMENT_THRESHOLD]) }
    }

    pub(crate) fn entries(&self) -> &[i64] {
        &self.numbers[..self.len]
    }
}

impl PartialEq for Head {
    fn eq(&self, other: &Self) -> bool {
        self.spills == other.spills && self.entries() == other.entries()
    }
}

impl Eq for Head {}

/// The segment of one parent.
///
/// Its numbers are in the rows that it has spilled, oldest first, and then in its heads; a spent box is a negative entry. Rows lie outside, in
/// [`StagedSpills`] and [`SegmentTable`], which parents may share and which hold rows of one [`Edition`]. Every call tests what it is given, and a refused call changes nothing.
///
/// ```
/// use ergo_index::{BoxEntry, BoxNumber, DeletedSpills, Refusal, Segment, SegmentTable, StagedSpills};
///
/// let mut segment = Segment::new([7; 32]);
/// let mut staged = StagedSpills::with_capacity(2);
/// let table = SegmentTable::with_capacity(2);
/// let mut deleted = DeletedSpills::with_capacity(2);
///
/// segment.append_box_entry(BoxNumber(5), &mut staged)?;
/// segment.flip_box_segment_entry(BoxNumber(5), &mut staged, &table)?;
/// assert_eq!(segment.boxes(), [-5]);
/// assert_eq!(segment.flip_box_segment_entry(BoxNumber(5), &mut staged, &table), Err(Refusal::NoCopyOfThatSign));
///
/// segment.unflip_box_segment_entry(BoxNumber(5), &mut staged, &table)?;
/// assert_eq!(segment.pop_box_entry(&mut staged, &table, &mut deleted)?, BoxEntry(5));
/// # Ok::<(), Refusal>(())
/// ```
///
/// A segment may keep a summary of its spilled boxes ([`Segment::summarize`]); two segments are equal whatever summaries they keep.
#[derive(Clone)]
pub struct Segment {
    pub(crate) parent: [u8; 32],
    pub(crate) boxes: Head,
    pub(crate) txs: Head,
    pub(crate) summary: Option<Summary>,
}

impl PartialEq for Segment {
    fn eq(&self, other: &Self) -> bool {
        self.parent == other.parent && self.boxes == other.boxes && self.txs == other.txs
    }
}

impl Eq for Segment {}

type AppendCall = unsafe extern "C" fn(bool, *const u8, *mut usize, *mut i32, *mut i64, usize, i64, *mut usize, usize, *mut u8, usize) -> u8;

type PopCall = unsafe extern "C" fn(
    bool,
    *const u8,
    *mut usize,
    *mut i32,
    *mut i64,
    usize,
    *mut usize,
    usize,
    *mut u8,
    usize,
    usize,
    usize,
    *const u8,
    usize,
    *mut usize,
    usize,
    *mut u8,
    usize,
    *mut i64,
) -> u8;

type FlipCall =
    unsafe extern "C" fn(bool, *const u8, usize, i32, *mut i64, usize, i64, *mut usize, usize, *mut u8, usize, usize, usize, *const u8, usize) -> u8;

fn append<E: Edition>(call: AppendCall, parent: &[u8; 32], head: &mut Head, number: i64, staged: &mut StagedSpills<E>) -> Result<(), Refusal> {
    let s = &mut staged.list;
    let capacity = s.capacity();
    // SAFETY: each pointer comes from a live borrow, each length is that of its slice, and nothing that is written overlaps anything else.
    accepted(unsafe {
        call(
            E::SECOND,
            parent.as_ptr(),
            &mut head.len,
            &mut head.spills,
            head.numbers.as_mut_ptr(),
            SEGMENT_THRESHOLD,
            number,
            &mut s.count,
            capacity,
            s.bytes.as_mut_ptr(),
            s.bytes.len(),
        )
    })
}

fn pop<E: Edition>(
    call: PopCall,
    parent: &[u8; 32],
    head: &mut Head,
    staged: &mut StagedSpills<E>,
    table: &SegmentTable<E>,
    deleted: &mut DeletedSpills,
) -> Result<i64, Refusal> {
    let (s, t, d) = (&mut staged.list, &table.list, &mut deleted.list);
    let (s_capacity, d_capacity) = (s.capacity(), d.capacity());
    let mut number = 0;
    // SAFETY: as in `append`.
    accepted(unsafe {
        call(
            E::SECOND,
            parent.as_ptr(),
            &mut head.len,
            &mut head.spills,
            head.numbers.as_mut_ptr(),
            SEGMENT_THRESHOLD,
            &mut s.count,
            s_capacity,
            s.bytes.as_mut_ptr(),
            s.bytes.len(),
            t.count,
            t.capacity(),
            t.bytes.as_ptr(),
            t.bytes.len(),
            &mut d.count,
            d_capacity,
            d.bytes.as_mut_ptr(),
            d.bytes.len(),
            &mut number,
        )
    })?;
    Ok(number)
}

fn flip<E: Edition>(
    call: FlipCall,
    parent: &[u8; 32],
    head: &mut Head,
    target: i64,
    staged: &mut StagedSpills<E>,
    table: &SegmentTable<E>,
) -> Result<(), Refusal> {
    let (s, t) = (&mut staged.list, &table.list);
    let capacity = s.capacity();
    // SAFETY: as in `append`.
    accepted(unsafe {
        call(
            E::SECOND,
            parent.as_ptr(),
            head.len,
            head.spills,
            head.numbers.as_mut_ptr(),
            SEGMENT_THRESHOLD,
            target,
            &mut s.count,
            capacity,
            s.bytes.as_mut_ptr(),
            s.bytes.len(),
            t.count,
            t.capacity(),
            t.bytes.as_ptr(),
            t.bytes.len(),
        )
    })
}

impl Segment {
    /// An empty segment of a parent.
    pub fn new(parent: [u8; 32]) -> Self {
        Segment { parent, boxes: Head::empty(), txs: Head::empty(), summary: None }
    }

    /// A parent's segment from its row, as [`Segment::to_row`] writes it. Refused by 25, 1 to 6 or 34, 8.
    pub fn from_row(parent: [u8; 32], row: &[u8]) -> Result<Self, Refusal> {
        let mut segment = Segment::new(parent);
        decode_segment(row, &mut segment)?;
        Ok(segment)
    }

    /// The segment's row: the numbers of both heads and both spill counts.
    pub fn to_row(&self) -> Vec<u8> {
        crate::codec::encode_segment(self)
    }

    /// The parent's id.
    pub fn parent(&self) -> &[u8; 32] {
        &self.parent
    }

    /// The entries of the head of boxes.
    pub fn boxes(&self) -> &[BoxEntry] {
        BoxEntry::of(self.boxes.entries())
    }

    /// The numbers of the head of transactions.
    pub fn txs(&self) -> &[TxNumber] {
        TxNumber::of(self.txs.entries())
    }

    /// How many rows of boxes were spilled.
    pub fn box_spills(&self) -> i32 {
        self.boxes.spills
    }

    /// How many rows of transactions were spilled.
    pub fn tx_spills(&self) -> i32 {
        self.txs.spills
    }

    /// The spills of both kinds, whose rows stand outside the segment.
    pub fn spills(&self) -> impl Iterator<Item = SpillId> {
        let parent = self.parent;
        let of = move |kind, spills| (0..spills).map(move |number| SpillId { parent, kind, number });
        of(RowKind::Boxes, self.boxes.spills).chain(of(RowKind::Txs, self.txs.spills))
    }

    /// Appends a box number; a full head is first staged as the next row. Refused by 25, 11, 17; at a full head 18, 16.
    pub fn append_box_entry<E: Edition>(&mut self, number: BoxNumber, staged: &mut StagedSpills<E>) -> Result<(), Refusal> {
        match &mut self.summary {
            None => append(ffi::ergo_index_append_box_entry_in_edition, &self.parent, &mut self.boxes, number.0, staged),
            Some(summary) => summary.append(&self.parent, &mut self.boxes, number.0, staged),
        }
    }

    /// Appends a transaction number, as [`Segment::append_box_entry`] does a box number.
    pub fn append_tx_entry<E: Edition>(&mut self, number: TxNumber, staged: &mut StagedSpills<E>) -> Result<(), Refusal> {
        append(ffi::ergo_index_append_tx_entry_in_edition, &self.parent, &mut self.txs, number.0, staged)
    }

    /// Takes the last box entry off, with its mark; on an empty head the newest row becomes the head first. Refused by 25, 11; on an empty head 19, 12, 1 to 6 or 34, 8,
    /// 35 in edition 2, 20, 21.
    pub fn pop_box_entry<E: Edition>(
        &mut self,
        staged: &mut StagedSpills<E>,
        table: &SegmentTable<E>,
        deleted: &mut DeletedSpills,
    ) -> Result<BoxEntry, Refusal> {
        match &mut self.summary {
            None => pop(ffi::ergo_index_pop_box_entry_in_edition, &self.parent, &mut self.boxes, staged, table, deleted),
            Some(summary) => summary.pop(&self.parent, &mut self.boxes, staged, table, deleted),
        }
        .map(BoxEntry)
    }

    /// Takes the last transaction number off, as [`Segment::pop_box_entry`] does a box entry.
    pub fn pop_tx_entry<E: Edition>(
        &mut self,
        staged: &mut StagedSpills<E>,
        table: &SegmentTable<E>,
        deleted: &mut DeletedSpills,
    ) -> Result<TxNumber, Refusal> {
        pop(ffi::ergo_index_pop_tx_entry_in_edition, &self.parent, &mut self.txs, staged, table, deleted).map(TxNumber)
    }

    /// Marks one box as spent, in the head or else in a row, which is then staged. Refused by 25, 9, 10, 11, those of the rows that are read, 16, 14, 15.
    pub fn flip_box_segment_entry<E: Edition>(
        &mut self,
        target: BoxNumber,
        staged: &mut StagedSpills<E>,
        table: &SegmentTable<E>,
    ) -> Result<(), Refusal> {
        let (parent, boxes) = (&self.parent, &mut self.boxes);
        match &mut self.summary {
            None => flip(ffi::ergo_index_flip_box_segment_entry_in_edition, parent, boxes, target.0, staged, table),
            Some(summary) => summary.flip(ffi::ergo_index_flip_box_segment_entry_with_summary, parent, boxes, target.0, staged, table),
        }
    }

    /// Takes a spend back. Refused as the spend is.
    pub fn unflip_box_segment_entry<E: Edition>(
        &mut self,
        target: BoxNumber,
        staged: &mut StagedSpills<E>,
        table: &SegmentTable<E>,
    ) -> Result<(), Refusal> {
        let (parent, boxes) = (&self.parent, &mut self.boxes);
        match &mut self.summary {
            None => flip(ffi::ergo_index_unflip_box_segment_entry_in_edition, parent, boxes, target.0, staged, table),
            Some(summary) => summary.flip(ffi::ergo_index_unflip_box_segment_entry_with_summary, parent, boxes, target.0, staged, table),
        }
    }

    /// Makes a summary of the spilled boxes from their rows, a line for each, and keeps it from now on: appends, pops, spends and unspends of boxes keep it
    /// current, a tally adds it up and reads no row, and a spend reads only the rows in which it searches. Damage in a row that is not read goes unnoticed;
    /// making the summary afresh reads every row. Refused as a tally is, and by 36 where more spills are counted than both lists have records; a refused call
    /// leaves the summary that was kept.
    ///
    /// ```
    /// use ergo_index::{BoxNumber, Segment, SegmentTable, StagedSpills, Tally};
    /// let mut segment = Segment::new([7; 32]);
    /// let (mut staged, table) = (StagedSpills::with_capacity(2), SegmentTable::with_capacity(1));
    /// segment.summarize(&staged, &table)?;
    /// for n in 0..600 {
    ///     segment.append_box_entry(BoxNumber(n), &mut staged)?;
    /// }
    /// segment.flip_box_segment_entry(BoxNumber(9), &mut staged, &table)?;
    /// let line = segment.summary().unwrap()[0];
    /// assert_eq!((line.first, line.last, line.unspent, line.unknown, line.spent), (0, 511, 510, 1, 1));
    /// assert_eq!(segment.tally(&staged, &table)?, Tally { unspent: 598, spent: 1, unknown: 1 });
    /// # Ok::<(), ergo_index::Refusal>(())
    /// ```
    pub fn summarize<E: Edition>(&mut self, staged: &StagedSpills<E>, table: &SegmentTable<E>) -> Result<(), Refusal> {
        self.summary = Some(Summary::fresh(&self.parent, &self.boxes, staged, table)?);
        Ok(())
    }

    /// The lines of the summary, one for each row of boxes, oldest first, if one is kept.
    pub fn summary(&self) -> Option<&[SummaryLine]> {
        self.summary.as_ref().map(|summary| summary.of_spills(self.boxes.spills))
    }

    /// Keeps no summary from now on.
    pub fn drop_summary(&mut self) {
        self.summary = None;
    }

    /// How many entries of the boxes are unspent, spent and unknown, over all rows and the head. Refused by 25, 10, 11 and those of the rows. With a summary
    /// no row is read: refused by 25, 10, 11, 36.
    ///
    /// ```
    /// use ergo_index::{BoxNumber, Segment, SegmentTable, StagedSpills};
    /// let mut segment = Segment::new([7; 32]);
    /// let (mut staged, table) = (StagedSpills::with_capacity(1), SegmentTable::with_capacity(1));
    /// for n in [0, 1, 2, 3] {
    ///     segment.append_box_entry(BoxNumber(n), &mut staged)?;
    /// }
    /// segment.flip_box_segment_entry(BoxNumber(2), &mut staged, &table)?;
    /// let tally = segment.tally(&staged, &table)?;
    /// assert_eq!((tally.unspent, tally.spent, tally.unknown), (2, 1, 1));
    /// # Ok::<(), ergo_index::Refusal>(())
    /// ```
    pub fn tally<E: Edition>(&self, staged: &StagedSpills<E>, table: &SegmentTable<E>) -> Result<Tally, Refusal> {
        if let Some(summary) = &self.summary {
            return summary.tally(&self.boxes);
        }
        let (s, t) = (&staged.list, &table.list);
        let mut tally = Tally { unspent: 0, spent: 0, unknown: 0 };
        // SAFETY: as in `append`.
        accepted(unsafe {
            ffi::ergo_index_tally_in_edition(
                E::SECOND,
                self.parent.as_ptr(),
                self.boxes.len,
                self.boxes.spills,
                self.boxes.numbers.as_ptr(),
                SEGMENT_THRESHOLD,
                s.count,
                s.capacity(),
                s.bytes.as_ptr(),
                s.bytes.len(),
                t.count,
                t.capacity(),
                t.bytes.as_ptr(),
                t.bytes.len(),
                &mut tally.unspent,
                &mut tally.spent,
                &mut tally.unknown,
            )
        })?;
        Ok(tally)
    }
}

impl fmt::Debug for Segment {
    fn fmt(&self, f: &mut fmt::Formatter<'_>) -> fmt::Result {
        let of = |head: &Head| format!("{} and {} rows", head.len, head.spills);
        let id: String = self.parent[..4].iter().map(|byte| format!("{byte:02x}")).collect();
        write!(f, "Segment {id}..: boxes {}, txs {}", of(&self.boxes), of(&self.txs))
    }
}

/// What is left of the answer of a flip in a derived index.
#[derive(Clone, Copy, Debug, PartialEq, Eq)]
pub enum Tolerated {
    /// The entry was flipped.
    Flipped,
    /// The target was not seen (15), which a derived index skips.
    Skipped,
}

/// The drift rule of a derived index: a flip that did not see its target is skipped, any other answer passes. The caller counts the skips.
///
/// ```
/// use ergo_index::{tolerate_secondary_drift, Refusal, Tolerated};
/// assert_eq!(tolerate_secondary_drift(Err(Refusal::TargetNotSeen)), Ok(Tolerated::Skipped));
/// assert_eq!(tolerate_secondary_drift(Ok(())), Ok(Tolerated::Flipped));
/// assert_eq!(tolerate_secondary_drift(Err(Refusal::RowMissing)), Err(Refusal::RowMissing));
/// ```
pub fn tolerate_secondary_drift(flip: Result<(), Refusal>) -> Result<Tolerated, Refusal> {
    let code = flip.map_or_else(Refusal::code, |()| 0);
    let mut skipped = false;
    // SAFETY: the out is a live local.
    accepted(unsafe { ffi::ergo_index_tolerate_secondary_drift(code, &mut skipped) })?;
    Ok(if skipped { Tolerated::Skipped } else { Tolerated::Flipped })
}
