//! A load that can be repeated: equal states give equal calls.

use crate::entry::{BoxNumber, TxNumber};
use crate::ffi;
use crate::refusal::{accepted, Refusal};

// The bytes of a call that takes a number: its kind, its parent, the number.
const NUMBERED: usize = 10;

/// A call of a [`Load`], to parent 0.
#[derive(Clone, Copy, Debug, PartialEq, Eq)]
pub enum LoadCall {
    /// [`Segment::append_box_entry`](crate::Segment::append_box_entry) of the next box number.
    AppendBox(BoxNumber),
    /// [`Segment::append_tx_entry`](crate::Segment::append_tx_entry) of the next transaction number.
    AppendTx(TxNumber),
    /// [`Segment::flip_box_segment_entry`](crate::Segment::flip_box_segment_entry) of a box appended so far.
    Spend(BoxNumber),
    /// [`flush_staged_spills`](crate::flush_staged_spills).
    Flush,
}

/// The generator of a load: an iterator over its calls, which never ends.
///
/// ```
/// use ergo_index::*;
///
/// let mut load = Load::new(1)?;
/// let calls: Vec<LoadCall> = load.by_ref().take(9).collect();
/// assert_eq!(calls[2..5], [LoadCall::AppendBox(BoxNumber(2)), LoadCall::Spend(BoxNumber(0)), LoadCall::Spend(BoxNumber(0))]);
/// assert_eq!((calls[8], load.boxes(), load.txs()), (LoadCall::Flush, 5, 0));
///
/// // two pieces are the whole, and a batch makes the calls
/// let bytes = [Load::new(1)?.next_bytes(9)?, load.next_bytes(6)?].concat();
/// assert_eq!(bytes, Load::new(1)?.next_bytes(15)?);
/// let lists = (StagedSpills::with_capacity(2), SegmentTable::with_capacity(2), DeletedSpills::with_capacity(2));
/// let mut batch = Batch::new([(Segment::new([7; 32]), Balance::new())], lists.0, lists.1, lists.2);
/// let answers = batch.load(&mut Load::new(1)?, 15)?.run()?;
/// assert_eq!((answers.len(), batch.segment(0).boxes().len()), (15, 7));
///
/// assert_eq!(Load::new(0), Err(Refusal::StateIsZero));
/// # Ok::<(), Refusal>(())
/// ```
#[derive(Clone, Debug, PartialEq, Eq)]
pub struct Load {
    state: u64,
    boxes: u64,
    txs: u64,
}

impl Load {
    /// The generator from a state that is not 0 (38).
    pub fn new(state: u64) -> Result<Self, Refusal> {
        let mut load = Load { state, boxes: 0, txs: 0 };
        load.write(0, &mut [])?;
        Ok(load)
    }

    /// The state: the last draw.
    pub fn state(&self) -> u64 {
        self.state
    }

    /// How many boxes it has appended.
    pub fn boxes(&self) -> u64 {
        self.boxes
    }

    /// How many transactions it has appended.
    pub fn txs(&self) -> u64 {
        self.txs
    }

    /// Writes the next calls at the front of `out`, and answers how many bytes they took. Refused by 32 where they do not fit, and then no call is drawn.
    pub fn write(&mut self, calls: u64, out: &mut [u8]) -> Result<usize, Refusal> {
        let mut written = 0;
        // SAFETY: each pointer comes from a live borrow, the length is that of its slice, and nothing that is written overlaps anything else.
        accepted(unsafe {
            ffi::ergo_index_go_on(&mut self.state, &mut self.boxes, &mut self.txs, calls, out.as_mut_ptr(), out.len(), &mut written)
        })?;
        Ok(written)
    }

    /// The next calls as [`ffi::ergo_index_run_calls`] and the call runner read them. Refused only once a count is above 2^62 (25).
    pub fn next_bytes(&mut self, calls: usize) -> Result<Vec<u8>, Refusal> {
        let mut out = vec![0; NUMBERED * calls];
        let written = self.write(calls as u64, &mut out)?;
        out.truncate(written);
        Ok(out)
    }
}

impl Iterator for Load {
    type Item = LoadCall;

    /// The next call; none only once a count is above 2^62.
    fn next(&mut self) -> Option<LoadCall> {
        let mut bytes = [0; NUMBERED];
        self.write(1, &mut bytes).ok()?;
        let number = i64::from_be_bytes(bytes[2..].try_into().expect("eight bytes"));
        Some(match bytes[0] {
            1 => LoadCall::AppendBox(BoxNumber(number)),
            2 => LoadCall::AppendTx(TxNumber(number)),
            3 => LoadCall::Spend(BoxNumber(number)),
            _ => LoadCall::Flush,
        })
    }
}
