//! Every short history: what is run before a release.

use crate::entry::BoxNumber;
use crate::ffi;
use crate::refusal::{accepted, Refusal};

/// The bytes of all short histories.
pub const HISTORIES_LENGTH: usize = 2668;

/// A call of a short history, for one parent.
#[derive(Clone, Copy, Debug, PartialEq, Eq, PartialOrd, Ord)]
pub enum HistoryCall {
    /// [`Segment::append_box_entry`](crate::Segment::append_box_entry) of number 1.
    Append1,
    /// The same of number 2.
    Append2,
    /// [`Segment::flip_box_segment_entry`](crate::Segment::flip_box_segment_entry) of number 1.
    Spend1,
    /// The same of number 2.
    Spend2,
    /// The newest standing call is taken back: [`Segment::pop_box_entry`](crate::Segment::pop_box_entry) of an append,
    /// [`Segment::unflip_box_segment_entry`](crate::Segment::unflip_box_segment_entry) of a spend.
    Undo,
    /// [`flush_staged_spills`](crate::flush_staged_spills).
    Flush,
}

impl HistoryCall {
    /// The calls, ranked in this sequence.
    pub const ALL: [HistoryCall; 6] =
        [HistoryCall::Append1, HistoryCall::Append2, HistoryCall::Spend1, HistoryCall::Spend2, HistoryCall::Undo, HistoryCall::Flush];

    /// The number of an append or a spend.
    pub fn number(self) -> Option<BoxNumber> {
        match self {
            HistoryCall::Append1 | HistoryCall::Spend1 => Some(BoxNumber(1)),
            HistoryCall::Append2 | HistoryCall::Spend2 => Some(BoxNumber(2)),
            HistoryCall::Undo | HistoryCall::Flush => None,
        }
    }
}

/// Every list of 0 to 5 calls for one fresh parent that keeps the history rules, with a flush at each change between calls and undos, and in which every
/// call is accepted: shorter ones first, equal lengths by their first differing call, each once.
///
/// ```
/// use ergo_index::{HistoryCall, Refusal, ShortHistories};
///
/// let histories: Vec<Vec<HistoryCall>> = ShortHistories::new().collect();
/// assert_eq!((histories.len(), histories[0].len()), (481, 0));
/// assert!(histories.contains(&vec![HistoryCall::Append1, HistoryCall::Flush, HistoryCall::Undo]));
/// assert!(!histories.contains(&vec![HistoryCall::Append1, HistoryCall::Undo]));
///
/// let mut out = [9; 10];
/// assert_eq!((ShortHistories::write(&mut out), out), (Err(Refusal::OutputTooShort), [9; 10]));
/// ```
#[derive(Clone, Debug)]
pub struct ShortHistories {
    bytes: Vec<u8>,
    at: usize,
}

impl Default for ShortHistories {
    fn default() -> Self {
        Self::new()
    }
}

impl ShortHistories {
    /// An iterator over all of them.
    pub fn new() -> Self {
        let mut bytes = vec![0; HISTORIES_LENGTH];
        let written = Self::write(&mut bytes).expect("as long as all histories");
        bytes.truncate(written);
        ShortHistories { bytes, at: 0 }
    }

    /// Writes all of them at the front of `out`, each as a byte of its length and one byte per call, 1 to 6 by rank, and answers how many bytes they took.
    /// Refused by 32 where they do not fit.
    pub fn write(out: &mut [u8]) -> Result<usize, Refusal> {
        let mut written = 0;
        // SAFETY: both pointers come from live borrows of different places, and the length is that of the slice.
        accepted(unsafe { ffi::ergo_index_list_histories(out.as_mut_ptr(), out.len(), &mut written) })?;
        Ok(written)
    }
}

impl Iterator for ShortHistories {
    type Item = Vec<HistoryCall>;

    fn next(&mut self) -> Option<Vec<HistoryCall>> {
        let from = self.at + 1;
        let to = from + usize::from(*self.bytes.get(self.at)?);
        self.at = to;
        Some(self.bytes[from..to].iter().map(|byte| HistoryCall::ALL[usize::from(*byte) - 1]).collect())
    }
}
