//! One parent's boxes as one flat list, without rows, keys or staged spills.

use crate::entry::{BoxEntry, BoxNumber};
use crate::ffi;
use crate::refusal::{accepted, Refusal};

/// The most boxes of a [`FlatAccount`].
pub const FLAT_LIMIT: usize = 4096;

/// The box numbers of one parent in one list of at most [`FLAT_LIMIT`], for support to look at.
///
/// Box appends, spends, unspends and pops answer as those of a [`Segment`](crate::Segment) do in every history that keeps the rules and in which no list
/// is full. Which of several copies of a number carries the mark may differ.
///
/// ```
/// use ergo_index::*;
///
/// let mut account = FlatAccount::new();
/// for n in 1..=600 {
///     account.append_box(BoxNumber(n))?;
/// }
/// account.spend_box(BoxNumber(7))?;
/// assert_eq!((account.len(), account.entries()[6]), (600, BoxEntry(-7)));
/// assert_eq!(account.spend_box(BoxNumber(7)), Err(Refusal::NoCopyOfThatSign));
/// assert_eq!(account.spend_box(BoxNumber(700)), Err(Refusal::TargetNotSeen));
/// account.unspend_box(BoxNumber(7))?;
/// assert_eq!(account.pop_box()?, BoxEntry(600));
///
/// // a list of 4,096 is full
/// for n in 600..4097 {
///     account.append_box(BoxNumber(n))?;
/// }
/// assert_eq!(account.append_box(BoxNumber(4097)), Err(Refusal::FlatListFull));
/// assert_eq!(account.append_box(BoxNumber(-1)), Err(Refusal::NegativeNumber));
/// # Ok::<(), Refusal>(())
/// ```
#[derive(Clone, Debug, PartialEq, Eq)]
pub struct FlatAccount {
    count: usize,
    list: Box<[i64]>,
}

impl Default for FlatAccount {
    fn default() -> Self {
        Self::new()
    }
}

impl FlatAccount {
    /// An empty list.
    pub fn new() -> Self {
        FlatAccount { count: 0, list: vec![0; FLAT_LIMIT].into_boxed_slice() }
    }

    /// How many boxes stand in it.
    pub fn len(&self) -> usize {
        self.count
    }

    /// Whether no box stands in it.
    pub fn is_empty(&self) -> bool {
        self.count == 0
    }

    /// The entries, oldest first.
    pub fn entries(&self) -> &[BoxEntry] {
        BoxEntry::of(&self.list[..self.count])
    }

    /// Puts a box number at the end. Refused by 17 or 37.
    pub fn append_box(&mut self, number: BoxNumber) -> Result<(), Refusal> {
        // SAFETY: both pointers come from live borrows of different fields, and the length is that of the list.
        accepted(unsafe { ffi::ergo_index_flat_append_box(&mut self.count, self.list.as_mut_ptr(), self.list.len(), number.0) })
    }

    /// Marks one box as spent. Refused by 9, 10, 14 or 15.
    pub fn spend_box(&mut self, target: BoxNumber) -> Result<(), Refusal> {
        // SAFETY: as for an append.
        accepted(unsafe { ffi::ergo_index_flat_spend_box(&mut self.count, self.list.as_mut_ptr(), self.list.len(), target.0) })
    }

    /// Takes the mark of one box back. Refused by 9, 10, 14 or 15.
    pub fn unspend_box(&mut self, target: BoxNumber) -> Result<(), Refusal> {
        // SAFETY: as for an append.
        accepted(unsafe { ffi::ergo_index_flat_unspend_box(&mut self.count, self.list.as_mut_ptr(), self.list.len(), target.0) })
    }

    /// Takes the last entry off, with its mark. Refused by 19 where none stands.
    pub fn pop_box(&mut self) -> Result<BoxEntry, Refusal> {
        let mut number = 0;
        // SAFETY: the pointers come from live borrows of different places, and the length is that of the list.
        accepted(unsafe { ffi::ergo_index_flat_pop_box(&mut self.count, self.list.as_mut_ptr(), self.list.len(), &mut number) })?;
        Ok(BoxEntry(number))
    }
}
