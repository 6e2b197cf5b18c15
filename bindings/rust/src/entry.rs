//! Numbers of boxes and transactions, and the entries of a list of boxes.

use std::fmt;

/// The number of a box.
#[derive(Clone, Copy, Debug, PartialEq, Eq, PartialOrd, Ord, Hash)]
pub struct BoxNumber(pub i64);

/// The number of a transaction.
#[derive(Clone, Copy, Debug, PartialEq, Eq, PartialOrd, Ord, Hash)]
#[repr(transparent)]
pub struct TxNumber(pub i64);

/// The mark of a box.
#[derive(Clone, Copy, Debug, PartialEq, Eq, Hash)]
pub enum BoxState {
    /// The box can be spent.
    Unspent,
    /// The box was spent.
    Spent,
    /// The first box of the chain, number 0, whose entry has no sign.
    Unknown,
}

/// An entry of a list of boxes: a box with its mark, kept as its number, which is negative where the box is spent.
///
/// ```
/// use ergo_index::{BoxEntry, BoxNumber, BoxState};
/// let entry = BoxEntry(-5);
/// assert_eq!((entry.number(), entry.state()), (BoxNumber(5), BoxState::Spent));
/// assert_eq!(BoxEntry(0).state(), BoxState::Unknown);
/// assert_eq!(format!("{entry:?} {:?}", BoxEntry(7)), "5 spent 7");
/// ```
#[derive(Clone, Copy, PartialEq, Eq, Hash)]
#[repr(transparent)]
pub struct BoxEntry(pub i64);

impl BoxEntry {
    /// The box. The entry -2^63, which no call makes, has the number -2^63.
    pub const fn number(self) -> BoxNumber {
        BoxNumber(self.0.wrapping_abs())
    }

    /// Its mark.
    pub const fn state(self) -> BoxState {
        match self.0 {
            0 => BoxState::Unknown,
            n if n < 0 => BoxState::Spent,
            _ => BoxState::Unspent,
        }
    }

    /// A list of entries, as it is kept.
    pub(crate) fn of(entries: &[i64]) -> &[BoxEntry] {
        // SAFETY: a BoxEntry is an i64, and the borrow is the same.
        unsafe { std::slice::from_raw_parts(entries.as_ptr().cast(), entries.len()) }
    }
}

impl TxNumber {
    /// A list of numbers, as it is kept.
    pub(crate) fn of(numbers: &[i64]) -> &[TxNumber] {
        // SAFETY: a TxNumber is an i64, and the borrow is the same.
        unsafe { std::slice::from_raw_parts(numbers.as_ptr().cast(), numbers.len()) }
    }
}

impl PartialEq<i64> for BoxEntry {
    fn eq(&self, other: &i64) -> bool {
        self.0 == *other
    }
}

impl PartialEq<i64> for TxNumber {
    fn eq(&self, other: &i64) -> bool {
        self.0 == *other
    }
}

impl fmt::Debug for BoxEntry {
    fn fmt(&self, f: &mut fmt::Formatter<'_>) -> fmt::Result {
        let mark = if self.state() == BoxState::Spent { " spent" } else { "" };
        write!(f, "{}{mark}", self.number().0)
    }
}
