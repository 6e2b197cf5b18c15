//! The journal: the accepted calls that stand, oldest first, and the marks between them.

use std::fmt;

use super::calls::{count_in, HEADER, TOKEN};

/// A place between two standing calls: how many calls were accepted before it and stand. It names the same place as long as the calls before it stand.
#[derive(Clone, Copy, Debug, PartialEq, Eq, PartialOrd, Ord, Hash)]
pub struct Mark(pub(super) u64);

/// The accepted calls that stand, in bytes: each call's tokens and then its header, the newest last.
///
/// [`Index::into_parts`](crate::Index::into_parts) gives it out; a driver stores [`Journal::entries`] and [`Journal::standing`] and makes it again by
/// [`Journal::from_entries`]. Its parents are the numbers that they had in the index.
#[derive(Clone, Default)]
pub struct Journal {
    pub(super) bytes: Vec<u8>,
    pub(super) used: usize,
    pub(super) standing: usize,
    pub(super) forgotten: u64,
}

impl Journal {
    /// No call stands, and there is room for this many bytes.
    pub fn with_capacity(bytes: usize) -> Self {
        Journal { bytes: vec![0; bytes], ..Journal::default() }
    }

    /// A journal from its entries. Nothing is tested before calls are taken back: what is no call is then refused by 31.
    pub fn from_entries(entries: &[u8], standing: usize) -> Self {
        Journal { bytes: entries.to_vec(), used: entries.len(), standing, forgotten: 0 }
    }

    /// The bytes of the entries.
    pub fn entries(&self) -> &[u8] {
        &self.bytes[..self.used]
    }

    /// How many calls stand in it.
    pub fn standing(&self) -> usize {
        self.standing
    }

    /// Gives other numbers to the parents that entries name; nothing where the bytes are not entries, or a parent has no other number. Then some may be changed.
    pub fn renumber(entries: &mut [u8], mut number: impl FnMut(u32) -> Option<u32>) -> Option<()> {
        let mut end = entries.len();
        while 0 < end {
            let header = entries.get_mut(end.checked_sub(HEADER)?..end)?;
            let parent: &mut [u8; 4] = (&mut header[1..5]).try_into().expect("four bytes");
            *parent = number(u32::from_be_bytes(*parent))?.to_be_bytes();
            end = end.checked_sub(HEADER + TOKEN * count_in(header))?;
        }
        Some(())
    }

    pub(super) fn mark(&self) -> Mark {
        Mark(self.forgotten + self.standing as u64)
    }

    /// Room for at least this many bytes more.
    pub(super) fn grow(&mut self, bytes: usize) {
        let length = (2 * self.bytes.len()).max(self.used + bytes);
        self.bytes.resize(length, 0);
    }

    /// Its oldest calls, which fill so many bytes, can no longer be taken back.
    pub(super) fn forget(&mut self, calls: usize, bytes: usize) {
        self.bytes.copy_within(bytes..self.used, 0);
        self.used -= bytes;
        self.standing -= calls;
        self.forgotten += calls as u64;
    }

    pub(super) fn clear(&mut self) {
        self.forgotten += self.standing as u64;
        (self.used, self.standing) = (0, 0);
    }

    pub(super) fn replace(&mut self, entries: &[u8], standing: usize) {
        self.clear();
        if self.bytes.len() < entries.len() {
            self.bytes.resize(entries.len(), 0);
        }
        self.bytes[..entries.len()].copy_from_slice(entries);
        (self.used, self.standing) = (entries.len(), standing);
    }
}

impl PartialEq for Journal {
    fn eq(&self, other: &Self) -> bool {
        self.standing == other.standing && self.entries() == other.entries()
    }
}

impl Eq for Journal {}

impl fmt::Debug for Journal {
    fn fmt(&self, f: &mut fmt::Formatter<'_>) -> fmt::Result {
        write!(f, "Journal of {} calls in {} bytes", self.standing, self.used)
    }
}
