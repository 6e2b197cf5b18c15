//! The parents of an index: added, found, and what each holds.

use super::{Index, ParentNumber};
use crate::balance::Balance;
use crate::entry::{BoxEntry, TxNumber};
use crate::parents::Side;
use crate::segment::Segment;

impl Index {
    /// One parent more, with nothing in it.
    pub fn add_parent(&mut self, id: [u8; 32]) -> ParentNumber {
        self.add_parent_with(&Segment::new(id), &Balance::new())
    }

    /// One parent more, as it was stored. Two parents of one id share the keys of their rows: [`Index::parent`] names the later one.
    ///
    /// # Panics
    /// If there are 2^32 parents.
    pub fn add_parent_with(&mut self, segment: &Segment, balance: &Balance) -> ParentNumber {
        let number = ParentNumber::at(self.parents.push(segment, balance));
        self.numbers.insert(*segment.parent(), number);
        number
    }

    /// The parent of an id.
    pub fn parent(&self, id: &[u8; 32]) -> Option<ParentNumber> {
        self.numbers.get(id).copied()
    }

    /// All parents, by ascending number.
    pub fn parents(&self) -> impl ExactSizeIterator<Item = ParentNumber> {
        (0..self.parents.count as u32).map(ParentNumber)
    }

    /// A parent's id.
    pub fn id(&self, parent: ParentNumber) -> &[u8; 32] {
        self.parents.id(parent.place())
    }

    /// The entries of the head of boxes: the newest boxes, each with its mark.
    pub fn boxes(&self, parent: ParentNumber) -> &[BoxEntry] {
        BoxEntry::of(self.parents.entries(parent.place(), Side::Boxes))
    }

    /// The numbers of the head of transactions.
    pub fn txs(&self, parent: ParentNumber) -> &[TxNumber] {
        TxNumber::of(self.parents.entries(parent.place(), Side::Txs))
    }

    /// A parent's nanoErgs.
    pub fn nano_ergs(&self, parent: ParentNumber) -> i64 {
        self.parents.nanos(parent.place())
    }

    /// A copy of a parent's segment.
    pub fn segment(&self, parent: ParentNumber) -> Segment {
        self.parents.segment(parent.place())
    }

    /// A copy of a parent's balance.
    pub fn balance(&self, parent: ParentNumber) -> Balance {
        self.parents.balance(parent.place())
    }

    /// A parent's address record, as [`IndexedAddress::to_bytes`](crate::IndexedAddress::to_bytes) writes it with the balance known; none where the parent holds
    /// nothing.
    pub fn address_record(&self, parent: ParentNumber) -> Option<Vec<u8>> {
        self.parents.record(parent.place())
    }

    /// The parents go, and with them the journal, whose calls name them, and the calls that wait. The lists stay.
    pub fn forget_parents(&mut self) {
        self.parents.clear();
        self.numbers.clear();
        self.journal.clear();
        self.blocks.clear();
        self.queue.clear();
    }
}
