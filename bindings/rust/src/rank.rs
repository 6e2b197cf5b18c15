//! Whole addresses in a fixed order.

use std::cmp::Ordering;

use crate::balance::Balance;
use crate::edition::Edition;
use crate::ffi;
use crate::lists::{List, SegmentTable, StagedSpills};
use crate::refusal::{accepted, Refusal};
use crate::segment::Segment;

/// A whole address, borrowed: its segment, its balance if it has one, and the lists that hold its rows. Addresses of either edition compare with each other.
#[derive(Clone, Copy, Debug)]
pub struct Address<'a> {
    second_edition: bool,
    segment: &'a Segment,
    balance: Option<&'a Balance>,
    staged: &'a List,
    table: &'a List,
}

/// What an address without a balance is compared with in its place: nothing of it is read.
static NO_BALANCE: std::sync::OnceLock<Balance> = std::sync::OnceLock::new();

impl<'a> Address<'a> {
    /// An address over a segment and a balance, or none, whose rows are in these lists.
    pub fn new<E: Edition>(segment: &'a Segment, balance: Option<&'a Balance>, staged: &'a StagedSpills<E>, table: &'a SegmentTable<E>) -> Self {
        Address { second_edition: E::SECOND, segment, balance, staged: &staged.list, table: &table.list }
    }

    fn balance(&self) -> &Balance {
        self.balance.unwrap_or_else(|| NO_BALANCE.get_or_init(Balance::new))
    }

    /// How this address ranks beside another: by the hash; then no balance before a balance; nanoErgs; the tokens by ascending id, id and then amount; the box
    /// entries with their marks, rows and head as one list; the transaction entries. A list that ends earlier is first. Two addresses are
    /// [`Equal`](Ordering::Equal) where all of these agree, whatever the sequence of their tokens and however their entries are divided between rows and head.
    ///
    /// Every row of both is read and checked, also where the hashes differ already: an order is given only of addresses that are whole, so that this is no
    /// [`Ord`]. [`Address::sort`] checks each address once and then sorts.
    ///
    /// Refused by 25 of either, 41 where a token id stands twice in either balance, then by the first row of this address, or else of the other, that a pop would
    /// refuse: 11, 12, 1 to 6, 34, 8, 35, 20.
    ///
    /// ```
    /// use ergo_index::{Address, Balance, BoxNumber, Refusal, Second, Segment, SegmentTable, StagedSpills};
    /// use std::cmp::Ordering;
    ///
    /// // the same account on two servers, with rows of either edition
    /// let mut segment = Segment::new([7; 32]);
    /// let mut staged = StagedSpills::with_capacity(1);
    /// let table = SegmentTable::with_capacity(1);
    /// segment.append_box_entry(BoxNumber(5), &mut staged)?;
    /// let mut copy = Segment::new([7; 32]);
    /// let mut copy_staged = StagedSpills::in_edition(Second, 1);
    /// let copy_table = SegmentTable::in_edition(Second, 1);
    /// copy.append_box_entry(BoxNumber(5), &mut copy_staged)?;
    /// let balance = Balance::new();
    ///
    /// let first = Address::new(&segment, Some(&balance), &staged, &table);
    /// assert_eq!(first.rank(&Address::new(&copy, Some(&balance), &copy_staged, &copy_table)), Ok(Ordering::Equal));
    /// assert_eq!(first.rank(&Address::new(&copy, None, &copy_staged, &copy_table)), Ok(Ordering::Greater));
    /// # Ok::<(), Refusal>(())
    /// ```
    pub fn rank(&self, other: &Address) -> Result<Ordering, Refusal> {
        let mut order = 0;
        // SAFETY: each pointer comes from a live borrow, each length is that of its slice, and nothing but `order` is written.
        accepted(unsafe {
            ffi::ergo_index_rank(
                self.second_edition,
                self.segment.parent.as_ptr(),
                self.balance.is_some(),
                self.balance().nanos,
                self.balance().ids.as_ptr(),
                self.balance().amounts.as_ptr(),
                self.balance().count,
                self.segment.boxes.len,
                self.segment.boxes.spills,
                self.segment.boxes.numbers.as_ptr(),
                self.segment.boxes.numbers.len(),
                self.segment.txs.len,
                self.segment.txs.spills,
                self.segment.txs.numbers.as_ptr(),
                self.segment.txs.numbers.len(),
                self.staged.count,
                self.staged.capacity(),
                self.staged.bytes.as_ptr(),
                self.staged.bytes.len(),
                self.table.count,
                self.table.capacity(),
                self.table.bytes.as_ptr(),
                self.table.bytes.len(),
                other.second_edition,
                other.segment.parent.as_ptr(),
                other.balance.is_some(),
                other.balance().nanos,
                other.balance().ids.as_ptr(),
                other.balance().amounts.as_ptr(),
                other.balance().count,
                other.segment.boxes.len,
                other.segment.boxes.spills,
                other.segment.boxes.numbers.as_ptr(),
                other.segment.boxes.numbers.len(),
                other.segment.txs.len,
                other.segment.txs.spills,
                other.segment.txs.numbers.as_ptr(),
                other.segment.txs.numbers.len(),
                other.staged.count,
                other.staged.capacity(),
                other.staged.bytes.as_ptr(),
                other.staged.bytes.len(),
                other.table.count,
                other.table.capacity(),
                other.table.bytes.as_ptr(),
                other.table.bytes.len(),
                &mut order,
            )
        })?;
        Ok(order.cmp(&0))
    }

    /// Whether the address is whole, so that [`Address::rank`] answers beside every other that is: it is ranked beside itself.
    pub fn check(&self) -> Result<(), Refusal> {
        self.rank(self).map(|_| ())
    }

    /// Puts addresses into their order; equal ones keep their places beside each other. The first that is not whole refuses the sort, and the addresses then
    /// stay as they were.
    pub fn sort(addresses: &mut [Address]) -> Result<(), Refusal> {
        for address in addresses.iter() {
            address.check()?;
        }
        addresses.sort_by(|a, b| a.rank(b).expect("both addresses passed their check"));
        Ok(())
    }
}
