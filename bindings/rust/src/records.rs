//! Address records, undo entries and their retention.

use crate::balance::Balance;
use crate::ffi;
use crate::refusal::{accepted, Refusal};
use crate::segment::{Segment, SEGMENT_THRESHOLD};

/// The bytes of the longest address record.
pub const ADDRESS_LIMIT: usize = 15_675;

/// An address: its hash, which is the parent id of its segment, and its balance if it is known.
///
/// ```
/// use ergo_index::{Balance, IndexedAddress, Segment};
/// let mut balance = Balance::new();
/// balance.add_box(1_000_000, &[])?;
/// let address = IndexedAddress { balance: Some(balance), segment: Segment::new([3; 32]) };
/// assert_eq!(IndexedAddress::from_bytes(&address.to_bytes())?, address);
/// # Ok::<(), ergo_index::Refusal>(())
/// ```
#[derive(Clone, Debug, PartialEq, Eq)]
pub struct IndexedAddress {
    /// The balance, if it is known.
    pub balance: Option<Balance>,
    /// The segment, whose parent id is the address's hash.
    pub segment: Segment,
}

impl IndexedAddress {
    /// The address's hash.
    pub fn hash(&self) -> &[u8; 32] {
        self.segment.parent()
    }

    /// The address's record.
    pub fn to_bytes(&self) -> Vec<u8> {
        let none = Balance::new();
        let balance = self.balance.as_ref().unwrap_or(&none);
        let (txs, boxes) = (&self.segment.txs, &self.segment.boxes);
        let mut out = vec![0; ADDRESS_LIMIT];
        let mut at = 0;
        // SAFETY: each pointer comes from a live borrow, each length is that of its slice or array, and nothing that is written overlaps anything else.
        let code = unsafe {
            ffi::ergo_index_write_indexed_address(
                self.hash().as_ptr(),
                self.balance.is_some(),
                balance.ids.as_ptr(),
                balance.amounts.as_ptr(),
                balance.count,
                balance.nanos,
                txs.numbers.as_ptr(),
                SEGMENT_THRESHOLD,
                txs.len,
                boxes.numbers.as_ptr(),
                SEGMENT_THRESHOLD,
                boxes.len,
                boxes.spills,
                txs.spills,
                out.as_mut_ptr(),
                out.len(),
                &mut at,
            )
        };
        accepted(code).expect("heads of at most 512 numbers and 128 tokens fit the longest record");
        out.truncate(at);
        out
    }

    /// An address from its record. Refused by 25, 1 to 8, 24, 34.
    pub fn from_bytes(row: &[u8]) -> Result<Self, Refusal> {
        let mut hash = [0; 32];
        let mut has_balance = false;
        let mut balance = Balance::new();
        let mut segment = Segment::new(hash);
        let (txs, boxes) = (&mut segment.txs, &mut segment.boxes);
        // SAFETY: as in `to_bytes`.
        accepted(unsafe {
            ffi::ergo_index_read_indexed_address(
                row.as_ptr(),
                row.len(),
                hash.as_mut_ptr(),
                &mut has_balance,
                balance.ids.as_mut_ptr(),
                balance.amounts.as_mut_ptr(),
                &mut balance.count,
                &mut balance.nanos,
                txs.numbers.as_mut_ptr(),
                SEGMENT_THRESHOLD,
                &mut txs.len,
                boxes.numbers.as_mut_ptr(),
                SEGMENT_THRESHOLD,
                &mut boxes.len,
                &mut boxes.spills,
                &mut txs.spills,
            )
        })?;
        segment.parent = hash;
        Ok(IndexedAddress { balance: has_balance.then_some(balance), segment })
    }
}

/// What to restore when a block is taken back: the header before it, if there was one, and the numbers of transactions and boxes.
///
/// ```
/// use ergo_index::{Refusal, UndoEntry};
/// let entry = UndoEntry { header: Some([8; 32]), txs: 3, boxes: 4 };
/// let bytes = entry.encode();
/// assert_eq!(bytes.len(), 49);
/// assert_eq!(UndoEntry::decode(&bytes)?, entry);
/// assert_eq!(UndoEntry::decode(&bytes[..48]), Err(Refusal::UndoEntryNumbersCut));
/// # Ok::<(), Refusal>(())
/// ```
#[derive(Clone, Copy, Debug, PartialEq, Eq)]
pub struct UndoEntry {
    /// The id of the header before the block.
    pub header: Option<[u8; 32]>,
    /// The number of transactions before the block.
    pub txs: u64,
    /// The number of boxes before the block.
    pub boxes: u64,
}

impl UndoEntry {
    /// The entry's bytes: 49 with a header, 17 without.
    pub fn encode(&self) -> Vec<u8> {
        let header = self.header.unwrap_or_default();
        let mut out = vec![0; 49];
        let mut written = 0;
        // SAFETY: the pointers and lengths are those of live arrays and buffers, and the out is a local.
        let code = unsafe {
            ffi::ergo_index_encode_undo_entry(self.header.is_some(), header.as_ptr(), self.txs, self.boxes, out.as_mut_ptr(), out.len(), &mut written)
        };
        accepted(code).expect("49 bytes hold every undo entry");
        out.truncate(written);
        out
    }

    /// An entry from its bytes. Refused by 26, 28, 27, 29, 30.
    pub fn decode(bytes: &[u8]) -> Result<Self, Refusal> {
        let (mut known, mut header, mut txs, mut boxes) = (false, [0; 32], 0, 0);
        // SAFETY: as in `encode`.
        accepted(unsafe { ffi::ergo_index_decode_undo_entry(bytes.as_ptr(), bytes.len(), &mut known, header.as_mut_ptr(), &mut txs, &mut boxes) })?;
        Ok(UndoEntry { header: known.then_some(header), txs, boxes })
    }
}

/// Keeps the heights that are at least `current - window` if `current` is above the window, else all. Without a window it is 720.
///
/// ```
/// let mut heights = vec![1, 400, 399];
/// ergo_index::prune_below_window(&mut heights, 1120, None);
/// assert_eq!(heights, [400]);
/// ergo_index::prune_below_window(&mut heights, 601, Some(200));
/// assert!(heights.is_empty());
/// ```
pub fn prune_below_window(heights: &mut Vec<u64>, current: u64, window: Option<u64>) {
    let mut count = heights.len();
    // SAFETY: the pointer and the length are those of the vector's slice, and the out is a local.
    let code = unsafe {
        ffi::ergo_index_prune_below_window(
            heights.as_mut_ptr(),
            heights.len(),
            &mut count,
            heights.len(),
            current,
            window.is_some(),
            window.unwrap_or(0),
        )
    };
    accepted(code).expect("a list within its own length is not refused");
    heights.truncate(count);
}
