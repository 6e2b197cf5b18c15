//! The parents of a batch or an index: for each a block in each of four buffers, as the calls of many parents borrow them.

use crate::balance::{Balance, MAX_TOKENS};
use crate::ffi;
use crate::records::ADDRESS_LIMIT;
use crate::refusal::accepted;
use crate::segment::{Head, Segment, SEGMENT_THRESHOLD};

// A parent's block in each of the four buffers.
const IDS: usize = 32 + 32 * MAX_TOKENS;
const NUMBERS: usize = 2 * SEGMENT_THRESHOLD + MAX_TOKENS + 1;
const LENGTHS: usize = 3;
const SPILLS: usize = 2;
const AMOUNTS: usize = 2 * SEGMENT_THRESHOLD;
const NANOS: usize = NUMBERS - 1;

/// The ids, heads and balances of parents, numbered from 0.
#[derive(Clone, Default)]
pub(crate) struct Parents {
    pub(crate) count: usize,
    pub(crate) ids: Vec<u8>,
    pub(crate) numbers: Vec<i64>,
    pub(crate) lengths: Vec<usize>,
    pub(crate) spills: Vec<i32>,
}

/// Which head of a parent.
#[derive(Clone, Copy, Debug, PartialEq, Eq)]
pub(crate) enum Side {
    Boxes = 0,
    Txs = 1,
}

impl Parents {
    /// One parent more, with this number.
    pub(crate) fn push(&mut self, segment: &Segment, balance: &Balance) -> usize {
        self.ids.extend(segment.parent);
        self.ids.extend(*balance.ids);
        self.numbers.extend(*segment.boxes.numbers);
        self.numbers.extend(*segment.txs.numbers);
        self.numbers.extend(*balance.amounts);
        self.numbers.push(balance.nanos);
        self.lengths.extend([segment.boxes.len, segment.txs.len, balance.count]);
        self.spills.extend([segment.boxes.spills, segment.txs.spills]);
        self.count += 1;
        self.count - 1
    }

    /// The parents' blocks are taken over by others.
    pub(crate) fn clear(&mut self) {
        self.count = 0;
        self.ids.clear();
        self.numbers.clear();
        self.lengths.clear();
        self.spills.clear();
    }

    pub(crate) fn id(&self, parent: usize) -> &[u8; 32] {
        self.ids[parent * IDS..].first_chunk().expect("a block begins with the parent's id")
    }

    pub(crate) fn len_of(&self, parent: usize, side: Side) -> usize {
        self.lengths[parent * LENGTHS + side as usize]
    }

    pub(crate) fn spills_of(&self, parent: usize, side: Side) -> i32 {
        self.spills[parent * SPILLS + side as usize]
    }

    /// The 512 places of a head.
    pub(crate) fn places(&self, parent: usize, side: Side) -> &[i64; SEGMENT_THRESHOLD] {
        self.numbers[parent * NUMBERS + side as usize * SEGMENT_THRESHOLD..].first_chunk().expect("a block has the places of both heads")
    }

    /// The entries of a head.
    pub(crate) fn entries(&self, parent: usize, side: Side) -> &[i64] {
        &self.places(parent, side)[..self.len_of(parent, side)]
    }

    fn head(&self, parent: usize, side: Side) -> Head {
        Head { len: self.len_of(parent, side), spills: self.spills_of(parent, side), numbers: Box::new(*self.places(parent, side)) }
    }

    /// A copy of a parent's segment.
    pub(crate) fn segment(&self, parent: usize) -> Segment {
        Segment { parent: *self.id(parent), boxes: self.head(parent, Side::Boxes), txs: self.head(parent, Side::Txs), summary: None }
    }

    pub(crate) fn nanos(&self, parent: usize) -> i64 {
        self.numbers[parent * NUMBERS + NANOS]
    }

    /// A copy of a parent's balance.
    pub(crate) fn balance(&self, parent: usize) -> Balance {
        let mut balance = Balance::new();
        let numbers = &self.numbers[parent * NUMBERS..(parent + 1) * NUMBERS];
        balance.ids.copy_from_slice(&self.ids[parent * IDS + 32..(parent + 1) * IDS]);
        balance.amounts.copy_from_slice(&numbers[AMOUNTS..NANOS]);
        balance.count = self.lengths[parent * LENGTHS + 2];
        balance.nanos = numbers[NANOS];
        balance
    }

    /// A parent's address record, unless it holds nothing.
    pub(crate) fn record(&self, parent: usize) -> Option<Vec<u8>> {
        let (ids, numbers) = (&self.ids[parent * IDS + 32..(parent + 1) * IDS], &self.numbers[parent * NUMBERS..(parent + 1) * NUMBERS]);
        let (boxes, txs, tokens) = (self.len_of(parent, Side::Boxes), self.len_of(parent, Side::Txs), self.lengths[parent * LENGTHS + 2]);
        let (box_spills, tx_spills) = (self.spills_of(parent, Side::Boxes), self.spills_of(parent, Side::Txs));
        if (boxes, txs, tokens, box_spills, tx_spills, self.nanos(parent)) == (0, 0, 0, 0, 0, 0) {
            return None;
        }
        let mut out = vec![0; ADDRESS_LIMIT];
        let mut at = 0;
        // SAFETY: each pointer comes from a live borrow of at least the places that the call reads, and the outs are locals.
        let code = unsafe {
            ffi::ergo_index_write_indexed_address(
                self.id(parent).as_ptr(),
                true,
                ids.as_ptr(),
                numbers[AMOUNTS..].as_ptr(),
                tokens,
                self.nanos(parent),
                self.places(parent, Side::Txs).as_ptr(),
                SEGMENT_THRESHOLD,
                txs,
                self.places(parent, Side::Boxes).as_ptr(),
                SEGMENT_THRESHOLD,
                boxes,
                box_spills,
                tx_spills,
                out.as_mut_ptr(),
                out.len(),
                &mut at,
            )
        };
        accepted(code).expect("heads of at most 512 numbers and 128 tokens fit the longest record");
        out.truncate(at);
        Some(out)
    }

    /// Copies of all parents, in the order of their numbers.
    pub(crate) fn to_vec(&self) -> Vec<(Segment, Balance)> {
        (0..self.count).map(|parent| (self.segment(parent), self.balance(parent))).collect()
    }
}
