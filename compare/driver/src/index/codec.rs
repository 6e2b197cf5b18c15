//! Digests, row keys and segment rows.

use reference::segment::Segment;

use super::{Id, Kind, HEAD};
use crate::ffi::*;

pub use ergo_index::blake2b256;

pub fn row_key(kind: Kind, parent: &Id, number: i32) -> Id {
    match kind {
        Kind::Box => ergo_index::box_segment_id(parent, number),
        Kind::Tx => ergo_index::tx_segment_id(parent, number),
    }
}

/// Writes a segment at the front of a buffer: the bytes that it took, or the refusal.
pub fn write_segment(segment: &Segment, out: &mut [u8]) -> Result<usize, u8> {
    let mut at = 0;
    let (txs, boxes) = (&segment.txs, &segment.boxes);
    let code = unsafe {
        ergo_index_write_segment(
            txs.as_ptr(),
            txs.len(),
            txs.len(),
            boxes.as_ptr(),
            boxes.len(),
            boxes.len(),
            segment.box_segment_count,
            segment.tx_segment_count,
            out.as_mut_ptr(),
            out.len(),
            &mut at,
        )
    };
    match code {
        0 => Ok(at),
        refused => Err(refused),
    }
}

/// Where a row is read to.
pub struct ReadLists {
    pub txs: Vec<i64>,
    pub boxes: Vec<i64>,
    pub n_txs: usize,
    pub n_boxes: usize,
    pub box_segment_count: i32,
    pub tx_segment_count: i32,
}

impl Default for ReadLists {
    fn default() -> Self {
        Self {
            txs: vec![0; HEAD],
            boxes: vec![0; HEAD],
            n_txs: 0,
            n_boxes: 0,
            box_segment_count: 0,
            tx_segment_count: 0,
        }
    }
}

impl ReadLists {
    pub fn read_segment(&mut self, row: &[u8]) -> u8 {
        unsafe {
            ergo_index_read_persisted_segment(
                row.as_ptr(),
                row.len(),
                self.txs.as_mut_ptr(),
                self.txs.len(),
                &mut self.n_txs,
                self.boxes.as_mut_ptr(),
                self.boxes.len(),
                &mut self.n_boxes,
                &mut self.box_segment_count,
                &mut self.tx_segment_count,
            )
        }
    }

    pub fn holds(&self, segment: &Segment) -> bool {
        self.txs[..self.n_txs] == segment.txs
            && self.boxes[..self.n_boxes] == segment.boxes
            && self.box_segment_count == segment.box_segment_count
            && self.tx_segment_count == segment.tx_segment_count
            && self.txs[self.n_txs..].iter().all(|&n| n == 0)
            && self.boxes[self.n_boxes..].iter().all(|&n| n == 0)
    }
}

/// A row of edition 1 as one of edition 2, and back.
pub fn convert_row(to_second: bool, row: &[u8], parent: &Id, kind: u8, number: i32, out: &mut [u8]) -> Result<usize, u8> {
    let call = match to_second {
        true => ergo_index_row_to_second,
        false => ergo_index_row_to_first,
    };
    let mut written = 0;
    let code = unsafe {
        call(
            row.as_ptr(),
            row.len(),
            parent.as_ptr(),
            kind,
            number,
            out.as_mut_ptr(),
            out.len(),
            &mut written,
        )
    };
    match code {
        0 => Ok(written),
        refused => Err(refused),
    }
}
