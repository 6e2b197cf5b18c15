//! Coded numbers, digests, row keys and segment rows.

use crate::ffi;
use crate::lists::{Key, ROW_LIMIT};
use crate::refusal::{accepted, Refusal};
use crate::segment::{Segment, SEGMENT_THRESHOLD};

/// The bytes of the longest coded number.
const NUMBER_LIMIT: usize = 10;

/// Writes coded numbers to the end of a buffer that it owns.
///
/// ```
/// use ergo_index::{VlqReader, VlqWriter};
/// let mut writer = VlqWriter::new();
/// writer.put_i64(64);
/// writer.put_i32(-65);
/// assert_eq!(writer.as_bytes(), [0x80, 0x01, 0x81, 0x01]);
///
/// let mut reader = VlqReader::new(writer.as_bytes());
/// assert_eq!((reader.get_i64()?, reader.get_i32()?), (64, -65));
/// assert!(reader.is_at_end());
/// # Ok::<(), ergo_index::Refusal>(())
/// ```
#[derive(Clone, Debug, Default, PartialEq, Eq)]
pub struct VlqWriter {
    bytes: Vec<u8>,
}

impl VlqWriter {
    /// An empty writer.
    pub fn new() -> Self {
        VlqWriter::default()
    }

    fn put(&mut self, write: impl FnOnce(*mut u8, usize, *mut usize) -> u8) {
        let mut at = self.bytes.len();
        self.bytes.resize(at + NUMBER_LIMIT, 0);
        let code = write(self.bytes.as_mut_ptr(), self.bytes.len(), &mut at);
        accepted(code).expect("ten bytes hold every coded number");
        self.bytes.truncate(at);
    }

    /// Writes a signed 64-bit number.
    pub fn put_i64(&mut self, n: i64) {
        // SAFETY: the pointer and the length are those of the buffer, and the position is a local.
        self.put(|out, len, at| unsafe { ffi::ergo_index_put_i64(n, out, len, at) });
    }

    /// Writes a signed 32-bit number.
    pub fn put_i32(&mut self, n: i32) {
        // SAFETY: as in `put_i64`.
        self.put(|out, len, at| unsafe { ffi::ergo_index_put_i32(n, out, len, at) });
    }

    /// What was written.
    pub fn as_bytes(&self) -> &[u8] {
        &self.bytes
    }

    /// What was written, given away.
    pub fn into_bytes(self) -> Vec<u8> {
        self.bytes
    }
}

/// Reads coded numbers from borrowed bytes. A refused read leaves the position where it was.
#[derive(Clone, Debug)]
pub struct VlqReader<'a> {
    src: &'a [u8],
    at: usize,
}

impl<'a> VlqReader<'a> {
    /// A reader at the front of the bytes.
    pub fn new(src: &'a [u8]) -> Self {
        VlqReader { src, at: 0 }
    }

    /// The position.
    pub fn position(&self) -> usize {
        self.at
    }

    /// Whether all bytes were read.
    pub fn is_at_end(&self) -> bool {
        self.at == self.src.len()
    }

    /// Reads a signed 64-bit number. Refused by 1, 2, 34.
    pub fn get_i64(&mut self) -> Result<i64, Refusal> {
        let mut n = 0;
        // SAFETY: the pointer and the length are those of the slice; the outs are a field and a local.
        accepted(unsafe { ffi::ergo_index_get_i64(self.src.as_ptr(), self.src.len(), &mut self.at, &mut n) })?;
        Ok(n)
    }

    /// Reads a signed 32-bit number. Refused by 1, 2, 34.
    pub fn get_i32(&mut self) -> Result<i32, Refusal> {
        let mut n = 0;
        // SAFETY: as in `get_i64`.
        accepted(unsafe { ffi::ergo_index_get_i32(self.src.as_ptr(), self.src.len(), &mut self.at, &mut n) })?;
        Ok(n)
    }
}

/// The BLAKE2b-256 digest (RFC 7693, unkeyed).
///
/// ```
/// assert_eq!(ergo_index::blake2b256(b"abc")[..4], [0xbd, 0xdd, 0x81, 0x3c]);
/// ```
pub fn blake2b256(bytes: &[u8]) -> [u8; 32] {
    let mut out = [0; 32];
    // SAFETY: the pointer and the length are those of the slice, and the out has 32 bytes.
    unsafe { ffi::ergo_index_blake2b256(bytes.as_ptr(), bytes.len(), out.as_mut_ptr()) };
    out
}

/// The key of a parent's row of boxes with this spill number.
///
/// ```
/// use ergo_index::{blake2b256, box_segment_id};
/// let text = format!("{} box segment 3", "07".repeat(32));
/// assert_eq!(box_segment_id(&[7; 32], 3), blake2b256(text.as_bytes()));
/// ```
pub fn box_segment_id(parent: &[u8; 32], number: i32) -> Key {
    let mut out = [0; 32];
    // SAFETY: both arrays have 32 bytes.
    unsafe { ffi::ergo_index_box_segment_id(parent.as_ptr(), number, out.as_mut_ptr()) };
    out
}

/// The key of a parent's row of transactions with this spill number.
pub fn tx_segment_id(parent: &[u8; 32], number: i32) -> Key {
    let mut out = [0; 32];
    // SAFETY: both arrays have 32 bytes.
    unsafe { ffi::ergo_index_tx_segment_id(parent.as_ptr(), number, out.as_mut_ptr()) };
    out
}

pub(crate) fn encode_segment(segment: &Segment) -> Vec<u8> {
    let mut out = vec![0; ROW_LIMIT];
    let mut at = 0;
    let (txs, boxes) = (&segment.txs, &segment.boxes);
    // SAFETY: each pointer comes from a live borrow, each length is that of its slice, and nothing that is written overlaps anything else.
    let code = unsafe {
        ffi::ergo_index_write_segment(
            txs.numbers.as_ptr(),
            SEGMENT_THRESHOLD,
            txs.len,
            boxes.numbers.as_ptr(),
            SEGMENT_THRESHOLD,
            boxes.len,
            boxes.spills,
            txs.spills,
            out.as_mut_ptr(),
            out.len(),
            &mut at,
        )
    };
    accepted(code).expect("heads of at most 512 numbers fit the longest row");
    out.truncate(at);
    out
}

pub(crate) fn decode_segment(row: &[u8], segment: &mut Segment) -> Result<(), Refusal> {
    let (txs, boxes) = (&mut segment.txs, &mut segment.boxes);
    // SAFETY: as in `encode_segment`.
    accepted(unsafe {
        ffi::ergo_index_read_persisted_segment(
            row.as_ptr(),
            row.len(),
            txs.numbers.as_mut_ptr(),
            SEGMENT_THRESHOLD,
            &mut txs.len,
            boxes.numbers.as_mut_ptr(),
            SEGMENT_THRESHOLD,
            &mut boxes.len,
            &mut boxes.spills,
            &mut txs.spills,
        )
    })
}
