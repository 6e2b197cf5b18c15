//! The comparisons: for each function inputs in full where they are short, then random ones around each boundary.

pub mod addresses;
pub mod balances;
pub mod buffers;
pub mod editions;
pub mod histories;
pub mod keys;
pub mod numbers;
pub mod padded;
pub mod rows;
pub mod undo;

use crate::random::Random;

/// How much of everything a run does.
#[derive(Clone, Copy)]
pub struct Size {
    /// The longest byte strings that are tried in full.
    pub whole: usize,
    /// Random inputs of a cheap function.
    pub many: u64,
    /// Random inputs of a function that reads or writes rows.
    pub some: u64,
    pub histories: u64,
}

pub const SMALL: Size = Size {
    whole: 2,
    many: 300_000,
    some: 80_000,
    histories: 8_000,
};

pub const FULL: Size = Size {
    whole: 3,
    many: 2_000_000,
    some: 500_000,
    histories: 120_000,
};

/// Every byte string of this length.
pub fn strings(length: usize) -> impl Iterator<Item = Vec<u8>> {
    (0..1u64 << (8 * length)).map(move |n| n.to_be_bytes()[8 - length..].to_vec())
}

/// Damages bytes in one to three places: a byte changed, taken out, put in, or the rest cut off.
pub fn damage(bytes: &mut Vec<u8>, random: &mut Random) {
    for _ in 0..1 + random.below(3) {
        let at = match random.below(3) {
            0 => random.index(bytes.len().min(8) + 1),
            1 => bytes.len() - random.index(bytes.len().min(16) + 1),
            _ => random.index(bytes.len() + 1),
        };
        let byte = match random.below(3) {
            0 => random.pick(&[0, 1, 2, 0x7f, 0x80, 0x81, 0xff]),
            _ => random.word() as u8,
        };
        match random.below(5) {
            0 => bytes.insert(at, byte),
            1 if at < bytes.len() => drop(bytes.remove(at)),
            2 => bytes.truncate(at),
            3 if at < bytes.len() => bytes[at] ^= 1 << random.below(8),
            _ if at < bytes.len() => bytes[at] = byte,
            _ => bytes.push(byte),
        }
    }
}
