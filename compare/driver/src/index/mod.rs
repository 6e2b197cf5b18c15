//! The index's side: owned buffers, and a method for each call of its C interface.

mod balance;
mod batch;
mod codec;
mod summary;

pub use balance::Balance;
pub use batch::Batch;
pub use codec::{blake2b256, convert_row, row_key, write_segment, ReadLists};
pub use summary::Summary;

use ergo_index::{Edition, First, Second};

use crate::ffi::*;

pub const HEAD: usize = 512;
pub const ROW_LIMIT: usize = First::ROW_LIMIT;
pub const PAGE: usize = 64;
pub const ADDRESS_LIMIT: usize = 15_675;
pub const TOKENS: usize = 128;

pub type Id = [u8; 32];

/// A call of edition 1 as it always was, or the same call that names edition 2.
macro_rules! in_edition {
    ($second:expr, $call:expr, $named:expr, $($arg:expr),* $(,)?) => {
        if $second { $named(true, $($arg),*) } else { $call($($arg),*) }
    };
}

#[derive(Clone, Copy, PartialEq, Eq, Debug)]
pub enum Kind {
    Box,
    Tx,
}

#[derive(Clone, Copy, PartialEq, Eq, Debug)]
pub enum Direction {
    Spend,
    Unspend,
}

#[derive(Clone, PartialEq)]
pub struct Head {
    pub len: usize,
    pub spills: i32,
    pub numbers: Vec<i64>,
}

impl Head {
    pub fn new(numbers: &[i64], spills: i32) -> Self {
        let mut all = numbers.to_vec();
        all.resize(HEAD.max(all.len()), 0);
        Self {
            len: numbers.len(),
            spills,
            numbers: all,
        }
    }

    pub fn used(&self) -> &[i64] {
        &self.numbers[..self.len]
    }
}

/// Staged spills or the segments table.
#[derive(Clone, PartialEq)]
pub struct Records {
    size: usize,
    pub count: usize,
    pub capacity: usize,
    pub bytes: Vec<u8>,
}

impl Records {
    pub fn new(capacity: usize) -> Self {
        Self::of_size(First::RECORD_SIZE, capacity)
    }

    fn of_size(size: usize, capacity: usize) -> Self {
        Self {
            size,
            count: 0,
            capacity,
            bytes: vec![0; capacity * size],
        }
    }

    /// Puts a row behind the last record.
    pub fn push(&mut self, key: &Id, row: &[u8]) {
        let record = &mut self.bytes[self.count * self.size..][..self.size];
        record.fill(0);
        record[..32].copy_from_slice(key);
        record[32..34].copy_from_slice(&(row.len() as u16).to_be_bytes());
        record[34..34 + row.len()].copy_from_slice(row);
        self.count += 1;
    }

    pub fn rows(&self) -> impl Iterator<Item = (&[u8], &[u8])> {
        self.bytes.chunks_exact(self.size).take(self.count).map(|record| {
            let len = usize::from(u16::from_be_bytes([record[32], record[33]]));
            (&record[..32], &record[34..34 + len])
        })
    }

    pub fn holds(&self, key: &Id) -> bool {
        self.rows().any(|(k, _)| k == key)
    }

    pub fn full(&self) -> bool {
        self.count == self.capacity
    }
}

/// Deleted spills.
#[derive(Clone, PartialEq)]
pub struct Keys {
    pub count: usize,
    pub capacity: usize,
    pub bytes: Vec<u8>,
}

impl Keys {
    pub fn new(capacity: usize) -> Self {
        Self {
            count: 0,
            capacity,
            bytes: vec![0; capacity * 32],
        }
    }

    pub fn push(&mut self, key: &Id) {
        self.bytes[self.count * 32..][..32].copy_from_slice(key);
        self.count += 1;
    }

    pub fn keys(&self) -> impl Iterator<Item = &[u8]> {
        self.bytes.chunks_exact(32).take(self.count)
    }

    pub fn holds(&self, key: &Id) -> bool {
        self.keys().any(|k| k == key)
    }

    pub fn full(&self) -> bool {
        self.count == self.capacity
    }
}

#[derive(Clone, PartialEq)]
pub struct Lists {
    second: bool,
    pub staged: Records,
    pub table: Records,
    pub deleted: Keys,
}

impl Lists {
    pub fn new(staged: usize, table: usize, deleted: usize) -> Self {
        Self {
            second: false,
            staged: Records::new(staged),
            table: Records::new(table),
            deleted: Keys::new(deleted),
        }
    }

    /// With room for rows of edition 2.
    pub fn in_second(staged: usize, table: usize, deleted: usize) -> Self {
        Self {
            second: true,
            staged: Records::of_size(Second::RECORD_SIZE, staged),
            table: Records::of_size(Second::RECORD_SIZE, table),
            deleted: Keys::new(deleted),
        }
    }

    /// No record and no key in any of them.
    pub fn empty(&mut self) {
        self.staged.count = 0;
        self.table.count = 0;
        self.deleted.count = 0;
    }

    pub fn append(&mut self, kind: Kind, parent: &Id, head: &mut Head, number: i64) -> u8 {
        let call = match kind {
            Kind::Box => ergo_index_append_box_entry,
            Kind::Tx => ergo_index_append_tx_entry,
        };
        let named = match kind {
            Kind::Box => ergo_index_append_box_entry_in_edition,
            Kind::Tx => ergo_index_append_tx_entry_in_edition,
        };
        let (h, s) = (&mut head.numbers, &mut self.staged);
        unsafe {
            in_edition!(
                self.second,
                call,
                named,
                parent.as_ptr(),
                &mut head.len,
                &mut head.spills,
                h.as_mut_ptr(),
                h.len(),
                number,
                &mut s.count,
                s.capacity,
                s.bytes.as_mut_ptr(),
                s.bytes.len(),
            )
        }
    }

    pub fn pop(&mut self, kind: Kind, parent: &Id, head: &mut Head) -> Result<i64, u8> {
        let call = match kind {
            Kind::Box => ergo_index_pop_box_entry,
            Kind::Tx => ergo_index_pop_tx_entry,
        };
        let named = match kind {
            Kind::Box => ergo_index_pop_box_entry_in_edition,
            Kind::Tx => ergo_index_pop_tx_entry_in_edition,
        };
        let (h, s, t, d) = (&mut head.numbers, &mut self.staged, &self.table, &mut self.deleted);
        let mut number = 0;
        let code = unsafe {
            in_edition!(
                self.second,
                call,
                named,
                parent.as_ptr(),
                &mut head.len,
                &mut head.spills,
                h.as_mut_ptr(),
                h.len(),
                &mut s.count,
                s.capacity,
                s.bytes.as_mut_ptr(),
                s.bytes.len(),
                t.count,
                t.capacity,
                t.bytes.as_ptr(),
                t.bytes.len(),
                &mut d.count,
                d.capacity,
                d.bytes.as_mut_ptr(),
                d.bytes.len(),
                &mut number,
            )
        };
        match code {
            0 => Ok(number),
            refused => Err(refused),
        }
    }

    pub fn flip(&mut self, direction: Direction, parent: &Id, head: &mut Head, target: i64) -> u8 {
        let call = match direction {
            Direction::Spend => ergo_index_flip_box_segment_entry,
            Direction::Unspend => ergo_index_unflip_box_segment_entry,
        };
        let named = match direction {
            Direction::Spend => ergo_index_flip_box_segment_entry_in_edition,
            Direction::Unspend => ergo_index_unflip_box_segment_entry_in_edition,
        };
        let (h, s, t) = (&mut head.numbers, &mut self.staged, &self.table);
        unsafe {
            in_edition!(
                self.second,
                call,
                named,
                parent.as_ptr(),
                head.len,
                head.spills,
                h.as_mut_ptr(),
                h.len(),
                target,
                &mut s.count,
                s.capacity,
                s.bytes.as_mut_ptr(),
                s.bytes.len(),
                t.count,
                t.capacity,
                t.bytes.as_ptr(),
                t.bytes.len(),
            )
        }
    }

    /// Unspent, spent and unknown entries.
    pub fn tally(&self, parent: &Id, head: &Head) -> Result<(usize, usize, usize), u8> {
        let (h, s, t) = (&head.numbers, &self.staged, &self.table);
        let (mut unspent, mut spent, mut unknown) = (0, 0, 0);
        let code = unsafe {
            in_edition!(
                self.second,
                ergo_index_tally,
                ergo_index_tally_in_edition,
                parent.as_ptr(),
                head.len,
                head.spills,
                h.as_ptr(),
                h.len(),
                s.count,
                s.capacity,
                s.bytes.as_ptr(),
                s.bytes.len(),
                t.count,
                t.capacity,
                t.bytes.as_ptr(),
                t.bytes.len(),
                &mut unspent,
                &mut spent,
                &mut unknown,
            )
        };
        match code {
            0 => Ok((unspent, spent, unknown)),
            refused => Err(refused),
        }
    }

    /// How many numbers stand in the page.
    pub fn unspent_page(&self, parent: &Id, head: &Head, offset: usize, length: usize, page: &mut [i64]) -> Result<usize, u8> {
        let (h, s, t) = (&head.numbers, &self.staged, &self.table);
        let mut numbers = 0;
        let code = unsafe {
            in_edition!(
                self.second,
                ergo_index_unspent_page,
                ergo_index_unspent_page_in_edition,
                parent.as_ptr(),
                head.len,
                head.spills,
                h.as_ptr(),
                h.len(),
                s.count,
                s.capacity,
                s.bytes.as_ptr(),
                s.bytes.len(),
                t.count,
                t.capacity,
                t.bytes.as_ptr(),
                t.bytes.len(),
                offset,
                length,
                page.as_mut_ptr(),
                page.len(),
                &mut numbers,
            )
        };
        match code {
            0 => Ok(numbers),
            refused => Err(refused),
        }
    }

    pub fn flush(&mut self) -> u8 {
        let (s, t, d) = (&mut self.staged, &mut self.table, &mut self.deleted);
        unsafe {
            in_edition!(
                self.second,
                ergo_index_flush_staged_spills,
                ergo_index_flush_staged_spills_in_edition,
                &mut s.count,
                s.capacity,
                s.bytes.as_mut_ptr(),
                s.bytes.len(),
                &mut t.count,
                t.capacity,
                t.bytes.as_mut_ptr(),
                t.bytes.len(),
                &mut d.count,
                d.capacity,
                d.bytes.as_mut_ptr(),
                d.bytes.len(),
            )
        }
    }

    /// The row under a key; 12 where it is missing.
    pub fn inspect(&self, key: &Id) -> Result<&[u8], u8> {
        let (s, t) = (&self.staged, &self.table);
        let (mut list, mut offset, mut length) = (0, 0, 0);
        let code = unsafe {
            in_edition!(
                self.second,
                ergo_index_inspect_spill,
                ergo_index_inspect_spill_in_edition,
                s.count,
                s.capacity,
                s.bytes.as_ptr(),
                s.bytes.len(),
                t.count,
                t.capacity,
                t.bytes.as_ptr(),
                t.bytes.len(),
                key.as_ptr(),
                &mut list,
                &mut offset,
                &mut length,
            )
        };
        match (code, list) {
            (0, 1) => Ok(&s.bytes[offset..offset + length]),
            (0, _) => Ok(&t.bytes[offset..offset + length]),
            (refused, _) => Err(refused),
        }
    }
}
