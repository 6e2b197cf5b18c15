//! Balances.

use super::TOKENS;
use crate::ffi::*;

/// A balance: 128 ids and amounts, of which `count` are in use.
#[derive(Clone, PartialEq)]
pub struct Balance {
    pub ids: Box<[u8; 4096]>,
    pub amounts: Box<[i64; TOKENS]>,
    pub count: usize,
    pub nanos: i64,
}

impl Default for Balance {
    fn default() -> Self {
        Self {
            ids: Box::new([0; 4096]),
            amounts: Box::new([0; TOKENS]),
            count: 0,
            nanos: 0,
        }
    }
}

impl Balance {
    pub fn add_box(&mut self, nanos: i64, ids: &[u8], amounts: &[i64]) -> u8 {
        self.call(ergo_index_add_box, nanos, ids, amounts)
    }

    pub fn subtract_box(&mut self, nanos: i64, ids: &[u8], amounts: &[i64]) -> u8 {
        self.call(ergo_index_subtract_box, nanos, ids, amounts)
    }

    #[allow(clippy::type_complexity)]
    fn call(
        &mut self,
        call: unsafe extern "C" fn(
            *mut u8,
            *mut i64,
            *mut usize,
            *mut i64,
            i64,
            *const u8,
            usize,
            *const i64,
            usize,
            usize,
        ) -> u8,
        nanos: i64,
        ids: &[u8],
        amounts: &[i64],
    ) -> u8 {
        unsafe {
            call(
                self.ids.as_mut_ptr(),
                self.amounts.as_mut_ptr(),
                &mut self.count,
                &mut self.nanos,
                nanos,
                ids.as_ptr(),
                ids.len(),
                amounts.as_ptr(),
                amounts.len(),
                amounts.len(),
            )
        }
    }

    pub fn tokens(&self) -> impl Iterator<Item = (&[u8], i64)> {
        self.ids.chunks_exact(32).zip(self.amounts.iter().copied()).take(self.count)
    }
}
