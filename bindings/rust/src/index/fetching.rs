//! Rows that are kept elsewhere, fetched when a call needs them.

use super::calls::Header;
use super::Index;
use crate::ffi;
use crate::lists::Key;
use crate::parents::Side;
use crate::refusal::Refusal;
use crate::working_set::{for_flip, for_pop, HeadView, MissingRow};

/// Where the rows of the whole table are kept.
pub trait Rows {
    /// Why a row could not be had.
    type Error: From<Refusal>;

    /// The row under a key, if there is one.
    fn row(&mut self, key: &Key) -> Result<Option<Vec<u8>>, Self::Error>;
}

/// No rows are kept elsewhere: the index holds them all.
#[derive(Clone, Copy, Debug)]
pub struct WholeTable;

impl Rows for WholeTable {
    type Error = Refusal;

    fn row(&mut self, _: &Key) -> Result<Option<Vec<u8>>, Refusal> {
        Ok(None)
    }
}

impl Index {
    fn view(&self, parent: usize, side: Side) -> HeadView<'_> {
        let p = &self.parents;
        HeadView { parent: p.id(parent), len: p.len_of(parent, side), spills: p.spills_of(parent, side), places: p.places(parent, side) }
    }

    /// The next row that making a spend, or taking a standing call back, needs. A call that is made appends, or spends; one that is taken back pops, or unspends.
    fn missing(&self, call: &Header, undone: bool) -> Option<MissingRow> {
        let (staged, table) = (&self.staged, &self.table);
        match (call.kind, undone) {
            (ffi::CALL_SPEND, false) => for_flip(ffi::ergo_index_missing_for_spend, self.view(call.parent, Side::Boxes), call.number, staged, table),
            (ffi::CALL_SPEND, true) => for_flip(ffi::ergo_index_missing_for_unspend, self.view(call.parent, Side::Boxes), call.number, staged, table),
            (ffi::CALL_APPEND_BOX, true) => {
                for_pop(ffi::ergo_index_missing_for_pop_box, self.view(call.parent, Side::Boxes), staged, table, &self.deleted)
            }
            (ffi::CALL_APPEND_TX, true) => {
                for_pop(ffi::ergo_index_missing_for_pop_tx, self.view(call.parent, Side::Txs), staged, table, &self.deleted)
            }
            _ => None,
        }
    }

    /// Fetches every row that the call needs; 12 where there is none of that key.
    pub(super) fn fetch_for<R: Rows>(&mut self, call: &Header, undone: bool, rows: &mut R) -> Result<(), R::Error> {
        let mut missing = self.missing(call, undone).ok_or(Refusal::RowMissing)?;
        loop {
            let row = rows.row(&missing.key)?.ok_or(Refusal::RowMissing)?;
            if self.table.len() == self.table.capacity() {
                self.table.list.grow(1);
            }
            self.table.put_row(&missing.key, &row)?;
            match self.missing(call, undone) {
                Some(next) => missing = next,
                None => return Ok(()),
            }
        }
    }
}
