//! What a wallet asks of an account: its page of unspent boxes, its tally, its statement.

use ergo_index::{
    statement_milli_ergs, Balance, BoxNumber, IndexedAddress, MissingRow, Refusal, Segment, SegmentTable, StagedSpills, Tally, PAGE_LENGTH,
};

use crate::indexer::Fault;
use crate::store::{Space, Store};

/// An account as the store has it. Its rows are fetched when a question needs them.
pub struct Account<'a, S> {
    store: &'a S,
    address: IndexedAddress,
    staged: StagedSpills,
    rows: SegmentTable,
}

impl<'a, S: Store> Account<'a, S> {
    pub(crate) fn new(store: &'a S, address: IndexedAddress) -> Self {
        let spills = address.segment.box_spills().max(0) as usize;
        Account { store, address, staged: StagedSpills::with_capacity(0), rows: SegmentTable::with_capacity(spills) }
    }

    /// Its heads, and how many rows they have spilled.
    pub fn segment(&self) -> &Segment {
        &self.address.segment
    }

    /// Its balance.
    pub fn balance(&self) -> &Balance {
        self.address.balance.as_ref().expect("the store has every balance")
    }

    /// The milliErgs of its statement.
    pub fn statement(&self) -> i64 {
        statement_milli_ergs(self.balance().nano_ergs())
    }

    fn fetch(&mut self, missing: MissingRow) -> Result<(), Fault> {
        let row = self.store.get(Space::Rows, &missing.key)?.ok_or(Refusal::RowMissing)?;
        Ok(self.rows.put_row(&missing.key, &row)?)
    }

    /// How many of its boxes are unspent, spent and unknown.
    pub fn tally(&mut self) -> Result<Tally, Fault> {
        while let Some(missing) = self.address.segment.missing_for_tally(&self.staged, &self.rows) {
            self.fetch(missing)?;
        }
        Ok(self.address.segment.tally(&self.staged, &self.rows)?)
    }

    /// A page of its unspent boxes, newest first: up to 64 behind the first `offset`.
    pub fn page(&mut self, offset: usize) -> Result<Vec<BoxNumber>, Fault> {
        while let Some(missing) = self.address.segment.missing_for_page(&self.staged, &self.rows) {
            self.fetch(missing)?;
        }
        Ok(self.address.segment.unspent_page(offset, PAGE_LENGTH, &self.staged, &self.rows)?)
    }

    /// All of its unspent boxes.
    pub fn unspent_boxes(&mut self) -> Result<Vec<BoxNumber>, Fault> {
        let mut all = Vec::new();
        loop {
            let page = self.page(all.len())?;
            let last = page.len() < PAGE_LENGTH;
            all.extend(page);
            if last {
                return Ok(all);
            }
        }
    }

    /// Reads every row of boxes and compares the tally with what the lines of a fresh summary add up to.
    pub(crate) fn check_boxes(&mut self) -> Result<Tally, Fault> {
        let tally = self.tally()?;
        let mut segment = self.address.segment.clone();
        segment.summarize(&self.staged, &self.rows)?;
        if segment.tally(&self.staged, &self.rows)? != tally {
            return Err(Fault::Damaged("a tally that its summary does not add up to"));
        }
        let lines = segment.summary().unwrap_or_default();
        if lines.windows(2).any(|pair| pair[1].first < pair[0].last) {
            return Err(Fault::Damaged("rows of boxes out of order"));
        }
        Ok(tally)
    }
}
