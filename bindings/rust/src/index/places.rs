//! How many places of the staged spills a call borrows.

use crate::lists::List;

/// An undo flushes where its places are full, so it borrows no more than these: each flush clears them all.
const UNDO_PLACES: usize = 8;

/// A place is spared for so many rows.
const ROWS_A_PLACE: usize = 256;

/// A flush clears every place that it borrows, used or not. So a batch borrows as many as batches lately used, and more once a call finds too few.
#[derive(Clone, Copy, Default)]
pub(super) struct Places {
    lately: usize,
}

impl Places {
    pub(super) fn for_batch(&self, staged: &List) -> usize {
        self.lately.max(staged.count).min(staged.capacity())
    }

    pub(super) fn for_undo(&self, staged: &List) -> usize {
        self.lately.min(UNDO_PLACES).max(staged.count).min(staged.capacity())
    }

    /// Whether there are more to borrow, where a call found too few.
    pub(super) fn more(&mut self, staged: &List) -> bool {
        let before = self.for_batch(staged);
        self.lately = (2 * before).max(staged.count + 1).min(staged.capacity());
        before < self.lately
    }

    /// A batch over a table of so many rows used so many. To find too few costs a look at every row, so that a larger table has some to spare.
    pub(super) fn used(&mut self, places: usize, rows: usize) {
        self.lately = (places + rows / ROWS_A_PLACE).max(self.lately - self.lately / 8);
    }
}
