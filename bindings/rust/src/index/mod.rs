//! An index of many parents: blocks of calls, the journal of those that stand, and rollback.

mod calls;
mod changes;
mod fetching;
mod journal;
mod lists;
mod parents;
mod places;
mod run;

use std::collections::{HashMap, VecDeque};
use std::fmt;

pub use changes::RowChange;
pub use fetching::{Rows, WholeTable};
pub use journal::{Journal, Mark};

use crate::balance::{Balance, Token};
use crate::block_call::BlockCall;
use crate::entry::{BoxNumber, TxNumber};
use crate::ffi;
use crate::lists::{DeletedSpills, SegmentTable, StagedSpills};
use crate::parents::Parents;
use crate::refusal::Refusal;
use crate::segment::Segment;
use calls::Queue;
use changes::Changes;
use places::Places;

/// A parent of an index, by its number there.
#[derive(Clone, Copy, Debug, PartialEq, Eq, PartialOrd, Ord, Hash)]
pub struct ParentNumber(u32);

impl ParentNumber {
    /// The number of a place among the parents.
    pub(crate) fn at(place: usize) -> Self {
        ParentNumber(u32::try_from(place).expect("fewer than 2^32 parents"))
    }

    /// The place among the parents, from 0.
    pub fn place(self) -> usize {
        self.0 as usize
    }
}

/// What a call of an index answers: nothing, or a refusal, which changed nothing.
pub type CallAnswer = Result<(), Refusal>;

/// The room that an index has at first. Parents, the table and the journal grow as they need; staged and deleted spills stay, since a flush makes room there.
#[derive(Clone, Copy, Debug, PartialEq, Eq)]
pub struct Capacities {
    /// Rows that are changed between two flushes.
    pub staged: usize,
    /// Rows that calls take back between two flushes.
    pub deleted: usize,
    /// Rows of the table.
    pub rows: usize,
    /// Bytes of the journal.
    pub journal: usize,
}

impl Default for Capacities {
    fn default() -> Self {
        Capacities { staged: 16, deleted: 16, rows: 64, journal: 1 << 16 }
    }
}

/// The parts of an index: its parents in the order of their numbers, its lists and its journal.
pub struct IndexParts {
    /// The parents.
    pub parents: Vec<(Segment, Balance)>,
    /// The staged spills.
    pub staged: StagedSpills,
    /// The segments table.
    pub table: SegmentTable,
    /// The deleted spills.
    pub deleted: DeletedSpills,
    /// The calls that stand.
    pub journal: Journal,
}

/// The segments and balances of any number of parents, calls that wait, and the journal of the calls that stand.
///
/// Calls are queued and then made together by [`Index::apply`], each as the call of [`Segment`] or [`Balance`] that it stands for: what refusal 25 tests is
/// tested once. Accepted calls go to the journal, from which [`Index::roll_back`] takes them back to a [`Mark`], newest first, with the flushes that
/// the fork-undo theorem asks for.
///
/// ```
/// use ergo_index::*;
///
/// let mut index = Index::new(Capacities::default());
/// let shop = index.add_parent([7; 32]);
/// index.append_box(shop, BoxNumber(5)).credit(shop, 1_500_000, &[Token { id: [9; 32], amount: 3 }]);
/// assert_eq!(index.apply()?, [Ok(()), Ok(())]);
/// index.end_block(1);
///
/// index.spend(shop, BoxNumber(5)).debit(shop, 1_500_000, &[]).spend(shop, BoxNumber(6));
/// assert_eq!(index.apply()?, [Ok(()), Ok(()), Err(Refusal::TargetNotSeen)]);
/// index.end_block(2);
/// assert_eq!((index.boxes(shop)[0].state(), index.nano_ergs(shop)), (BoxState::Spent, 0));
///
/// // a fork takes the second block back
/// index.roll_back_blocks(1)?;
/// assert_eq!((index.boxes(shop)[0].state(), index.nano_ergs(shop), index.height()), (BoxState::Unspent, 1_500_000, Some(1)));
/// # Ok::<(), Refusal>(())
/// ```
#[derive(Clone)]
pub struct Index {
    parents: Parents,
    numbers: HashMap<[u8; 32], ParentNumber>,
    staged: StagedSpills,
    table: SegmentTable,
    deleted: DeletedSpills,
    journal: Journal,
    blocks: VecDeque<Block>,
    queue: Queue,
    places: Places,
    changes: Option<Changes>,
    /// Calls may be made without a flush before them: no undo was left half way.
    settled: bool,
}

/// A block that ended: its height, and the journal at its end.
#[derive(Clone, Copy)]
struct Block {
    height: u64,
    end: Mark,
    bytes: usize,
}

impl Index {
    /// An index without parents.
    pub fn new(capacities: Capacities) -> Self {
        Index::from_parts(IndexParts {
            parents: Vec::new(),
            staged: StagedSpills::with_capacity(capacities.staged),
            table: SegmentTable::with_capacity(capacities.rows),
            deleted: DeletedSpills::with_capacity(capacities.deleted),
            journal: Journal::with_capacity(capacities.journal),
        })
    }

    /// An index from its parts; no call waits, and no block has ended. Nothing is tested before calls are made.
    pub fn from_parts(parts: IndexParts) -> Self {
        let IndexParts { parents, staged, table, deleted, journal } = parts;
        let mut index = Index {
            parents: Parents::default(),
            numbers: HashMap::new(),
            staged,
            table,
            deleted,
            journal,
            blocks: VecDeque::new(),
            queue: Queue::default(),
            places: Places::default(),
            changes: None,
            settled: false,
        };
        for (segment, balance) in &parents {
            index.add_parent_with(segment, balance);
        }
        index
    }

    /// The parts, as the calls that were made left them. Calls that wait are dropped.
    pub fn into_parts(self) -> IndexParts {
        IndexParts { parents: self.parents.to_vec(), staged: self.staged, table: self.table, deleted: self.deleted, journal: self.journal }
    }

    // ---- calls that wait

    fn wait(&mut self, kind: u8, parent: ParentNumber, number: i64, tokens: &[Token]) -> &mut Self {
        assert!(parent.place() < self.parents.count, "parent {} of {}", parent.0, self.parents.count);
        if self.queue.calls == 0 {
            self.queue.begin((self.journal.mark().0, self.journal.used));
        }
        self.queue.push(kind, parent.0, number, tokens);
        self
    }

    /// Queues [`Segment::append_box_entry`]. This and every other call panics if there is no such parent.
    pub fn append_box(&mut self, parent: ParentNumber, number: BoxNumber) -> &mut Self {
        self.wait(ffi::CALL_APPEND_BOX, parent, number.0, &[])
    }

    /// Queues [`Segment::append_tx_entry`].
    pub fn append_tx(&mut self, parent: ParentNumber, number: TxNumber) -> &mut Self {
        self.wait(ffi::CALL_APPEND_TX, parent, number.0, &[])
    }

    /// Queues [`Segment::flip_box_segment_entry`].
    pub fn spend(&mut self, parent: ParentNumber, target: BoxNumber) -> &mut Self {
        self.wait(ffi::CALL_SPEND, parent, target.0, &[])
    }

    /// Queues [`Balance::add_box`].
    pub fn credit(&mut self, parent: ParentNumber, nanos: i64, tokens: &[Token]) -> &mut Self {
        self.wait(ffi::CALL_CREDIT, parent, nanos, tokens)
    }

    /// Queues [`Balance::subtract_box`].
    pub fn debit(&mut self, parent: ParentNumber, nanos: i64, tokens: &[Token]) -> &mut Self {
        self.wait(ffi::CALL_DEBIT, parent, nanos, tokens)
    }

    /// Queues a call of a block.
    pub fn queue(&mut self, parent: ParentNumber, call: &BlockCall) -> &mut Self {
        match call {
            BlockCall::AppendBox(number) => self.append_box(parent, *number),
            BlockCall::AppendTx(number) => self.append_tx(parent, *number),
            BlockCall::Spend(target) => self.spend(parent, *target),
            BlockCall::Credit(nanos, tokens) => self.credit(parent, *nanos, tokens),
            BlockCall::Debit(nanos, tokens) => self.debit(parent, *nanos, tokens),
        }
    }

    /// How many calls wait.
    pub fn waiting(&self) -> usize {
        self.queue.waiting()
    }

    // ---- blocks

    /// Makes the calls that wait, over a table that holds every row, and answers each. Refused by 25 where the lists are not in order, and by 12 where a row
    /// is missing; the calls before it were made and stand, and the others wait.
    pub fn apply(&mut self) -> Result<Vec<CallAnswer>, Refusal> {
        self.apply_with(&mut WholeTable)
    }

    /// The place behind the newest call that stands.
    pub fn mark(&self) -> Mark {
        self.journal.mark()
    }

    /// The place before every call that can be taken back.
    pub fn oldest_mark(&self) -> Mark {
        Mark(self.journal.forgotten)
    }

    /// Takes back every call that was accepted after a mark, over a table that holds every row. Refused by 25, and by 12 where a row is missing; what was taken
    /// back until then no longer stands.
    pub fn roll_back(&mut self, mark: Mark) -> Result<(), Refusal> {
        self.roll_back_with(mark, &mut WholeTable)
    }

    /// A block ends behind the calls that were queued; if some of them wait, it ends when they are made. So several blocks can be applied at once.
    pub fn end_block(&mut self, height: u64) {
        if 0 < self.queue.calls {
            self.queue.ends.push((height, self.queue.calls));
        } else {
            self.blocks.push_back(Block { height, end: self.journal.mark(), bytes: self.journal.used });
        }
    }

    /// The height of the newest block.
    pub fn height(&self) -> Option<u64> {
        self.blocks.back().map(|block| block.height)
    }

    /// How many blocks can be taken back.
    pub fn blocks(&self) -> usize {
        self.blocks.len()
    }

    /// Takes the newest blocks back, and with them the calls since the newest block's end.
    ///
    /// # Panics
    /// If fewer blocks ended, or are remembered.
    pub fn roll_back_blocks(&mut self, blocks: usize) -> Result<(), Refusal> {
        let left = self.blocks.len().checked_sub(blocks).expect("no more blocks than have ended");
        let oldest = self.oldest_mark();
        self.roll_back(left.checked_sub(1).map_or(oldest, |last| self.blocks[last].end))?;
        self.blocks.truncate(left);
        Ok(())
    }

    /// Remembers the newest blocks only: older ones can no longer be taken back, and their calls leave the journal.
    pub fn remember(&mut self, blocks: usize) {
        let Some(forgotten) = self.blocks.len().checked_sub(blocks).filter(|&n| 0 < n) else { return };
        let Block { end, bytes, .. } = self.blocks[forgotten - 1];
        self.blocks.drain(..forgotten);
        self.blocks.iter_mut().for_each(|block| block.bytes -= bytes);
        self.journal.forget((end.0 - self.journal.forgotten) as usize, bytes);
    }
}

impl fmt::Debug for Index {
    fn fmt(&self, f: &mut fmt::Formatter<'_>) -> fmt::Result {
        write!(f, "Index of {} parents, {} rows, {} staged, {:?}", self.parents.count, self.table.len(), self.staged.len(), self.journal)
    }
}
