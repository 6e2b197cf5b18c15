//! Parents that have a table of their own each: blocks made by single calls, and rollback.

use std::collections::{HashMap, VecDeque};
use std::fmt;

use crate::balance::Balance;
use crate::block_call::BlockCall;
use crate::index::{CallAnswer, ParentNumber};
use crate::lists::{flush_used, DeletedSpills, SegmentTable, StagedSpills};
use crate::refusal::Refusal;
use crate::segment::Segment;

/// A parent with its balance and the table of its own rows.
#[derive(Clone, Debug, PartialEq, Eq)]
pub struct Account {
    /// The heads of boxes and of transactions.
    pub segment: Segment,
    /// NanoErgs and tokens.
    pub balance: Balance,
    /// The rows that were spilled and flushed.
    pub table: SegmentTable,
}

impl Account {
    /// A parent that holds nothing.
    pub fn new(id: [u8; 32]) -> Self {
        Account { segment: Segment::new(id), balance: Balance::new(), table: SegmentTable::with_capacity(0) }
    }

    fn make(&mut self, call: &BlockCall, staged: &mut StagedSpills) -> CallAnswer {
        match call {
            BlockCall::AppendBox(number) => self.segment.append_box_entry(*number, staged),
            BlockCall::AppendTx(number) => self.segment.append_tx_entry(*number, staged),
            BlockCall::Spend(target) => self.segment.flip_box_segment_entry(*target, staged, &self.table),
            BlockCall::Credit(nanos, tokens) => self.balance.add_box(*nanos, tokens),
            BlockCall::Debit(nanos, tokens) => self.balance.subtract_box(*nanos, tokens),
        }
    }

    fn undo(&mut self, call: &BlockCall, staged: &mut StagedSpills, deleted: &mut DeletedSpills) -> CallAnswer {
        match call {
            BlockCall::AppendBox(_) => self.segment.pop_box_entry(staged, &self.table, deleted).map(drop),
            BlockCall::AppendTx(_) => self.segment.pop_tx_entry(staged, &self.table, deleted).map(drop),
            BlockCall::Spend(target) => self.segment.unflip_box_segment_entry(*target, staged, &self.table),
            BlockCall::Credit(nanos, tokens) => self.balance.subtract_box(*nanos, tokens),
            BlockCall::Debit(nanos, tokens) => self.balance.add_box(*nanos, tokens),
        }
    }

    /// Writes what is staged to the table, which grows as it needs, and removes what is deleted.
    fn flush(&mut self, staged: &mut StagedSpills, deleted: &mut DeletedSpills) -> Result<(), Refusal> {
        if staged.is_empty() && deleted.is_empty() {
            return Ok(());
        }
        if self.table.capacity() < self.table.len() + staged.len() {
            self.table.list.grow(staged.len());
        }
        flush_used(staged, &mut self.table, deleted)
    }
}

/// Whether calls are made or taken back.
#[derive(Clone, Copy)]
enum Side {
    Made,
    Undone,
}

/// A block that stands: its height and its accepted calls, in the order in which they were made.
#[derive(Clone)]
struct Block {
    height: u64,
    calls: Vec<(ParentNumber, BlockCall)>,
}

/// Many parents, each with a table of its own, and the calls of the blocks that stand.
///
/// A block's calls are made parent by parent, each as the call of [`Segment`] or [`Balance`] that it stands for, and behind a parent's calls its staged rows
/// are flushed to its table. What refusal 25 tests is then the rows of one parent. [`Index`](crate::Index) makes a block's calls in their order over
/// one table of all parents.
///
/// ```
/// use ergo_index::*;
///
/// let mut accounts = Accounts::new(16);
/// let shop = accounts.add_parent([7; 32]);
/// let token = Token { id: [9; 32], amount: 3 };
/// accounts.apply(1, vec![(shop, BlockCall::AppendBox(BoxNumber(5))), (shop, BlockCall::Credit(1_500_000, vec![token]))])?;
///
/// let answers = accounts.apply(2, vec![(shop, BlockCall::Spend(BoxNumber(5))), (shop, BlockCall::Spend(BoxNumber(6)))])?;
/// assert_eq!(answers, [Ok(()), Err(Refusal::TargetNotSeen)]);
/// assert_eq!(accounts.account(shop).segment.boxes()[0].state(), BoxState::Spent);
///
/// // a fork takes the second block back
/// accounts.roll_back_blocks(1)?;
/// assert_eq!((accounts.account(shop).segment.boxes()[0].state(), accounts.height()), (BoxState::Unspent, Some(1)));
/// # Ok::<(), Refusal>(())
/// ```
#[derive(Clone)]
pub struct Accounts {
    accounts: Vec<Account>,
    numbers: HashMap<[u8; 32], ParentNumber>,
    staged: StagedSpills,
    deleted: DeletedSpills,
    /// The parent whose rows the staged and the deleted spills hold, until they are flushed to its table.
    unflushed: Option<ParentNumber>,
    blocks: VecDeque<Block>,
}

impl Accounts {
    /// No parents; so many rows of a parent are staged, or taken back, before they are flushed.
    pub fn new(staged: usize) -> Self {
        Accounts {
            accounts: Vec::new(),
            numbers: HashMap::new(),
            staged: StagedSpills::with_capacity(staged.max(1)),
            deleted: DeletedSpills::with_capacity(staged.max(1)),
            unflushed: None,
            blocks: VecDeque::new(),
        }
    }

    /// One parent more, with nothing in it.
    ///
    /// # Panics
    /// If there are 2^32 parents.
    pub fn add_parent(&mut self, id: [u8; 32]) -> ParentNumber {
        self.add_account(Account::new(id))
    }

    /// One parent more, as it was stored. [`Accounts::parent`] names the later one of two with one id.
    ///
    /// # Panics
    /// If there are 2^32 parents.
    pub fn add_account(&mut self, account: Account) -> ParentNumber {
        let number = ParentNumber::at(self.accounts.len());
        self.numbers.insert(*account.segment.parent(), number);
        self.accounts.push(account);
        number
    }

    /// The parent of an id.
    pub fn parent(&self, id: &[u8; 32]) -> Option<ParentNumber> {
        self.numbers.get(id).copied()
    }

    /// A parent's account.
    pub fn account(&self, parent: ParentNumber) -> &Account {
        &self.accounts[parent.place()]
    }

    /// Puts another table in the place of a parent's own, which is given back.
    pub fn replace_table(&mut self, parent: ParentNumber, table: SegmentTable) -> SegmentTable {
        std::mem::replace(&mut self.accounts[parent.place()].table, table)
    }

    /// All accounts, by the numbers of their parents. Rows that a refused flush left staged are in no table.
    pub fn into_accounts(self) -> Vec<Account> {
        self.accounts
    }

    /// Makes the calls of a block, those of each parent in their order, and answers each. Refused by 25 where a table is not in order; what was accepted until
    /// then stands as the block, and the calls of later parents were not made. Rows that were not flushed then wait: nothing else is made before they are, so that
    /// a table that is put right by [`Accounts::replace_table`] gets them.
    ///
    /// # Panics
    /// If there is no such parent.
    pub fn apply(&mut self, height: u64, calls: Vec<(ParentNumber, BlockCall)>) -> Result<Vec<CallAnswer>, Refusal> {
        let mut answers = vec![None; calls.len()];
        let made = self.go_through(&calls, Side::Made, &mut answers);
        let mut answer = answers.iter();
        let mut accepted = calls;
        accepted.retain(|_| answer.next() == Some(&Some(Ok(()))));
        self.blocks.push_back(Block { height, calls: accepted });
        made?;
        Ok(answers.into_iter().map(|answer| answer.expect("every call was made")).collect())
    }

    /// Takes the newest blocks back: of each parent its calls, newest first. Refused by 25 where a table is not in order, and by 12 where a row is missing; the calls
    /// that were taken back until then no longer stand.
    ///
    /// # Panics
    /// If fewer blocks stand.
    pub fn roll_back_blocks(&mut self, blocks: usize) -> Result<(), Refusal> {
        let left = self.blocks.len().checked_sub(blocks).expect("no more blocks than stand");
        let taken: Vec<Block> = self.blocks.drain(left..).collect();
        let sizes: Vec<(u64, usize)> = taken.iter().map(|block| (block.height, block.calls.len())).collect();
        let calls: Vec<_> = taken.into_iter().flat_map(|block| block.calls).collect();
        let mut answers = vec![None; calls.len()];
        let undone = self.go_through(&calls, Side::Undone, &mut answers);
        let refused = undone.err().or_else(|| answers.iter().find_map(|answer| answer.and_then(Result::err)));
        let Some(refusal) = refused else { return Ok(()) };
        let mut standing = calls.into_iter().zip(answers);
        for (height, size) in sizes {
            let calls = standing.by_ref().take(size).filter(|(_, answer)| *answer != Some(Ok(()))).map(|(call, _)| call).collect();
            self.blocks.push_back(Block { height, calls });
        }
        Err(refusal)
    }

    /// The height of the newest block.
    pub fn height(&self) -> Option<u64> {
        self.blocks.back().map(|block| block.height)
    }

    /// How many blocks can be taken back.
    pub fn blocks(&self) -> usize {
        self.blocks.len()
    }

    /// Remembers the newest blocks only: older ones can no longer be taken back.
    pub fn remember(&mut self, blocks: usize) {
        self.blocks.drain(..self.blocks.len().saturating_sub(blocks));
    }

    /// The calls of each parent, made in their order or taken back in the reverse of it, and a flush behind them. An undo that is refused ends its parent's.
    fn go_through(&mut self, calls: &[(ParentNumber, BlockCall)], side: Side, answers: &mut [Option<CallAnswer>]) -> Result<(), Refusal> {
        let mut order: Vec<(ParentNumber, usize)> = calls.iter().enumerate().map(|(at, call)| (call.0, at)).collect();
        order.sort_unstable();
        self.flush_left()?;
        let mut rest = order.as_mut_slice();
        while let Some(&mut (parent, _)) = rest.first_mut() {
            let same = rest.iter().take_while(|call| call.0 == parent).count();
            let (same, behind) = rest.split_at_mut(same);
            if let Side::Undone = side {
                same.reverse();
            }
            self.unflushed = Some(parent);
            for &mut (_, at) in same {
                let answer = self.lifted(parent, &calls[at].1, side)?;
                answers[at] = Some(answer);
                if let (Side::Undone, Err(_)) = (side, answer) {
                    break;
                }
            }
            self.flush_left()?;
            rest = behind;
        }
        Ok(())
    }

    /// Flushes what is staged and deleted to the table of the parent that it belongs to.
    fn flush_left(&mut self) -> Result<(), Refusal> {
        if let Some(parent) = self.unflushed {
            self.accounts[parent.place()].flush(&mut self.staged, &mut self.deleted)?;
            self.unflushed = None;
        }
        Ok(())
    }

    /// Makes a call or takes it back; where a list is full it is flushed first.
    fn lifted(&mut self, parent: ParentNumber, call: &BlockCall, side: Side) -> Result<CallAnswer, Refusal> {
        let (account, staged, deleted) = (&mut self.accounts[parent.place()], &mut self.staged, &mut self.deleted);
        loop {
            let answer = match side {
                Side::Made => account.make(call, staged),
                Side::Undone => account.undo(call, staged, deleted),
            };
            match answer {
                Err(Refusal::StagingFull | Refusal::DeletedFull) => account.flush(staged, deleted)?,
                answer => return Ok(answer),
            }
        }
    }
}

impl fmt::Debug for Accounts {
    fn fmt(&self, f: &mut fmt::Formatter<'_>) -> fmt::Result {
        let rows: usize = self.accounts.iter().map(|account| account.table.len()).sum();
        write!(f, "Accounts of {} parents, {} rows, {} blocks", self.accounts.len(), rows, self.blocks.len())
    }
}
