//! Blocks applied and taken back, each as one transaction of the store.

use std::collections::HashMap;
use std::fmt;

use ergo_index::{prune_below_window, BlockCall, CallAnswer, Capacities, Index, IndexedAddress, Journal, Key, ParentNumber, Refusal, Rows};

use crate::account::Account;
use crate::record::{Tip, UndoRecord};
use crate::store::{Space, Store, StoreError, Transaction};

/// Why a block was not applied or not taken back. The store is as it was before the block.
#[derive(Clone, Debug, PartialEq, Eq)]
pub enum Fault {
    /// A record or a list was refused.
    Refused(Refusal),
    /// The store failed.
    Store(StoreError),
    /// What the store holds cannot be read.
    Damaged(&'static str),
    /// There is no block to take back, or what takes it back was pruned.
    NoBlock,
}

impl fmt::Display for Fault {
    fn fmt(&self, f: &mut fmt::Formatter<'_>) -> fmt::Result {
        match self {
            Fault::Refused(refusal) => refusal.fmt(f),
            Fault::Store(error) => error.fmt(f),
            Fault::Damaged(what) => write!(f, "cannot be read: {what}"),
            Fault::NoBlock => f.write_str("no block that can be taken back"),
        }
    }
}

impl std::error::Error for Fault {}

impl From<Refusal> for Fault {
    fn from(refusal: Refusal) -> Self {
        Fault::Refused(refusal)
    }
}

impl From<StoreError> for Fault {
    fn from(error: StoreError) -> Self {
        Fault::Store(error)
    }
}

/// What is held in memory between blocks, and how many blocks can be taken back.
#[derive(Clone, Copy, Debug, PartialEq, Eq)]
pub struct Limits {
    /// Rows of the working set; a block that needs more has them until it ends.
    pub rows: usize,
    /// Parents; a block that has more has them until it ends.
    pub parents: usize,
    /// Blocks whose undo is kept.
    pub window: u64,
    /// Rows that are staged between two flushes.
    pub staged: usize,
}

impl Default for Limits {
    fn default() -> Self {
        Limits { rows: 128, parents: 256, window: 720, staged: 64 }
    }
}

/// What was done since the index was opened.
#[derive(Clone, Copy, Debug, Default, PartialEq, Eq)]
pub struct Counters {
    /// Rows fetched into the working set.
    pub fetched: u64,
    /// Times that the working set was dropped.
    pub dropped: u64,
    /// Address records read.
    pub loaded: u64,
    /// Keys and values written, in bytes.
    pub written: u64,
}

const TIP: &[u8] = b"tip";
const NOTE: &[u8] = b"note";

/// The index over a store.
pub struct Indexer<S> {
    store: S,
    /// Rows and parents as the store has them, but for those of the block that is made.
    index: Index,
    tip: Option<Tip>,
    /// Heights of the undo records.
    heights: Vec<u64>,
    limits: Limits,
    counters: Counters,
    note: Option<Vec<u8>>,
}

struct Fetch<'a, S> {
    store: &'a S,
    fetched: &'a mut u64,
}

impl<S: Store> Rows for Fetch<'_, S> {
    type Error = Fault;

    fn row(&mut self, key: &Key) -> Result<Option<Vec<u8>>, Fault> {
        *self.fetched += 1;
        Ok(self.store.get(Space::Rows, key)?)
    }
}

impl<S: Store> Indexer<S> {
    /// The index that a store keeps.
    pub fn open(store: S, limits: Limits) -> Result<Self, Fault> {
        let tip = store.get(Space::Meta, TIP)?.map(|bytes| Tip::decode(&bytes)).transpose()?;
        let mut heights = Vec::new();
        store.for_each(Space::Undo, &mut |key, _| {
            heights.push(key.try_into().map(u64::from_be_bytes).map_err(|_| StoreError("a key that is no height".into()))?);
            Ok(())
        })?;
        let capacities =
            Capacities { staged: limits.staged.max(1), deleted: limits.staged.max(1), rows: limits.rows.max(1), ..Capacities::default() };
        let mut index = Index::new(capacities);
        index.note_changes();
        Ok(Indexer { store, index, tip, heights, limits, counters: Counters::default(), note: None })
    }

    /// The newest block, if there is one.
    pub fn tip(&self) -> Option<Tip> {
        self.tip
    }

    /// What was done since the index was opened.
    pub fn counters(&self) -> Counters {
        self.counters
    }

    /// The store.
    pub fn store(&self) -> &S {
        &self.store
    }

    /// The store, which holds everything.
    pub fn into_store(self) -> S {
        self.store
    }

    /// How many blocks can be taken back.
    pub fn blocks(&self) -> usize {
        self.heights.len()
    }

    /// Bytes of the driver's own, which the next transaction writes together with its block.
    pub fn set_note(&mut self, note: &[u8]) {
        self.note = Some(note.to_vec());
    }

    /// The note of the last transaction that wrote one.
    pub fn note(&self) -> Result<Option<Vec<u8>>, Fault> {
        Ok(self.store.get(Space::Meta, NOTE)?)
    }

    /// Makes the calls of the next block in their order and answers each: a refused call changed nothing, and the calls behind it were made. One transaction
    /// writes all of it.
    pub fn apply_block(&mut self, header: [u8; 32], calls: &[([u8; 32], BlockCall)]) -> Result<Vec<CallAnswer>, Fault> {
        let applied = self.try_apply(header, calls);
        self.settle(applied)
    }

    /// Takes the newest blocks back, each by one transaction.
    pub fn roll_back(&mut self, blocks: u64) -> Result<(), Fault> {
        for _ in 0..blocks {
            let undone = self.try_undo();
            self.settle(undone)?;
        }
        Ok(())
    }

    /// An account as the store has it, if it holds anything.
    pub fn account(&mut self, id: &[u8; 32]) -> Result<Option<Account<'_, S>>, Fault> {
        let stored = self.store.get(Space::Addresses, id)?;
        Ok(stored.map(|record| IndexedAddress::from_bytes(&record)).transpose()?.map(|address| Account::new(&self.store, address)))
    }

    /// After a fault nothing in memory is relied on.
    fn settle<T>(&mut self, done: Result<T, Fault>) -> Result<T, Fault> {
        let held = self.index.table().len() + self.index.staged().len();
        if done.is_err() || self.limits.rows < held {
            self.index.forget_rows();
            self.counters.dropped += 1;
        }
        self.index.changes_written();
        self.index.forget_journal();
        if done.is_err() || self.limits.parents < self.index.parents().len() {
            self.index.forget_parents();
        }
        done
    }

    /// The number of a parent, which is read if it is not in memory.
    fn number_of(&mut self, id: &[u8; 32]) -> Result<ParentNumber, Fault> {
        if let Some(number) = self.index.parent(id) {
            return Ok(number);
        }
        self.counters.loaded += 1;
        match self.store.get(Space::Addresses, id)? {
            None => Ok(self.index.add_parent(*id)),
            Some(record) => {
                let address = IndexedAddress::from_bytes(&record)?;
                Ok(self.index.add_parent_with(&address.segment, &address.balance.unwrap_or_default()))
            }
        }
    }

    fn try_apply(&mut self, header: [u8; 32], calls: &[([u8; 32], BlockCall)]) -> Result<Vec<CallAnswer>, Fault> {
        let before = self.tip;
        let mut tip = Tip { height: 1, header, txs: 0, boxes: 0 };
        if let Some(last) = before {
            (tip.height, tip.txs, tip.boxes) = (last.height + 1, last.txs, last.boxes);
        }
        let mut block = Numbers::default();
        for (id, call) in calls {
            let parent = self.number_of(id)?;
            block.place(parent);
            self.index.queue(parent, call);
        }
        let answers = self.index.apply_with(&mut Fetch { store: &self.store, fetched: &mut self.counters.fetched })?;
        for ((_, call), answer) in calls.iter().zip(&answers) {
            tip.boxes += u64::from(answer.is_ok() && matches!(call, BlockCall::AppendBox(_)));
            tip.txs += u64::from(answer.is_ok() && matches!(call, BlockCall::AppendTx(_)));
        }
        let (standing, mut entries) = (self.index.journal().standing(), self.index.journal().entries().to_vec());
        Journal::renumber(&mut entries, |number| block.places.get(&number).copied()).expect("the journal has calls of the block alone");
        let parents = block.order.iter().map(|parent| *self.index.id(*parent)).collect();
        let record = UndoRecord { entry: Tip::entry(before), parents, standing, entries };
        self.commit(&block.order, Some(tip), Some((tip.height, &record.encode())), None)?;
        Ok(answers)
    }

    fn try_undo(&mut self) -> Result<(), Fault> {
        let height = self.tip.ok_or(Fault::NoBlock)?.height;
        let stored = self.store.get(Space::Undo, &height.to_be_bytes())?.ok_or(Fault::NoBlock)?;
        let mut record = UndoRecord::decode(&stored)?;
        let parents = record.parents.iter().map(|id| self.number_of(id)).collect::<Result<Vec<_>, _>>()?;
        let numbers = |place: u32| parents.get(place as usize).map(|parent| parent.place() as u32);
        Journal::renumber(&mut record.entries, numbers).ok_or(Fault::Damaged("an undo record"))?;
        self.index.set_journal(&record.entries, record.standing);
        let start = self.index.oldest_mark();
        self.index.roll_back_with(start, &mut Fetch { store: &self.store, fetched: &mut self.counters.fetched })?;
        self.commit(&parents, Tip::before(height, &record.entry), None, Some(height))
    }

    /// One transaction: the rows that were changed, the parents of the block, the undo record that comes or goes, those below the window, the tip and the note.
    fn commit(&mut self, parents: &[ParentNumber], tip: Option<Tip>, comes: Option<(u64, &[u8])>, goes: Option<u64>) -> Result<(), Fault> {
        let mut heights = self.heights.clone();
        heights.retain(|height| Some(*height) != goes);
        heights.extend(comes.map(|(height, _)| height));
        let all = heights.clone();
        if let Some(tip) = tip {
            prune_below_window(&mut heights, tip.height, Some(self.limits.window));
        }
        let mut written = 0;
        let mut transaction = self.store.transaction()?;
        {
            let mut put = |space: Space, key: &[u8], value: Option<&[u8]>| {
                written += (key.len() + value.map_or(0, <[u8]>::len)) as u64;
                match value {
                    Some(value) => transaction.put(space, key, value),
                    None => transaction.remove(space, key),
                }
            };
            for change in self.index.changes() {
                put(Space::Rows, &change.key, change.row)?;
            }
            for parent in parents {
                put(Space::Addresses, self.index.id(*parent), self.index.address_record(*parent).as_deref())?;
            }
            if let Some((height, record)) = comes {
                put(Space::Undo, &height.to_be_bytes(), Some(record))?;
            }
            for height in goes.iter().chain(all.iter().filter(|height| !heights.contains(height))) {
                put(Space::Undo, &height.to_be_bytes(), None)?;
            }
            put(Space::Meta, TIP, tip.map(|tip| tip.encode()).as_deref())?;
            if let Some(note) = &self.note {
                put(Space::Meta, NOTE, Some(note))?;
            }
        }
        transaction.commit()?;
        (self.tip, self.heights, self.note) = (tip, heights, None);
        self.counters.written += written;
        Ok(())
    }
}

/// The parents of a block in the order in which it names them, and their places in that order.
#[derive(Default)]
struct Numbers {
    order: Vec<ParentNumber>,
    places: HashMap<u32, u32>,
}

impl Numbers {
    fn place(&mut self, parent: ParentNumber) {
        let next = self.order.len() as u32;
        if *self.places.entry(parent.place() as u32).or_insert(next) == next {
            self.order.push(parent);
        }
    }
}
