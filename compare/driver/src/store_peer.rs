//! The reference's calls over the same store, by the same trait: what a driver of the reference would do for a block and a fork.

use std::cell::RefCell;
use std::collections::HashMap;
use std::rc::Rc;

use ergo_index_store::{BlockCall, Space, Store, Transaction};
use reference::calls::{read_indexed_address, write_indexed_address, Spills};
use reference::Digest32;

use crate::blocks::{Block, Theirs};

type Id = [u8; 32];

struct Rows<S>(Rc<RefCell<S>>);

impl<S: Store> redb::Kept for Rows<S> {
    fn get(&self, key: &[u8]) -> Option<Vec<u8>> {
        self.0.borrow().get(Space::Rows, key).expect("a store that can be read")
    }
}

/// The reference over a store: rows and address records are read from it, and a block is one transaction.
pub struct Peer<S> {
    store: Rc<RefCell<S>>,
    theirs: Theirs,
    numbers: HashMap<Id, usize>,
    /// The accepted calls of each block, newest last.
    stood: Vec<Block>,
    parents: usize,
    pub boxes: u64,
    pub written: u64,
}

/// As many bytes as a journal of the index has for the call.
fn size(call: &BlockCall) -> usize {
    match call {
        BlockCall::Credit(_, tokens) | BlockCall::Debit(_, tokens) => 17 + 40 * tokens.len(),
        _ => 17,
    }
}

impl<S: Store + 'static> Peer<S> {
    /// Over an empty store; so many parents stay in memory between blocks.
    pub fn new(store: S, parents: usize) -> Self {
        let store = Rc::new(RefCell::new(store));
        let theirs = Theirs::with(Spills::over(Box::new(Rows(Rc::clone(&store)))), 0, |_| [0; 32]);
        Self {
            store,
            theirs,
            numbers: HashMap::new(),
            stood: Vec::new(),
            parents,
            boxes: 0,
            written: 0,
        }
    }

    fn number(&mut self, id: &Id) -> usize {
        if let Some(number) = self.numbers.get(id) {
            return *number;
        }
        let record = self
            .store
            .borrow()
            .get(Space::Addresses, id)
            .expect("a store that can be read");
        let address = record.map(|record| read_indexed_address(&record).expect("an address").0);
        let address = address.unwrap_or_else(|| Theirs::with(Spills::default(), 1, |_| *id).addresses.remove(0));
        self.theirs.addresses.push(address);
        self.numbers.insert(*id, self.theirs.addresses.len() - 1);
        self.theirs.addresses.len() - 1
    }

    pub fn apply(&mut self, calls: &[(Id, BlockCall)]) {
        self.trim();
        let (mut accepted, mut touched) = (Vec::new(), Vec::new());
        for (id, call) in calls {
            let (number, call) = (self.number(id), call.clone());
            touched.push(number);
            if self.theirs.make(number, &call) {
                self.boxes += u64::from(matches!(call, BlockCall::AppendBox(_)));
                accepted.push((number, call));
            }
        }
        self.theirs.spills.flush().expect("a flush");
        let undo = accepted.iter().map(|(_, call)| size(call)).sum();
        self.stood.push(accepted);
        self.commit(touched, Some(undo));
    }

    pub fn roll_back(&mut self, blocks: u64) {
        for _ in 0..blocks {
            let block = self.stood.pop().expect("so many blocks stand");
            for (number, call) in block.iter().rev() {
                self.boxes -= u64::from(matches!(call, BlockCall::AppendBox(_)));
                self.theirs.undo(*number, call);
            }
            self.theirs.spills.flush().expect("a flush");
            self.commit(block.into_iter().map(|(number, _)| number).collect(), None);
        }
    }

    /// The calls that can be taken back name parents by number: with many parents in memory, the oldest calls are forgotten with them.
    fn trim(&mut self) {
        if self.parents < self.theirs.addresses.len() {
            self.theirs.addresses.clear();
            self.numbers.clear();
            self.stood.clear();
        }
    }

    fn commit(&mut self, mut touched: Vec<usize>, undo: Option<usize>) {
        touched.sort_unstable();
        touched.dedup();
        let height = (self.stood.len() as u64).to_be_bytes();
        let rows = self.theirs.spills.table.take_changes();
        let mut store = self.store.borrow_mut();
        let mut transaction = store.transaction().expect("a transaction");
        for (key, row) in &rows {
            self.written += (key.len() + row.as_ref().map_or(0, Vec::len)) as u64;
            match row {
                Some(row) => transaction.put(Space::Rows, key, row).expect("a row"),
                None => transaction.remove(Space::Rows, key).expect("a row"),
            }
        }
        for number in touched {
            let address = &self.theirs.addresses[number];
            let (hash, record): (&Digest32, _) = (&address.tree_hash, write_indexed_address(address));
            self.written += 32 + record.len() as u64;
            transaction
                .put(Space::Addresses, hash.as_bytes().as_slice(), &record)
                .expect("an address");
        }
        match undo {
            Some(bytes) => transaction
                .put(Space::Undo, &height, &vec![1; bytes])
                .expect("an undo record"),
            None => transaction.remove(Space::Undo, &height).expect("an undo record"),
        }
        self.written += undo.unwrap_or(0) as u64 + 64;
        transaction.put(Space::Meta, b"tip", &[0; 56]).expect("a tip");
        transaction.commit().expect("a commit");
    }
}
