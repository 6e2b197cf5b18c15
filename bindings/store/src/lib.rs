//! Blocks of an account index, kept in an embedded database.
//!
//! [`Indexer`] applies blocks of calls through [`ergo_index::Index`] and writes each as one transaction of a [`Store`]: the rows that it changed, the records
//! of its addresses, what takes it back, and the tip. So a stop at any moment leaves the block before or the one after. The index holds a working set of the
//! rows, which the laws of the index prove to be enough: a row that a call needs is fetched, and every answer is that of the whole table.
//!
//! ```
//! use ergo_index::{BoxNumber, Token};
//! use ergo_index_store::{BlockCall, Fault, Indexer, Limits, MemoryStore};
//!
//! let mut indexer = Indexer::open(MemoryStore::default(), Limits::default())?;
//! let shop = [7; 32];
//! let calls = [
//!     (shop, BlockCall::AppendBox(BoxNumber(5))),
//!     (shop, BlockCall::Credit(1_500_000, vec![Token { id: [9; 32], amount: 3 }])),
//! ];
//! indexer.apply_block([1; 32], &calls)?;
//! indexer.apply_block([2; 32], &[(shop, BlockCall::Spend(BoxNumber(5)))])?;
//! indexer.roll_back(1)?;
//!
//! // as it is after a restart
//! let mut indexer = Indexer::open(indexer.into_store(), Limits::default())?;
//! assert_eq!(indexer.tip().map(|tip| (tip.height, tip.header)), Some((1, [1; 32])));
//! let mut account = indexer.account(&shop)?.unwrap();
//! assert_eq!((account.unspent_boxes()?, account.balance().nano_ergs()), (vec![BoxNumber(5)], 1_500_000));
//! # Ok::<(), Fault>(())
//! ```
#![warn(missing_docs)]
#![deny(unsafe_op_in_unsafe_fn)]

mod account;
mod chain;
mod check;
mod indexer;
#[cfg(lmdb)]
mod lmdb;
#[cfg(not(lmdb))]
#[path = "no_lmdb.rs"]
mod lmdb;
mod record;
mod store;

pub use account::Account;
pub use chain::{Chain, ChainBlock, ChainShape};
pub use check::{check, Checked};
pub use ergo_index::BlockCall;
pub use indexer::{Counters, Fault, Indexer, Limits};
pub use lmdb::{LmdbStore, Sync};
pub use record::{Tip, UndoRecord};
pub use store::{MemoryStore, Space, Store, StoreError, Transaction};
