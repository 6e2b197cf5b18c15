//! A proved segment index for Ergo account histories.
//!
//! Every call of this crate runs a function of `libergo_index.a`, which is proved to answer as its definition says for every input, to stay inside the
//! buffers that it borrows and to end. This crate adds owned buffers, types for numbers and refusals, and nothing else.
//!
//! A call that is refused changes nothing and answers a [`Refusal`], whose number is [`Refusal::code`]. [`Index`] applies blocks of
//! calls over many parents with one table and takes them back, [`Accounts`] over parents with a table each; [`Batch`] makes calls in the format of the call
//! runner.
//!
//! ```
//! use ergo_index::*;
//!
//! let mut segment = Segment::new([7; 32]);
//! let mut staged = StagedSpills::with_capacity(2);
//! let mut table = SegmentTable::with_capacity(2);
//! let mut deleted = DeletedSpills::with_capacity(2);
//!
//! // 513 boxes: the first 512 spill into a row
//! for n in 1..=513 {
//!     segment.append_box_entry(BoxNumber(n), &mut staged)?;
//! }
//! assert_eq!((segment.boxes(), segment.box_spills(), staged.len()), (&[BoxEntry(513)][..], 1, 1));
//!
//! // a spend in that row, once it is in the table, stages it again
//! flush_staged_spills(&mut staged, &mut table, &mut deleted)?;
//! segment.flip_box_segment_entry(BoxNumber(100), &mut staged, &table)?;
//! assert_eq!(segment.tally(&staged, &table)?, Tally { unspent: 512, spent: 1, unknown: 0 });
//!
//! // the spend and two boxes are taken back
//! flush_staged_spills(&mut staged, &mut table, &mut deleted)?;
//! segment.unflip_box_segment_entry(BoxNumber(100), &mut staged, &table)?;
//! assert_eq!(segment.pop_box_entry(&mut staged, &table, &mut deleted)?, BoxEntry(513));
//! assert_eq!(segment.pop_box_entry(&mut staged, &table, &mut deleted)?, BoxEntry(512));
//! assert_eq!((segment.boxes().len(), segment.box_spills()), (511, 0));
//! # Ok::<(), Refusal>(())
//! ```
#![warn(missing_docs)]
#![deny(unsafe_op_in_unsafe_fn)]

mod accounts;
mod balance;
mod batch;
mod block_call;
mod codec;
mod convert;
mod edition;
mod entry;
pub mod ffi;
mod flat;
mod index;
mod lists;
mod load;
mod memory;
mod pages;
mod parents;
mod rank;
mod records;
mod refusal;
mod segment;
mod short_histories;
mod summary;
mod trial;
mod working_set;

pub use accounts::{Account, Accounts};
pub use balance::{statement_milli_ergs, Balance, Token, MAX_TOKENS};
pub use batch::{Batch, BatchAnswer, END_CUT_CALL, END_NO_CALL, END_NO_ROOM, END_OF_INPUT, MAX_PARENTS};
pub use block_call::BlockCall;
pub use codec::{blake2b256, box_segment_id, tx_segment_id, VlqReader, VlqWriter};
pub use convert::{SpillId, Unconverted};
pub use edition::{row_to_first, row_to_second, Edition, First, RowKind, Second};
pub use entry::{BoxEntry, BoxNumber, BoxState, TxNumber};
pub use flat::{FlatAccount, FLAT_LIMIT};
pub use index::{CallAnswer, Capacities, Index, IndexParts, Journal, Mark, ParentNumber, RowChange, Rows, WholeTable};
pub use lists::{flush_staged_spills, inspect_spill, DeletedSpills, Key, SegmentTable, Spill, StagedSpills, KEY_SIZE, RECORD_SIZE, ROW_LIMIT};
pub use load::{Load, LoadCall};
pub use pages::{UnspentBoxes, PAGE_LENGTH};
pub use rank::Address;
pub use records::{prune_below_window, IndexedAddress, UndoEntry, ADDRESS_LIMIT};
pub use refusal::Refusal;
pub use segment::{tolerate_secondary_drift, Segment, Tally, Tolerated, SEGMENT_THRESHOLD};
pub use short_histories::{HistoryCall, ShortHistories, HISTORIES_LENGTH};
pub use summary::SummaryLine;
pub use trial::{try_forks, TrialFigures, TrialSizes};
pub use working_set::MissingRow;
