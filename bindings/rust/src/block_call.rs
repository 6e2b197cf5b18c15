//! A call of a block.

use crate::balance::Token;
use crate::entry::{BoxNumber, TxNumber};

/// A call of a block, to a parent.
#[derive(Clone, Debug, PartialEq, Eq)]
pub enum BlockCall {
    /// A box of the parent.
    AppendBox(BoxNumber),
    /// A transaction of the parent.
    AppendTx(TxNumber),
    /// A box is spent.
    Spend(BoxNumber),
    /// NanoErgs and tokens come in.
    Credit(i64, Vec<Token>),
    /// NanoErgs and tokens go out.
    Debit(i64, Vec<Token>),
}
