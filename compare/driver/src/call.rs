//! A call of a segment buffer or a balance, and its answer.

use std::fmt;

use crate::index::{Direction, Id, Kind};
use crate::report::hex;

#[derive(Clone)]
pub enum Call {
    Append(Kind, i64),
    Flip(Direction, i64),
    Pop(Kind),
    Flush,
    Credit(i64, Vec<(Id, i64)>),
    Debit(i64, Vec<(Id, i64)>),
}

impl Call {
    pub fn function(&self) -> &'static str {
        match self {
            Call::Append(Kind::Box, _) => "append_box_entry",
            Call::Append(Kind::Tx, _) => "append_tx_entry",
            Call::Flip(Direction::Spend, _) => "flip_box_segment_entry",
            Call::Flip(Direction::Unspend, _) => "unflip_box_segment_entry",
            Call::Pop(Kind::Box) => "pop_box_entry",
            Call::Pop(Kind::Tx) => "pop_tx_entry",
            Call::Flush => "flush_staged_spills",
            Call::Credit(..) => "add_box",
            Call::Debit(..) => "subtract_box",
        }
    }
}

impl fmt::Debug for Call {
    fn fmt(&self, f: &mut fmt::Formatter<'_>) -> fmt::Result {
        write!(f, "{}", self.function())?;
        match self {
            Call::Append(_, n) | Call::Flip(_, n) => write!(f, "({n})"),
            Call::Pop(_) | Call::Flush => Ok(()),
            Call::Credit(nanos, tokens) | Call::Debit(nanos, tokens) => {
                let tokens: Vec<String> = tokens.iter().map(|(id, n)| format!("{}.. {n}", hex(&id[..2]))).collect();
                write!(f, "({nanos}, {tokens:?})")
            }
        }
    }
}

/// What a call gave: its code, and the number that a pop returned.
#[derive(Clone, Copy, Debug, PartialEq)]
pub struct Answer {
    pub code: u8,
    pub number: i64,
}

impl Answer {
    pub fn of(result: Result<i64, u8>) -> Self {
        match result {
            Ok(number) => Self { code: 0, number },
            Err(code) => Self { code, number: 0 },
        }
    }
}
