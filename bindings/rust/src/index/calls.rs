//! The calls of a driver in bytes, as the batch reads them and the journal keeps them.

use crate::balance::Token;
use crate::ffi;

/// The bytes of a call without its tokens, which in the journal stand behind them.
pub(super) const HEADER: usize = 17;

/// The bytes of a token.
pub(super) const TOKEN: usize = 40;

/// Calls that wait, in bytes: a flush, the calls, and where blocks end between them.
#[derive(Clone, Default)]
pub(super) struct Queue {
    pub(super) bytes: Vec<u8>,
    pub(super) calls: usize,
    /// The next byte, behind the calls that were made.
    pub(super) at: usize,
    /// What those said, the flush first.
    pub(super) answers: Vec<u8>,
    /// Heights of blocks, and how many calls of the queue stand before their ends.
    pub(super) ends: Vec<(u64, usize)>,
    /// The journal's calls and bytes before the first of them was made.
    pub(super) start: (u64, usize),
}

impl Queue {
    pub(super) fn push(&mut self, kind: u8, parent: u32, number: i64, tokens: &[Token]) {
        let count = u32::try_from(tokens.len()).expect("fewer than 2^32 tokens");
        let mut header = [kind; HEADER];
        header[1..5].copy_from_slice(&parent.to_be_bytes());
        header[5..13].copy_from_slice(&number.to_be_bytes());
        header[13..].copy_from_slice(&count.to_be_bytes());
        self.bytes.extend_from_slice(&header);
        tokens.iter().for_each(|token| self.bytes.extend_from_slice(&token.id));
        tokens.iter().for_each(|token| self.bytes.extend_from_slice(&token.amount.to_be_bytes()));
        self.calls += 1;
    }

    /// Begins with a flush, behind what the journal holds now.
    pub(super) fn begin(&mut self, start: (u64, usize)) {
        self.clear();
        self.start = start;
        self.push(ffi::CALL_FLUSH, 0, 0, &[]);
    }

    /// No call waits; the buffers are kept.
    pub(super) fn clear(&mut self) {
        self.bytes.clear();
        self.answers.clear();
        self.ends.clear();
        (self.calls, self.at) = (0, 0);
    }

    /// The flush in front has nothing to do: it is answered, and not made.
    pub(super) fn pass_flush(&mut self) {
        if 0 < self.calls {
            self.at = HEADER;
            self.answers.push(0);
        }
    }

    /// How many calls were not made yet.
    pub(super) fn waiting(&self) -> usize {
        self.calls - self.answers.len().max(usize::from(0 < self.calls))
    }

    /// Of a queue whose calls were all made: for each block that ended its height, and the accepted calls before its end with their bytes.
    pub(super) fn ended(&self) -> impl Iterator<Item = (u64, usize, usize)> + '_ {
        let (mut at, mut call, mut accepted, mut bytes) = (0, 0, 0, 0);
        self.ends.iter().map(move |&(height, calls)| {
            while call < calls {
                let size = HEADER + TOKEN * count_in(&self.bytes[at..]);
                let journaled = self.answers[call] == 0 && self.bytes[at] != ffi::CALL_FLUSH;
                accepted += usize::from(journaled);
                bytes += if journaled { size } else { 0 };
                (at, call) = (at + size, call + 1);
            }
            (height, accepted, bytes)
        })
    }
}

/// The header of a call: its kind, its parent and its number.
pub(super) struct Header {
    pub(super) kind: u8,
    pub(super) parent: usize,
    pub(super) number: i64,
}

fn part(bytes: &[u8]) -> u64 {
    bytes.iter().fold(0, |n, &byte| n << 8 | u64::from(byte))
}

pub(super) fn count_in(header: &[u8]) -> usize {
    part(&header[13..HEADER]) as usize
}

fn header(bytes: &[u8]) -> Header {
    Header { kind: bytes[0], parent: part(&bytes[1..5]) as usize, number: part(&bytes[5..13]) as i64 }
}

/// The first call of an input, which holds at least one.
pub(super) fn first(input: &[u8]) -> Header {
    header(&input[..HEADER])
}

/// The newest entry of a journal's bytes, which hold at least one.
pub(super) fn newest(entries: &[u8]) -> Header {
    header(&entries[entries.len() - HEADER..])
}
