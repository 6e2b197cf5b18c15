//! The tip, and what takes a block back, in bytes.

use ergo_index::UndoEntry;

use crate::indexer::Fault;

/// The newest block.
#[derive(Clone, Copy, Debug, PartialEq, Eq)]
pub struct Tip {
    /// Its height; the first block has height 1.
    pub height: u64,
    /// Its header's id.
    pub header: [u8; 32],
    /// Transactions that were appended up to it.
    pub txs: u64,
    /// Boxes that were appended up to it.
    pub boxes: u64,
}

const TIP_BYTES: usize = 56;

impl Tip {
    pub(crate) fn encode(&self) -> Vec<u8> {
        [&self.height.to_be_bytes()[..], &self.header, &self.txs.to_be_bytes(), &self.boxes.to_be_bytes()].concat()
    }

    pub(crate) fn decode(bytes: &[u8]) -> Result<Self, Fault> {
        let mut rest = Bytes(bytes);
        let tip = Tip { height: rest.number()?, header: rest.take()?, txs: rest.number()?, boxes: rest.number()? };
        if bytes.len() == TIP_BYTES {
            Ok(tip)
        } else {
            Err(Fault::Damaged("the tip"))
        }
    }

    /// What the undo entry of the next block says.
    pub(crate) fn entry(tip: Option<Tip>) -> UndoEntry {
        tip.map_or(UndoEntry { header: None, txs: 0, boxes: 0 }, |tip| UndoEntry { header: Some(tip.header), txs: tip.txs, boxes: tip.boxes })
    }

    /// The tip before a block of this height.
    pub(crate) fn before(height: u64, entry: &UndoEntry) -> Option<Tip> {
        entry.header.map(|header| Tip { height: height - 1, header, txs: entry.txs, boxes: entry.boxes })
    }
}

/// What takes a block back: the undo entry, the block's parents by their numbers in it, and the accepted calls, as the journal has them.
#[derive(Clone, Debug, PartialEq, Eq)]
pub struct UndoRecord {
    /// The header before the block, and the numbers of transactions and boxes.
    pub entry: UndoEntry,
    /// The ids of the parents.
    pub parents: Vec<[u8; 32]>,
    /// How many calls were accepted.
    pub standing: usize,
    /// Their bytes.
    pub entries: Vec<u8>,
}

impl UndoRecord {
    /// The record: a byte with the length of the undo entry, the undo entry, how many parents in four bytes, their ids, how many calls in four bytes, their
    /// bytes. Numbers have the high byte first.
    pub fn encode(&self) -> Vec<u8> {
        let entry = self.entry.encode();
        let small = |n: usize| u32::try_from(n).expect("a block has fewer than 2^32 parents and calls").to_be_bytes();
        let mut out = vec![entry.len() as u8];
        out.extend(&entry);
        out.extend(small(self.parents.len()));
        self.parents.iter().for_each(|id| out.extend(id));
        out.extend(small(self.standing));
        out.extend(&self.entries);
        out
    }

    /// A record from its bytes.
    pub fn decode(bytes: &[u8]) -> Result<Self, Fault> {
        let mut rest = Bytes(bytes);
        let [length] = rest.take()?;
        let entry = UndoEntry::decode(rest.slice(usize::from(length))?)?;
        let mut parents = Vec::new();
        for _ in 0..rest.small()? {
            parents.push(rest.take()?);
        }
        Ok(UndoRecord { entry, parents, standing: rest.small()?, entries: rest.0.to_vec() })
    }
}

struct Bytes<'a>(&'a [u8]);

impl<'a> Bytes<'a> {
    fn slice(&mut self, length: usize) -> Result<&'a [u8], Fault> {
        if self.0.len() < length {
            return Err(Fault::Damaged("a record that ends early"));
        }
        let (front, rest) = self.0.split_at(length);
        self.0 = rest;
        Ok(front)
    }

    fn take<const N: usize>(&mut self) -> Result<[u8; N], Fault> {
        Ok(self.slice(N)?.try_into().expect("so many bytes were taken"))
    }

    fn number(&mut self) -> Result<u64, Fault> {
        Ok(u64::from_be_bytes(self.take()?))
    }

    fn small(&mut self) -> Result<usize, Fault> {
        Ok(u32::from_be_bytes(self.take()?) as usize)
    }
}
