//! Reads everything back.

use std::collections::HashSet;

use ergo_index::{tx_segment_id, IndexedAddress, Key, Refusal, RowKind, Segment};

use crate::account::Account;
use crate::indexer::Fault;
use crate::record::{Tip, UndoRecord};
use crate::store::{Space, Store, StoreError};

/// What a store holds, once all of it was read.
#[derive(Clone, Copy, Debug, Default, PartialEq, Eq)]
pub struct Checked {
    /// Address records.
    pub addresses: u64,
    /// Rows.
    pub rows: u64,
    /// Unspent boxes.
    pub unspent: u64,
    /// Spent boxes.
    pub spent: u64,
    /// Boxes of number 0.
    pub unknown: u64,
    /// Transactions of addresses.
    pub txs: u64,
    /// Blocks that can be taken back.
    pub blocks: u64,
    /// Calls that stand in their undo records.
    pub calls: u64,
}

/// Reads every record and every row: each row belongs to an address and is in order, each tally is what the lines of a fresh summary add up to, every undo
/// record can be read, and together they lead to the tip. `shown` is called after each address.
pub fn check<S: Store>(store: &S, shown: &mut dyn FnMut(&Checked)) -> Result<Checked, Fault> {
    let mut ids = Vec::new();
    store.for_each(Space::Addresses, &mut |key, _| {
        ids.push(<[u8; 32]>::try_from(key).map_err(|_| StoreError("an address by no hash".into()))?);
        Ok(())
    })?;
    let mut checked = Checked::default();
    let mut keys: HashSet<Key> = HashSet::new();
    for id in ids {
        let record = store.get(Space::Addresses, &id)?.ok_or(Fault::Damaged("an address that is gone"))?;
        let address = IndexedAddress::from_bytes(&record)?;
        if *address.hash() != id || address.balance.is_none() {
            return Err(Fault::Damaged("an address record under another hash, or without a balance"));
        }
        check_txs(store, &address.segment, &mut checked)?;
        for spill in address.segment.spills() {
            keys.insert(match spill.kind {
                RowKind::Boxes => ergo_index::box_segment_id(&id, spill.number),
                RowKind::Txs => tx_segment_id(&id, spill.number),
            });
        }
        let tally = Account::new(store, address).check_boxes()?;
        checked.addresses += 1;
        checked.unspent += tally.unspent as u64;
        checked.spent += tally.spent as u64;
        checked.unknown += tally.unknown as u64;
        shown(&checked);
    }
    let mut strays = 0u64;
    store.for_each(Space::Rows, &mut |key, _| {
        checked.rows += 1;
        strays += u64::from(!<Key>::try_from(key).is_ok_and(|key| keys.contains(&key)));
        Ok(())
    })?;
    if strays != 0 || checked.rows != keys.len() as u64 {
        return Err(Fault::Damaged("rows of no address, or missing rows"));
    }
    check_undo(store, &mut checked)?;
    Ok(checked)
}

fn check_txs<S: Store>(store: &S, segment: &Segment, checked: &mut Checked) -> Result<(), Fault> {
    checked.txs += segment.txs().len() as u64;
    for number in 0..segment.tx_spills() {
        let row = store.get(Space::Rows, &tx_segment_id(segment.parent(), number))?.ok_or(Refusal::RowMissing)?;
        let row = Segment::from_row(*segment.parent(), &row)?;
        if row.txs().len() != ergo_index::SEGMENT_THRESHOLD {
            return Err(Fault::Damaged("a row of transactions that is not full"));
        }
        checked.txs += row.txs().len() as u64;
    }
    Ok(())
}

fn check_undo<S: Store>(store: &S, checked: &mut Checked) -> Result<(), Fault> {
    let mut tip = store.get(Space::Meta, b"tip")?.map(|bytes| Tip::decode(&bytes)).transpose()?;
    let mut blocks = 0u64;
    store.for_each(Space::Undo, &mut |_, _| {
        blocks += 1;
        Ok(())
    })?;
    while let Some(last) = tip.filter(|_| checked.blocks < blocks) {
        let bytes = store.get(Space::Undo, &last.height.to_be_bytes())?.ok_or(Fault::Damaged("an undo record is missing"))?;
        let record = UndoRecord::decode(&bytes)?;
        checked.blocks += 1;
        checked.calls += record.standing as u64;
        tip = Tip::before(last.height, &record.entry);
    }
    if checked.blocks != blocks {
        return Err(Fault::Damaged("undo records that do not lead to the tip"));
    }
    Ok(())
}
