//! The load that can be repeated: its calls in a batch beside the reference, which makes them one by one.

use ergo_index::{Load, LoadCall};
use reference::address::{BalanceInfo, IndexedAddress};
use reference::calls::Spills;
use reference::error::IndexerError;
use reference::segment::Segment;
use reference::Digest32;

use crate::index::{Batch, Head, Id, Lists};
use crate::measure::{both, keep, line};

const PARENT: Id = [0x42; 32];
const STATE: u64 = 1;

/// Loads from the fixed state: the calls, the rows that they spill, and the most rows staged at a time.
const LOADS: [(usize, usize, usize); 3] = [(2_000, 2, 2), (20_000, 23, 10), (100_000, 122, 16)];

/// The calls of a load from the fixed state, in bytes.
pub fn bytes(calls: usize) -> Vec<u8> {
    let mut load = Load::new(STATE).expect("a state that is not 0");
    load.next_bytes(calls).expect("a load")
}

fn parent() -> IndexedAddress {
    IndexedAddress {
        tree_hash: Digest32::from_bytes(PARENT),
        balance: Some(BalanceInfo::default()),
        segment: Segment::empty(),
    }
}

fn make(call: LoadCall, spills: &mut Spills, parent: &mut IndexedAddress) -> Result<(), IndexerError> {
    match call {
        LoadCall::AppendBox(number) => spills.append_box(parent, number.0),
        LoadCall::AppendTx(number) => spills.append_tx(parent, number.0),
        LoadCall::Spend(number) => spills.flip(parent, number.0),
        LoadCall::Flush => spills.flush(),
    }
}

/// Each load from empty lists, all calls; both sides refuse the same ones (14: the box is spent already).
pub fn in_batches() {
    for (calls, rows, staged) in LOADS {
        let drawn: Vec<LoadCall> = Load::new(STATE).expect("a state that is not 0").take(calls).collect();
        let mut lists = Lists::new(staged, rows, 1);
        let mut batch = Batch::of_calls(&PARENT, &bytes(calls), calls);
        let refused = batch.codes(&mut lists).map(|code| code != 0).collect::<Vec<bool>>();
        let (mut spills, mut address) = (Spills::default(), parent());
        assert!(
            drawn
                .iter()
                .map(|call| make(*call, &mut spills, &mut address).is_err())
                .eq(refused),
            "a call of the load is refused by one side only"
        );
        let (ours, theirs) = both(
            calls as u32,
            || {
                lists.empty();
                batch.restart(&Head::new(&[], 0));
                keep(batch.codes(&mut lists).next());
            },
            || {
                let (mut spills, mut address) = (Spills::default(), parent());
                for call in &drawn {
                    let _ = make(*call, &mut spills, &mut address);
                }
            },
        );
        let name = format!(
            "load of {calls} calls in a batch, {:.0} calls per second",
            1e9 / ours.median()
        );
        line(&name, &ours, Some(&theirs));
    }
}
