//! The same chain on stores and with working sets of different sizes.

use ergo_index::{BoxNumber, Refusal};
use ergo_index_store::*;

fn shape(seed: u64) -> ChainShape {
    ChainShape { parents: 4, draws: 150, fork_every: 12, deepest: 4, seed }
}

fn run<S: Store>(store: S, limits: Limits, steps: u64, seed: u64) -> Indexer<S> {
    let mut indexer = Indexer::open(store, limits).expect("an empty store");
    let mut chain = Chain::new(shape(seed));
    for _ in 0..steps {
        match chain.step() {
            ChainBlock::Block(header, calls) => drop(indexer.apply_block(header, &calls).expect("a block")),
            ChainBlock::Fork(depth) => indexer.roll_back(depth).expect("a fork"),
        }
    }
    indexer
}

#[test]
fn working_sets_of_any_size_keep_the_same() {
    let whole = run(MemoryStore::default(), Limits { rows: 10_000, parents: 1_000, ..Limits::default() }, 200, 3);
    assert!(whole.store().size(Space::Rows).0 > 10, "rows were spilled");
    for rows in [0, 1, 5] {
        let some = run(MemoryStore::default(), Limits { rows, parents: rows, staged: rows.max(1), ..Limits::default() }, 200, 3);
        assert!(some.store() == whole.store(), "{rows} rows held");
        assert!(some.counters().fetched > 0);
    }
    let checked = check(whole.store(), &mut |_| {}).expect("it can be read");
    assert_eq!(checked.rows, whole.store().size(Space::Rows).0 as u64);
    assert_eq!(checked.unspent + checked.spent + checked.unknown, whole.tip().unwrap().boxes);
}

#[test]
fn everything_taken_back_leaves_nothing() {
    let mut indexer = run(MemoryStore::default(), Limits { rows: 4, parents: 4, ..Limits::default() }, 120, 7);
    let blocks = indexer.blocks() as u64;
    indexer.roll_back(blocks).expect("every block is remembered");
    assert_eq!(indexer.tip(), None);
    assert!(*indexer.store() == MemoryStore::default());
    assert_eq!(indexer.roll_back(1), Err(Fault::NoBlock));
}

#[test]
fn a_stop_between_any_two_blocks_is_unseen() {
    let whole = run(MemoryStore::default(), Limits::default(), 90, 11);
    let (mut store, mut chain) = (MemoryStore::default(), Chain::new(shape(11)));
    for _ in 0..90 {
        let mut indexer = Indexer::open(store, Limits { rows: 8, ..Limits::default() }).expect("it can be opened");
        match chain.step() {
            ChainBlock::Block(header, calls) => drop(indexer.apply_block(header, &calls).expect("a block")),
            ChainBlock::Fork(depth) => indexer.roll_back(depth).expect("a fork"),
        }
        store = indexer.into_store();
    }
    assert!(store == *whole.store());
}

#[test]
fn the_window_prunes() {
    let mut indexer = Indexer::open(MemoryStore::default(), Limits { window: 5, ..Limits::default() }).unwrap();
    for n in 1..=20 {
        indexer.apply_block([n as u8; 32], &[([1; 32], BlockCall::AppendBox(BoxNumber(n)))]).unwrap();
    }
    assert_eq!(indexer.blocks(), 6);
    indexer.roll_back(6).unwrap();
    assert_eq!((indexer.tip().unwrap().height, indexer.roll_back(1)), (14, Err(Fault::NoBlock)));
}

#[test]
fn a_row_that_is_gone_is_told_and_nothing_changes() {
    let indexer = run(MemoryStore::default(), Limits { rows: 0, parents: 0, ..Limits::default() }, 200, 3);
    let mut store = indexer.into_store();
    let mut keys = Vec::new();
    store
        .for_each(Space::Rows, &mut |key, _| {
            keys.push(key.to_vec());
            Ok(())
        })
        .unwrap();
    let mut transaction = store.transaction().unwrap();
    keys.iter().for_each(|key| transaction.remove(Space::Rows, key).unwrap());
    transaction.commit().unwrap();
    let before = store.clone();
    let mut indexer = Indexer::open(store, Limits::default()).unwrap();
    let fault = indexer.apply_block([9; 32], &[(Chain::parent(0), BlockCall::Spend(BoxNumber(1)))]);
    assert_eq!(fault, Err(Fault::Refused(Refusal::RowMissing)));
    assert!(*indexer.store() == before);
    assert!(check(indexer.store(), &mut |_| {}).is_err());
}

#[test]
fn lmdb_keeps_what_memory_keeps() {
    let folder = std::env::temp_dir().join(format!("ergo-index-store-{}", std::process::id()));
    let store = match LmdbStore::open(&folder, 1 << 30, Sync::Never) {
        Ok(store) => store,
        Err(error) => return eprintln!("passed over: {error}"),
    };
    let limits = Limits { rows: 6, parents: 6, ..Limits::default() };
    let (disk, memory) = (run(store, limits, 120, 5), run(MemoryStore::default(), limits, 120, 5));
    assert!(MemoryStore::copy_of(disk.store()).unwrap() == *memory.store());
    drop(disk);
    let again = LmdbStore::open(&folder, 1 << 30, Sync::Never).unwrap();
    assert!(MemoryStore::copy_of(&again).unwrap() == *memory.store());
    drop(again);
    std::fs::remove_dir_all(folder).unwrap();
}
