//! Blocks and forks on a store: the index with a working set, and the reference over the same LMDB by the same trait and over its table in memory.
//! Usage: store_bench FOLDER BOXES PARENTS

use std::env;
use std::path::Path;
use std::time::Instant;

use driver::store_peer::Peer;
use ergo_index_store::{Chain, ChainBlock, ChainShape, Indexer, Limits, LmdbStore, MemoryStore, Store, Sync};

/// Both sides may hold all parents; the reference holds no row between blocks.
const LIMITS: Limits = Limits {
    rows: 128,
    parents: 16_384,
    window: 720,
    staged: 64,
};

struct Figures {
    blocks: Vec<f64>,
    forks: Vec<f64>,
    seconds: f64,
    written: u64,
}

fn at(times: &[f64], share: f64) -> f64 {
    let mut sorted = times.to_vec();
    sorted.sort_by(f64::total_cmp);
    sorted
        .get(((sorted.len().max(1) - 1) as f64 * share) as usize)
        .copied()
        .unwrap_or(0.0)
}

fn show(name: &str, f: &Figures) {
    println!(
        "| {name} | {:.0} | {:.2} | {:.2} | {:.2} | {:.2} | {} |",
        f.blocks.len() as f64 / f.seconds,
        at(&f.blocks, 0.5),
        at(&f.blocks, 0.99),
        at(&f.forks, 0.5),
        at(&f.forks, 0.99),
        f.written / (f.blocks.len() + f.forks.len()).max(1) as u64
    );
}

/// What is done with a step: how many boxes stand afterwards.
fn measure(shape: ChainShape, boxes: u64, mut step: impl FnMut(ChainBlock) -> u64) -> Figures {
    let mut chain = Chain::new(shape);
    let mut figures = Figures {
        blocks: Vec::new(),
        forks: Vec::new(),
        seconds: 0.0,
        written: 0,
    };
    let mut stand = 0;
    while stand < boxes {
        let drawn = chain.step();
        let fork = if let ChainBlock::Fork(depth) = drawn {
            Some(depth)
        } else {
            None
        };
        let begin = Instant::now();
        stand = step(drawn);
        let seconds = begin.elapsed().as_secs_f64();
        figures.seconds += seconds;
        match fork {
            None => figures.blocks.push(seconds * 1e3),
            Some(depth) => figures.forks.push(seconds * 1e3 / depth as f64),
        }
    }
    figures
}

fn index<S: Store>(name: &str, store: S, shape: ChainShape, boxes: u64) {
    let mut indexer = Indexer::open(store, LIMITS).expect("an empty store");
    let mut figures = measure(shape, boxes, |step| {
        match step {
            ChainBlock::Block(header, calls) => drop(indexer.apply_block(header, &calls).expect("a block")),
            ChainBlock::Fork(depth) => indexer.roll_back(depth).expect("a fork"),
        }
        indexer.tip().map_or(0, |tip| tip.boxes)
    });
    figures.written = indexer.counters().written;
    show(name, &figures);
}

fn peer<S: Store + 'static>(name: &str, store: S, shape: ChainShape, boxes: u64) {
    let mut peer = Peer::new(store, LIMITS.parents);
    let mut figures = measure(shape, boxes, |step| {
        match step {
            ChainBlock::Block(_, calls) => peer.apply(&calls),
            ChainBlock::Fork(depth) => peer.roll_back(depth),
        }
        peer.boxes
    });
    figures.written = peer.written;
    show(name, &figures);
}

fn main() {
    let words: Vec<String> = env::args().skip(1).collect();
    let number = |i: usize, otherwise: u64| words.get(i).and_then(|word| word.parse().ok()).unwrap_or(otherwise);
    let folder = words.first().map_or("target/store-bench", String::as_str);
    let (boxes, parents) = (number(1, 100_000), number(2, 1_000) as usize);
    let shape = ChainShape {
        parents,
        ..ChainShape::default()
    };
    println!("{boxes} boxes over {parents} parents");
    println!("| run | blocks a second | block p50 ms | p99 | block taken back p50 ms | p99 | bytes written a step |\n|---|---|---|---|---|---|---|");
    let open = |sync| {
        std::fs::remove_dir_all(folder).ok();
        LmdbStore::open(Path::new(folder), 64 << 30, sync)
    };
    index("index, store in memory", MemoryStore::default(), shape, boxes);
    peer("reference, store in memory", MemoryStore::default(), shape, boxes);
    for (sync, how) in [(Sync::Never, "no fsync"), (Sync::EachCommit, "fsync each block")] {
        match open(sync) {
            Ok(store) => index(&format!("index, LMDB, {how}"), store, shape, boxes),
            Err(error) => return eprintln!("{error}"),
        }
        peer(
            &format!("reference, LMDB, {how}"),
            open(sync).expect("it was opened before"),
            shape,
            boxes,
        );
    }
    std::fs::remove_dir_all(folder).ok();
}
