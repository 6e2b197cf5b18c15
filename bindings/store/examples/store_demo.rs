//! Indexes a generated chain with forks on disk, opens it again, and shows an account.
//! Usage: store_demo FOLDER BOXES PARENTS [DRAWS]; without LMDB, or with the folder `memory`, the store is in memory.

use std::env;
use std::io::Write;
use std::path::Path;
use std::process::ExitCode;
use std::time::Instant;

use ergo_index_store::*;

/// The most memory that this process had, in MiB.
fn peak() -> f64 {
    let status = std::fs::read_to_string("/proc/self/status").unwrap_or_default();
    let line = status.lines().find(|line| line.starts_with("VmHWM"));
    line.and_then(|line| line.split_whitespace().nth(1)?.parse::<f64>().ok()).unwrap_or(0.0) / 1024.0
}

fn progress(line: &str) {
    print!("\r{line}");
    std::io::stdout().flush().ok();
}

fn run<S: Store>(store: S, boxes: u64, shape: ChainShape) -> Result<S, Fault> {
    let mut indexer = Indexer::open(store, Limits::default())?;
    let mut chain = Chain::new(shape);
    let (begin, mut calls, mut refused, mut forks, mut shown) = (Instant::now(), 0, 0, 0, 0);
    while indexer.tip().map_or(0, |tip| tip.boxes) < boxes {
        match chain.step() {
            ChainBlock::Block(header, block) => {
                let answers = indexer.apply_block(header, &block)?;
                calls += answers.len();
                refused += answers.iter().filter(|answer| answer.is_err()).count();
            }
            ChainBlock::Fork(depth) => {
                indexer.roll_back(depth)?;
                forks += 1;
            }
        }
        let seconds = begin.elapsed().as_secs();
        if shown != seconds {
            shown = seconds;
            let tip = indexer.tip().expect("blocks were applied");
            progress(&format!("block {}, {} boxes, {calls} calls, {forks} forks, {seconds} s", tip.height, tip.boxes));
        }
    }
    let (tip, counters) = (indexer.tip().expect("blocks were applied"), indexer.counters());
    let seconds = begin.elapsed().as_secs_f64();
    progress(&format!("block {}, {} boxes, {calls} calls ({refused} refused), {forks} forks, {seconds:.1} s\n", tip.height, tip.boxes));
    println!(
        "{:.0} steps a second; {} bytes written a step; {} rows fetched, {} records read; most memory {:.0} MiB",
        chain.steps() as f64 / seconds,
        counters.written / chain.steps(),
        counters.fetched,
        counters.loaded,
        peak()
    );
    Ok(indexer.into_store())
}

fn show<S: Store>(store: S) -> Result<(), Fault> {
    let begin = Instant::now();
    let checked = check(&store, &mut |_| {})?;
    println!(
        "read back: {} addresses, {} rows, {} unspent, {} spent, {} unknown, {} transactions, {} blocks to take back, {:.1} s",
        checked.addresses,
        checked.rows,
        checked.unspent,
        checked.spent,
        checked.unknown,
        checked.txs,
        checked.blocks,
        begin.elapsed().as_secs_f64()
    );
    let mut indexer = Indexer::open(store, Limits::default())?;
    if let Some(mut account) = indexer.account(&Chain::parent(0))? {
        let (tally, page) = (account.tally()?, account.page(0)?);
        println!("the account with the most calls: {} unspent, {} spent, {} unknown boxes", tally.unspent, tally.spent, tally.unknown);
        println!("its newest unspent boxes: {:?}", page.iter().take(8).map(|number| number.0).collect::<Vec<_>>());
        println!("its statement: {} mErg, {} tokens", account.statement(), account.balance().len());
    }
    Ok(())
}

fn main() -> ExitCode {
    let words: Vec<String> = env::args().skip(1).collect();
    let number = |i: usize, otherwise: u64| words.get(i).and_then(|word| word.parse().ok()).unwrap_or(otherwise);
    let folder = words.first().map_or("target/store", String::as_str);
    let shape = ChainShape { parents: number(2, 1_000) as usize, draws: number(3, 120) as usize, ..ChainShape::default() };
    let boxes = number(1, 50_000);
    let path = Path::new(folder);
    let done = if folder == "memory" {
        run(MemoryStore::default(), boxes, shape).and_then(show)
    } else {
        std::fs::remove_dir_all(path).ok();
        match LmdbStore::open(path, 64 << 30, Sync::Never) {
            Ok(store) => {
                let ran = run(store, boxes, shape).map(drop);
                println!("closed and opened again");
                ran.and_then(|()| show(LmdbStore::open(path, 64 << 30, Sync::Never)?))
            }
            Err(error) => {
                eprintln!("{error}\nthe store is in memory");
                run(MemoryStore::default(), boxes, shape).and_then(show)
            }
        }
    };
    match done {
        Ok(()) => ExitCode::SUCCESS,
        Err(fault) => {
            eprintln!("store_demo: {fault}");
            ExitCode::FAILURE
        }
    }
}
