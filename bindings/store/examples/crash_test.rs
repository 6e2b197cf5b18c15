//! Kills an indexer at random moments, opens its store again, and compares all of it with a replay in memory: nothing lost, nothing doubled.
//! Usage: crash_test FOLDER KILLS [SEED]

use std::env;
use std::path::Path;
use std::process::{Command, ExitCode};
use std::thread::sleep;
use std::time::{Duration, Instant};

use ergo_index_store::*;

const BYTES: usize = 4 << 30;

fn shape(seed: u64) -> ChainShape {
    ChainShape { parents: 60, draws: 60, fork_every: 6, deepest: 4, seed }
}

/// A step of the chain; a fork is one transaction a block, so each is a step of its own.
struct Steps {
    chain: Chain,
    pending: u64,
    made: u64,
}

impl Steps {
    fn new(seed: u64) -> Self {
        Steps { chain: Chain::new(shape(seed)), pending: 0, made: 0 }
    }

    fn next(&mut self) -> ChainBlock {
        self.made += 1;
        if self.pending == 0 {
            match self.chain.step() {
                ChainBlock::Fork(depth) => self.pending = depth,
                block => return block,
            }
        }
        self.pending -= 1;
        ChainBlock::Fork(1)
    }

    fn make<S: Store>(&mut self, indexer: &mut Indexer<S>) -> Result<(), Fault> {
        let step = self.next();
        indexer.set_note(&self.made.to_be_bytes());
        match step {
            ChainBlock::Block(header, calls) => indexer.apply_block(header, &calls).map(drop),
            ChainBlock::Fork(depth) => indexer.roll_back(depth),
        }
    }
}

fn made<S: Store>(indexer: &Indexer<S>) -> Result<u64, Fault> {
    Ok(indexer.note()?.and_then(|note| note.try_into().ok()).map_or(0, u64::from_be_bytes))
}

/// Goes on from where the store stands, until it is killed.
fn child(folder: &Path, seed: u64) -> Result<(), Fault> {
    let mut indexer = Indexer::open(LmdbStore::open(folder, BYTES, Sync::Never)?, Limits { rows: 32, parents: 32, ..Limits::default() })?;
    let mut steps = Steps::new(seed);
    let from = made(&indexer)?;
    while steps.made < from {
        steps.next();
    }
    loop {
        steps.make(&mut indexer)?;
    }
}

fn kills(folder: &Path, count: u64, seed: u64) -> Result<(), Fault> {
    std::fs::remove_dir_all(folder).ok();
    let mut replay = Indexer::open(MemoryStore::default(), Limits::default())?;
    let mut steps = Steps::new(seed);
    let mut state = seed | 1;
    let begin = Instant::now();
    for kill in 1..=count {
        let program = env::current_exe().expect("a program has a path");
        let mut running =
            Command::new(program).args(["child", &folder.to_string_lossy(), &seed.to_string()]).spawn().expect("the program starts again");
        state = state.wrapping_mul(6364136223846793005).wrapping_add(1442695040888963407);
        sleep(Duration::from_micros(3_000 + (state >> 33) % 60_000));
        running.kill().expect("a process that runs can be killed");
        running.wait().expect("a killed process ends");
        let store = LmdbStore::open(folder, BYTES, Sync::Never)?;
        let reached = made(&Indexer::open(MemoryStore::copy_of(&store)?, Limits::default())?)?;
        while steps.made < reached {
            steps.make(&mut replay)?;
        }
        if MemoryStore::copy_of(&store)? != *replay.store() {
            eprintln!("kill {kill}: after step {reached} the store is another than the replay");
            return Err(Fault::Damaged("the store"));
        }
        if kill % 10 == 0 || kill == count {
            check(&store, &mut |_| {})?;
            println!("{kill} kills, {reached} steps, {:.0} s: the store is the replay", begin.elapsed().as_secs_f64());
        }
    }
    Ok(())
}

fn main() -> ExitCode {
    let words: Vec<String> = env::args().skip(1).collect();
    let number = |i: usize, otherwise: u64| words.get(i).and_then(|word| word.parse().ok()).unwrap_or(otherwise);
    let done = match words.first().map(String::as_str) {
        Some("child") => child(Path::new(&words[1]), number(2, 1)),
        Some(folder) => kills(Path::new(folder), number(1, 40), number(2, 1)),
        None => kills(Path::new("target/crash"), 40, 1),
    };
    match done {
        Ok(()) => ExitCode::SUCCESS,
        Err(fault) => {
            eprintln!("crash_test: {fault}");
            ExitCode::FAILURE
        }
    }
}
