//! Which sizes the staged and the deleted spills need for given blocks and forks.
//!
//! ```text
//! fork_trial STATE STEP..        a block of n calls is n, a fork of d blocks is -d
//! fork_trial --file FILE         the same words from a file, STATE first; words behind # on a line are left out
//! fork_trial --depths            a table of the figures over the depth of a fork
//! ```
//!
//! The calls are those of the load that can be repeated (`make load`), for one parent. Long runs say every two seconds that they go on.
use ergo_index::*;
use std::process::ExitCode;
use std::sync::mpsc::{channel, RecvTimeoutError};
use std::time::{Duration, Instant};
use std::{env, fs, thread};

/// Room for every row and every call of the steps, so that only the steps decide.
fn ample(steps: &[i32]) -> TrialSizes {
    let calls: usize = steps.iter().map(|step| usize::try_from(*step).unwrap_or(0)).sum();
    let rows = calls / 256 + 4;
    TrialSizes { table: rows, staged: rows, deleted: rows, standing: calls }
}

/// A trial, with a line on the error output every two seconds while it runs.
fn tried(state: u64, steps: &[i32], sizes: TrialSizes) -> Result<TrialFigures, Refusal> {
    let (done, waits) = channel::<()>();
    let start = Instant::now();
    let watch = thread::spawn(move || {
        while waits.recv_timeout(Duration::from_secs(2)) == Err(RecvTimeoutError::Timeout) {
            eprintln!("still running, {} s", start.elapsed().as_secs());
        }
    });
    let answer = try_forks(state, steps, sizes);
    drop(done);
    watch.join().expect("the watch ends");
    answer
}

fn told(state: u64, steps: &[i32]) -> ExitCode {
    let sizes = ample(steps);
    match tried(state, steps, sizes) {
        Ok(figures) => {
            println!("staged rows at any one time:  {}", figures.staged);
            println!("deleted keys at any one time: {}", figures.deleted);
            println!(
                "Give the staged spills room for {} rows ({} bytes) and the deleted spills room for {} keys ({} bytes) for each parent that sees such blocks",
                figures.staged,
                figures.staged * RECORD_SIZE,
                figures.deleted,
                figures.deleted * KEY_SIZE
            );
            println!("between two flushes; with that room these steps never meet a full list (16, 21), with less they do.");
            ExitCode::SUCCESS
        }
        Err(refusal) => {
            println!("no figures: {refusal}");
            ExitCode::FAILURE
        }
    }
}

/// Blocks of 200 calls, then a fork of so many of them.
fn depths() -> ExitCode {
    const CALLS: i32 = 200;
    const BLOCKS: usize = 720;
    println!("| fork of blocks | staged rows | deleted keys |\n|---|---|---|");
    for depth in [1, 2, 5, 10, 20, 50, 100, 200, 400, 720] {
        let steps: Vec<i32> = [vec![CALLS; BLOCKS], vec![-depth]].concat();
        match tried(1, &steps, ample(&steps)) {
            Ok(figures) => println!("| {depth} | {} | {} |", figures.staged, figures.deleted),
            Err(refusal) => {
                println!("no figures: {refusal}");
                return ExitCode::FAILURE;
            }
        }
    }
    ExitCode::SUCCESS
}

fn usage() -> ExitCode {
    eprintln!("usage: fork_trial STATE STEP.. | fork_trial --file FILE | fork_trial --depths");
    ExitCode::from(2)
}

fn numbers(words: &[String]) -> Option<(u64, Vec<i32>)> {
    let (state, steps) = words.split_first()?;
    Some((state.parse().ok()?, steps.iter().map(|word| word.parse()).collect::<Result<_, _>>().ok()?))
}

fn main() -> ExitCode {
    let words: Vec<String> = env::args().skip(1).collect();
    let given = match words.iter().map(String::as_str).collect::<Vec<_>>()[..] {
        ["--depths"] => return depths(),
        ["--file", file] => match fs::read_to_string(file) {
            Ok(text) => text.lines().flat_map(|line| line.split('#').next().unwrap_or("").split_whitespace()).map(String::from).collect(),
            Err(error) => {
                eprintln!("{file}: {error}");
                return ExitCode::from(2);
            }
        },
        _ => words,
    };
    match numbers(&given) {
        Some((state, steps)) => told(state, &steps),
        None => usage(),
    }
}
