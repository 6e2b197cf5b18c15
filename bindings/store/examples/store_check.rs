//! Reads a store back: every address, every row, tallies beside fresh summaries, and what takes blocks back.
//! Usage: store_check FOLDER

use std::env;
use std::path::Path;
use std::process::ExitCode;

use ergo_index_store::*;

fn checked(folder: &str) -> Result<Checked, Fault> {
    let mut shown = 0;
    check(&LmdbStore::open(Path::new(folder), 64 << 30, Sync::Never)?, &mut |so_far| {
        if shown + 10_000 <= so_far.addresses {
            shown = so_far.addresses;
            eprintln!("{shown} addresses");
        }
    })
}

fn main() -> ExitCode {
    let Some(folder) = env::args().nth(1).filter(|folder| Path::new(folder).is_dir()) else {
        eprintln!("store_check FOLDER: the folder of a store");
        return ExitCode::FAILURE;
    };
    match checked(&folder) {
        Ok(all) => {
            println!(
                "{} addresses, {} rows, {} unspent, {} spent, {} unknown, {} transactions",
                all.addresses, all.rows, all.unspent, all.spent, all.unknown, all.txs
            );
            println!("{} blocks can be taken back, {} calls; tallies and summaries agree", all.blocks, all.calls);
            ExitCode::SUCCESS
        }
        Err(fault) => {
            eprintln!("store_check: {fault}");
            ExitCode::FAILURE
        }
    }
}
