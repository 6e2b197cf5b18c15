//! A small indexer: blocks of a text are applied and taken back. Each line is a block of calls, or a fork.
//! `cargo run --example indexer < blocks.txt`, or without input a sample:
//!   block PARENT:+BOX PARENT:-BOX PARENT:tTX PARENT:cNANOS PARENT:dNANOS ..   appends, spends, transactions, credits, debits
//!   fork N                                                                      the newest N blocks fall away
//!   show PARENT

use std::io::{IsTerminal, Read};
use std::process::ExitCode;

use ergo_index::*;

const SAMPLE: &str = "block shop:+1 shop:c5000000 shop:t1\nblock shop:+2 shop:c1500000 shop:-1 shop:d5000000 shop:t2\nshow shop\nfork 1\nshow shop\n";

/// The name's bytes, as the id of a parent.
fn id_of(name: &str) -> [u8; 32] {
    blake2b256(name.as_bytes())
}

struct Indexer {
    index: Index,
    height: u64,
}

impl Indexer {
    fn parent(&mut self, name: &str) -> ParentNumber {
        let id = id_of(name);
        self.index.parent(&id).unwrap_or_else(|| self.index.add_parent(id))
    }

    /// Queues a call, as `shop:+5`.
    fn queue(&mut self, word: &str) -> Option<()> {
        let (name, call) = word.split_once(':')?;
        let number = call.get(1..)?.parse().ok()?;
        let parent = self.parent(name);
        match call.as_bytes()[0] {
            b'+' => self.index.append_box(parent, BoxNumber(number)),
            b'-' => self.index.spend(parent, BoxNumber(number)),
            b't' => self.index.append_tx(parent, TxNumber(number)),
            b'c' => self.index.credit(parent, number, &[]),
            b'd' => self.index.debit(parent, number, &[]),
            _ => return None,
        };
        Some(())
    }

    fn block<'a>(&mut self, words: impl Iterator<Item = &'a str>) -> Result<(), String> {
        let words: Vec<&str> = words.collect();
        for word in &words {
            self.queue(word).ok_or_else(|| format!("{word} is no call"))?;
        }
        self.height += 1;
        self.index.end_block(self.height);
        let answers = self.index.apply().map_err(|refusal| refusal.to_string())?;
        for (word, answer) in words.iter().zip(answers) {
            if let Err(refusal) = answer {
                println!("block {}: {word}: {refusal}", self.height);
            }
        }
        // 720 blocks can be taken back
        self.index.remember(720);
        Ok(())
    }

    fn fork(&mut self, blocks: usize) -> Result<(), String> {
        if self.index.blocks() < blocks {
            return Err(format!("{} blocks can be taken back", self.index.blocks()));
        }
        self.index.roll_back_blocks(blocks).map_err(|refusal| refusal.to_string())?;
        self.height -= blocks as u64;
        Ok(())
    }

    fn show(&mut self, name: &str) -> Result<(), String> {
        let parent = self.parent(name);
        let segment = self.index.segment(parent);
        let tally = segment.tally(self.index.staged(), self.index.table()).map_err(|refusal| refusal.to_string())?;
        let nanos = self.index.nano_ergs(parent);
        println!(
            "block {}, {name}: newest boxes {:?}, {} unspent, {} spent, {} mErg",
            self.height,
            self.index.boxes(parent),
            tally.unspent,
            tally.spent,
            statement_milli_ergs(nanos)
        );
        Ok(())
    }

    fn line(&mut self, line: &str) -> Result<(), String> {
        let mut words = line.split_whitespace();
        match words.next() {
            None => Ok(()),
            Some("block") => self.block(words),
            Some("fork") => self.fork(words.next().and_then(|word| word.parse().ok()).ok_or("fork N")?),
            Some("show") => self.show(words.next().ok_or("show PARENT")?),
            Some(other) => Err(format!("{other} is none of block, fork, show")),
        }
    }
}

fn main() -> ExitCode {
    let mut text = String::new();
    if !std::io::stdin().is_terminal() {
        std::io::stdin().read_to_string(&mut text).expect("text");
    }
    if text.is_empty() {
        text = SAMPLE.into();
    }
    let mut indexer = Indexer { index: Index::new(Capacities::default()), height: 0 };
    for line in text.lines() {
        if let Err(why) = indexer.line(line) {
            eprintln!("{line}: {why}");
            return ExitCode::FAILURE;
        }
    }
    ExitCode::SUCCESS
}
