//! A generated chain: the repeatable load of each of many parents, in blocks, with forks. Equal shapes give equal chains.

use std::collections::VecDeque;

use ergo_index::{BlockCall, Load, LoadCall, Token};

/// What a chain is like.
#[derive(Clone, Copy, Debug, PartialEq, Eq)]
pub struct ChainShape {
    /// How many parents there are; they are drawn by Zipf's law.
    pub parents: usize,
    /// Draws of a block: each gives a call, and with a box a credit of what it holds, with its spend a debit of the same.
    pub draws: usize,
    /// About so many steps to a fork, or 0 for none.
    pub fork_every: u64,
    /// The deepest fork.
    pub deepest: u64,
    /// Where the draws begin.
    pub seed: u64,
}

impl Default for ChainShape {
    fn default() -> Self {
        ChainShape { parents: 1_000, draws: 120, fork_every: 20, deepest: 4, seed: 1 }
    }
}

/// A step of the chain: a block, or a fork that takes so many back.
#[derive(Clone, Debug, PartialEq, Eq)]
pub enum ChainBlock {
    /// The next block: its header's id and its calls.
    Block([u8; 32], Vec<([u8; 32], BlockCall)>),
    /// The newest blocks fall away.
    Fork(u64),
}

/// The generator of a chain.
#[derive(Clone)]
pub struct Chain {
    shape: ChainShape,
    state: u64,
    shares: Vec<f64>,
    accounts: Vec<Account>,
    /// For each block that stands, what it moved: a parent's load as it was before, and the box that it spent.
    moved: VecDeque<Vec<(usize, Load, Option<u64>)>>,
    steps: u64,
}

/// The load of a parent, and which of its boxes are spent, a bit each.
#[derive(Clone)]
struct Account {
    load: Load,
    spent: Vec<u64>,
}

impl Account {
    /// Marks a box as spent; whether it was not.
    fn spend(&mut self, number: u64) -> bool {
        let (word, bit) = (number as usize / 64, 1 << (number % 64));
        if self.spent.len() <= word {
            self.spent.resize(word + 1, 0);
        }
        let fresh = self.spent[word] & bit == 0;
        self.spent[word] |= bit;
        fresh
    }

    fn unspend(&mut self, number: u64) {
        self.spent[number as usize / 64] &= !(1 << (number % 64));
    }
}

/// Blocks that a fork can take back are remembered.
const REMEMBERED: usize = 720;

impl Chain {
    /// The chain of a shape.
    pub fn new(shape: ChainShape) -> Self {
        let weights: Vec<f64> = (1..=shape.parents.max(1)).map(|rank| 1.0 / rank as f64).collect();
        let all: f64 = weights.iter().sum();
        let shares = weights.iter().scan(0.0, |sum, weight| {
            *sum += weight / all;
            Some(*sum)
        });
        let loads = (0..weights.len() as u64).map(|p| Load::new(shape.seed.wrapping_mul(0x9E37_79B9_7F4A_7C15) ^ (p + 1) << 8 | 1).expect("not 0"));
        let accounts = loads.map(|load| Account { load, spent: Vec::new() }).collect();
        Chain { shape, state: shape.seed | 1, shares: shares.collect(), accounts, moved: VecDeque::new(), steps: 0 }
    }

    /// How many steps were made.
    pub fn steps(&self) -> u64 {
        self.steps
    }

    /// The id of a parent by its rank.
    pub fn parent(rank: usize) -> [u8; 32] {
        let mut id = [0x5A; 32];
        id[..8].copy_from_slice(&(rank as u64).to_be_bytes());
        id
    }

    fn draw(&mut self) -> u64 {
        self.state ^= self.state << 13;
        self.state ^= self.state >> 7;
        self.state ^= self.state << 17;
        self.state
    }

    fn draw_parent(&mut self) -> usize {
        let at = (self.draw() >> 11) as f64 / (1u64 << 53) as f64;
        self.shares.partition_point(|share| *share < at).min(self.shares.len() - 1)
    }

    /// What a box holds, by its parent and its number: nanoErgs and up to two tokens of forty.
    fn held(parent: usize, number: i64) -> (i64, Vec<Token>) {
        let mut mixed = (parent as u64 + 1).wrapping_mul(0x9E37_79B9_7F4A_7C15) ^ (number as u64 + 1).wrapping_mul(0xD6E8_FEB8_6659_FD93);
        mixed ^= mixed >> 29;
        let token = |i: u64| Token { id: [(mixed >> (16 * i)) as u8 % 20 + 20 * i as u8; 32], amount: (mixed >> 40 & 0xff) as i64 + 1 };
        (1_000_000 + (mixed >> 34) as i64, (0..mixed % 3).map(token).collect())
    }

    /// The next step.
    pub fn step(&mut self) -> ChainBlock {
        self.steps += 1;
        let drawn = self.draw();
        let depth = 1 + (drawn >> 32) % self.shape.deepest.max(1);
        if self.shape.fork_every != 0 && drawn % self.shape.fork_every == 0 && depth <= self.moved.len() as u64 {
            for _ in 0..depth {
                let block = self.moved.pop_back().expect("so many blocks stand");
                for (parent, load, spent) in block.into_iter().rev() {
                    self.accounts[parent].load = load;
                    spent.into_iter().for_each(|number| self.accounts[parent].unspend(number));
                }
            }
            return ChainBlock::Fork(depth);
        }
        let (mut calls, mut before) = (Vec::new(), Vec::new());
        for _ in 0..self.shape.draws {
            let parent = self.draw_parent();
            let id = Chain::parent(parent);
            let account = &mut self.accounts[parent];
            let load = account.load.clone();
            let mut spent = None;
            match account.load.next().expect("a load does not end") {
                LoadCall::AppendBox(number) => {
                    let (nanos, tokens) = Chain::held(parent, number.0);
                    calls.extend([(id, BlockCall::AppendBox(number)), (id, BlockCall::Credit(nanos, tokens))]);
                }
                LoadCall::AppendTx(number) => calls.push((id, BlockCall::AppendTx(number))),
                LoadCall::Spend(number) => {
                    calls.push((id, BlockCall::Spend(number)));
                    // a box that is spent already is refused by 14; box 0 has no mark
                    if 0 < number.0 && account.spend(number.0 as u64) {
                        let (nanos, tokens) = Chain::held(parent, number.0);
                        calls.push((id, BlockCall::Debit(nanos, tokens)));
                        spent = Some(number.0 as u64);
                    }
                }
                LoadCall::Flush => {}
            }
            before.push((parent, load, spent));
        }
        self.moved.push_back(before);
        if REMEMBERED < self.moved.len() {
            self.moved.pop_front();
        }
        let mut header = [0; 32];
        header[..8].copy_from_slice(&self.steps.to_be_bytes());
        ChainBlock::Block(header, calls)
    }
}
