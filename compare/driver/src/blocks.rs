//! Blocks of a driver, applied and undone by both sides over tables of several sizes: parents by Zipf's law, about 200 calls a block, forks of 1 to 4 blocks.

use std::collections::HashMap;

use ergo_index::{Accounts, BlockCall, BoxNumber, CallAnswer, Capacities, Index, ParentNumber, Token, TxNumber};
use reference::address::{BalanceInfo, IndexedAddress};
use reference::calls::Spills;
use reference::segment::Segment;
use reference::Digest32;

use crate::measure::{line, thread_time, Times};
use crate::random::Random;

const PARENTS: usize = 1_000;
const DRAWS: usize = 110;
/// Rounds of a line, of which the first are not timed; every third one has a fork.
const ROUNDS: usize = 480;
const WARM_UP: usize = 48;
const ROW: i64 = 512;

/// The calls of a block: on both sides the same.
pub type Block = Vec<(usize, BlockCall)>;

/// Draws the blocks of a chain.
pub struct Blocks {
    random: Random,
    shares: Vec<f64>,
    next: Vec<i64>,
    spent: Vec<HashMap<i64, ()>>,
}

impl Blocks {
    /// So many parents, which hold about so many rows of boxes at first.
    fn new(seed: u64, rows: usize) -> Self {
        let weights: Vec<f64> = (1..=PARENTS).map(|rank| 1.0 / rank as f64).collect();
        let all: f64 = weights.iter().sum();
        let held =
            |weight: &f64| ((rows as f64 * weight / all).round() as i64) * ROW + (seed as i64 * 37 + (weight * 1e6) as i64) % 400;
        let shares = weights.iter().scan(0.0, |sum, weight| {
            *sum += weight / all;
            Some(*sum)
        });
        Self {
            random: Random::new(seed),
            next: weights.iter().map(held).collect(),
            shares: shares.collect(),
            spent: vec![HashMap::new(); PARENTS],
        }
    }

    fn parent(&mut self) -> usize {
        let at = (self.random.word() >> 11) as f64 / (1u64 << 53) as f64;
        self.shares.partition_point(|share| *share < at).min(PARENTS - 1)
    }

    fn tokens(&mut self) -> Vec<Token> {
        let id = [self.random.below(60) as u8; 32];
        let amount = self.random.below(1000) as i64 + 1;
        if self.random.once_in(2) {
            vec![Token { id, amount }]
        } else {
            Vec::new()
        }
    }

    /// A box that was not spent: mostly a new one, else any.
    fn target(&mut self, parent: usize) -> Option<i64> {
        let all = self.next[parent];
        let from = if self.random.below(10) < 7 { (all - 600).max(0) } else { 0 };
        let target = from + self.random.below((all - from).max(1) as u64) as i64;
        (0 < target && target < all && self.spent[parent].insert(target, ()).is_none()).then_some(target)
    }

    fn block(&mut self) -> Block {
        let mut calls = Vec::new();
        for _ in 0..DRAWS {
            let parent = self.parent();
            let nanos = 1_000_000 + self.random.below(1 << 20) as i64;
            match self.random.below(10) {
                0..=4 => {
                    calls.push((parent, BlockCall::AppendBox(BoxNumber(self.next[parent]))));
                    calls.push((parent, BlockCall::Credit(nanos, self.tokens())));
                    self.next[parent] += 1;
                }
                5..=8 => {
                    if let Some(target) = self.target(parent) {
                        calls.push((parent, BlockCall::Spend(BoxNumber(target))));
                        calls.push((parent, BlockCall::Debit(nanos, self.tokens())));
                    }
                }
                _ => calls.push((parent, BlockCall::AppendTx(TxNumber(self.random.below(1 << 40) as i64)))),
            }
        }
        calls
    }
}

fn id(parent: usize) -> [u8; 32] {
    let mut id = [0x42; 32];
    id[..8].copy_from_slice(&(parent as u64).to_be_bytes());
    id
}

/// The reference with the rows in memory, as its block loop has them.
pub struct Theirs {
    pub spills: Spills,
    pub addresses: Vec<IndexedAddress>,
}

impl Theirs {
    pub fn with(spills: Spills, parents: usize, id: impl Fn(usize) -> [u8; 32]) -> Self {
        let address = |p| IndexedAddress {
            tree_hash: Digest32::from_bytes(id(p)),
            balance: Some(BalanceInfo::default()),
            segment: Segment::empty(),
        };
        Self {
            spills,
            addresses: (0..parents).map(address).collect(),
        }
    }

    /// Makes a call; whether it was accepted.
    pub fn make(&mut self, parent: usize, call: &BlockCall) -> bool {
        let address = &mut self.addresses[parent];
        match call {
            BlockCall::AppendBox(n) => self.spills.append_box(address, n.0).is_ok(),
            BlockCall::AppendTx(n) => self.spills.append_tx(address, n.0).is_ok(),
            BlockCall::Spend(n) => self.spills.flip(address, n.0).is_ok(),
            BlockCall::Credit(nanos, tokens) => {
                address.balance.as_mut().expect("a balance").add_box(*nanos, &digests(tokens));
                true
            }
            BlockCall::Debit(nanos, tokens) => {
                address
                    .balance
                    .as_mut()
                    .expect("a balance")
                    .subtract_box(*nanos, &digests(tokens));
                true
            }
        }
    }

    pub fn undo(&mut self, parent: usize, call: &BlockCall) {
        let address = &mut self.addresses[parent];
        match call {
            BlockCall::AppendBox(_) => drop(self.spills.pop_box(address).expect("a pop")),
            BlockCall::AppendTx(_) => drop(self.spills.pop_tx(address).expect("a pop")),
            BlockCall::Spend(n) => self.spills.unflip(address, n.0).expect("an unspend"),
            BlockCall::Credit(nanos, tokens) => address
                .balance
                .as_mut()
                .expect("a balance")
                .subtract_box(*nanos, &digests(tokens)),
            BlockCall::Debit(nanos, tokens) => address.balance.as_mut().expect("a balance").add_box(*nanos, &digests(tokens)),
        }
    }

    fn apply(&mut self, block: &Block) {
        for (parent, call) in block {
            assert!(self.make(*parent, call), "a call of the block is accepted");
        }
        self.spills.flush().expect("a flush");
    }

    fn take_back(&mut self, blocks: &[Block]) {
        for block in blocks.iter().rev() {
            for (parent, call) in block.iter().rev() {
                self.undo(*parent, call);
            }
        }
        self.spills.flush().expect("a flush");
    }
}

fn digests(tokens: &[Token]) -> Vec<(Digest32, i64)> {
    tokens
        .iter()
        .map(|token| (Digest32::from_bytes(token.id), token.amount))
        .collect()
}

/// The index: all parents over one table, or parents with a table each.
enum Ours {
    Shared(Index, Vec<ParentNumber>),
    Apart(Accounts, Vec<ParentNumber>),
}

/// Rows of one parent that are staged at a time, where parents have a table each.
const STAGED_OF_A_PARENT: usize = 16;

fn accepted(answers: &[CallAnswer]) {
    assert!(answers.iter().all(Result::is_ok), "a call of the block is accepted");
}

impl Ours {
    fn shared(staged: usize, rows: usize) -> Self {
        let mut index = Index::new(Capacities {
            staged,
            deleted: staged,
            rows: rows + 256,
            journal: 1 << 20,
        });
        let parents = (0..PARENTS).map(|p| index.add_parent(id(p))).collect();
        Ours::Shared(index, parents)
    }

    fn apart() -> Self {
        let mut accounts = Accounts::new(STAGED_OF_A_PARENT);
        let parents = (0..PARENTS).map(|p| accounts.add_parent(id(p))).collect();
        Ours::Apart(accounts, parents)
    }

    /// Several blocks by one call.
    fn apply(&mut self, blocks: &[Block]) {
        match self {
            Ours::Shared(index, parents) => {
                for block in blocks {
                    for (parent, call) in block {
                        index.queue(parents[*parent], call);
                    }
                    index.end_block(0);
                }
                accepted(&index.apply().expect("lists in order"));
            }
            Ours::Apart(accounts, parents) => {
                for block in blocks {
                    let calls = block.iter().map(|(parent, call)| (parents[*parent], call.clone())).collect();
                    accepted(&accounts.apply(0, calls).expect("tables in order"));
                }
            }
        }
    }

    fn take_back(&mut self, blocks: usize) {
        match self {
            Ours::Shared(index, _) => index.roll_back_blocks(blocks).expect("undone"),
            Ours::Apart(accounts, _) => accounts.roll_back_blocks(blocks).expect("undone"),
        }
    }

    fn forget(&mut self) {
        match self {
            Ours::Shared(index, _) => index.remember(8),
            Ours::Apart(accounts, _) => accounts.remember(8),
        }
    }
}

fn timed(body: impl FnOnce()) -> f64 {
    let start = thread_time();
    body();
    (thread_time() - start) / 1e3
}

/// The same blocks and forks on both sides: microseconds of a block applied and of a block taken back.
fn side_by_side(name: &str, rows: usize, at_once: usize, mut ours: Ours) {
    let mut blocks = Blocks::new(7, rows);
    let mut theirs = Theirs::with(Spills::default(), PARENTS, id);
    for parent in 0..PARENTS {
        let filled: Block = (0..blocks.next[parent])
            .map(|n| (parent, BlockCall::AppendBox(BoxNumber(n))))
            .collect();
        for piece in filled.chunks(8 * ROW as usize) {
            let piece = vec![piece.to_vec()];
            ours.apply(&piece);
            theirs.apply(&piece[0]);
        }
    }
    ours.forget();
    let (mut applied, mut undone) = ((Vec::new(), Vec::new()), (Vec::new(), Vec::new()));
    for round in 0..ROUNDS {
        let drawn: Vec<Block> = (0..at_once).map(|_| blocks.block()).collect();
        let a = timed(|| ours.apply(&drawn)) / at_once as f64;
        let b = timed(|| drawn.iter().for_each(|block| theirs.apply(block))) / at_once as f64;
        if WARM_UP <= round {
            applied.0.push(a * 1e3);
            applied.1.push(b * 1e3);
        }
        if round % 3 == 2 {
            // a fork: 1 to 4 further blocks come and fall away
            let depth = 1 + round / 3 % 4;
            let fork: Vec<Block> = (0..depth)
                .map(|_| {
                    let block = blocks.block();
                    ours.apply(&[block.clone()]);
                    theirs.apply(&block);
                    block
                })
                .collect();
            let a = timed(|| ours.take_back(depth)) / depth as f64;
            let b = timed(|| theirs.take_back(&fork)) / depth as f64;
            for (parent, call) in fork.iter().flatten() {
                match call {
                    BlockCall::AppendBox(_) => blocks.next[*parent] -= 1,
                    BlockCall::Spend(target) => drop(blocks.spent[*parent].remove(&target.0)),
                    _ => {}
                }
            }
            if WARM_UP <= round {
                undone.0.push(a * 1e3);
                undone.1.push(b * 1e3);
            }
        }
        ours.forget();
    }
    compare(&mut ours, &theirs);
    line(
        &format!("{name}, applied"),
        &Times::new(applied.0),
        Some(&Times::new(applied.1)),
    );
    line(&format!("{name}, undone"), &Times::new(undone.0), Some(&Times::new(undone.1)));
}

/// Both sides hold the same heads.
fn compare(ours: &mut Ours, theirs: &Theirs) {
    for (parent, address) in theirs.addresses.iter().enumerate() {
        let segment = match ours {
            Ours::Shared(index, parents) => index.segment(parents[parent]),
            Ours::Apart(accounts, parents) => accounts.account(parents[parent]).segment.clone(),
        };
        assert_eq!(segment.boxes(), address.segment.boxes, "the head of parent {parent}");
        assert_eq!(
            segment.box_spills(),
            address.segment.box_segment_count,
            "the rows of parent {parent}"
        );
    }
}

/// Blocks over one table, one or eight a call, and over a table for each parent.
pub fn lines() {
    for rows in [70, 3_000, 7_900] {
        side_by_side(
            &format!("block of 200 calls, one table of {rows} rows, one a call"),
            rows,
            1,
            Ours::shared(if rows < 100 { 16 } else { 64 }, rows),
        );
        side_by_side(
            &format!("block of 200 calls, one table of {rows} rows, eight a call"),
            rows,
            8,
            Ours::shared(if rows < 100 { 64 } else { 256 }, rows),
        );
    }
    for rows in [70, 3_000, 7_900] {
        side_by_side(
            &format!("block of 200 calls, a table for each parent, {rows} rows in all"),
            rows,
            1,
            Ours::apart(),
        );
    }
}
