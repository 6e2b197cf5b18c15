//! Parents with a table each beside an index with one table, over blocks and forks.

use std::collections::BTreeMap;

use ergo_index::*;

fn draw(state: &mut u64, below: u64) -> u64 {
    *state ^= *state << 13;
    *state ^= *state >> 7;
    *state ^= *state << 17;
    *state % below
}

const PARENTS: usize = 3;

fn id(parent: usize) -> [u8; 32] {
    [parent as u8 + 1; 32]
}

/// Draws blocks: numbers rise, what is spent was appended, and some calls are refused.
struct Draws {
    state: u64,
    next: i64,
}

impl Draws {
    fn call(&mut self) -> BlockCall {
        let tokens = |draws: &mut Self| {
            let count = draw(&mut draws.state, 7);
            (0..count).map(|_| Token { id: [draw(&mut draws.state, 9) as u8; 32], amount: 1 + draw(&mut draws.state, 50) as i64 }).collect()
        };
        match draw(&mut self.state, 10) {
            0..=4 => {
                self.next += 1;
                BlockCall::AppendBox(BoxNumber(self.next))
            }
            5..=6 => BlockCall::Spend(BoxNumber(1 + draw(&mut self.state, self.next.max(1) as u64) as i64)),
            7 => BlockCall::AppendTx(TxNumber(draw(&mut self.state, 1 << 40) as i64)),
            8 => BlockCall::Credit(draw(&mut self.state, 1 << 30) as i64, tokens(self)),
            // amounts that can be held, so that an undo gives them back
            _ => BlockCall::Debit(0, Vec::new()),
        }
    }

    fn block(&mut self, calls: u64) -> Vec<(usize, BlockCall)> {
        (0..calls).map(|_| (draw(&mut self.state, PARENTS as u64) as usize, self.call())).collect()
    }
}

type RowMap = BTreeMap<Key, Vec<u8>>;

fn rows<'a>(tables: impl Iterator<Item = &'a SegmentTable>) -> RowMap {
    tables.flat_map(|table| table.iter().map(|(key, row)| (key, row.to_vec())).collect::<Vec<_>>()).collect()
}

fn same(accounts: &Accounts, index: &mut Index, numbers: &[ParentNumber]) {
    index.flush().expect("lists in order");
    for &number in numbers {
        let account = accounts.account(number);
        assert_eq!(account.segment, index.segment(number));
        let sorted = |balance: &Balance| {
            let mut tokens: Vec<_> = balance.tokens().map(|token| (token.id, token.amount)).collect();
            tokens.sort_unstable();
            (balance.nano_ergs(), tokens)
        };
        assert_eq!(sorted(&account.balance), sorted(&index.balance(number)));
    }
    assert_eq!(rows(numbers.iter().map(|&number| &accounts.account(number).table)), rows([index.table()].into_iter()));
}

fn beside_an_index(seed: u64, staged: usize) {
    let mut draws = Draws { state: seed, next: 0 };
    let (mut accounts, mut index) = (Accounts::new(staged), Index::new(Capacities::default()));
    let numbers: Vec<_> = (0..PARENTS).map(|parent| accounts.add_parent(id(parent))).collect();
    for (parent, &number) in numbers.iter().enumerate() {
        assert_eq!(index.add_parent(id(parent)), number);
        assert_eq!(accounts.parent(&id(parent)), Some(number));
    }
    for height in 1..=120 {
        let size = 1 + draw(&mut draws.state, 400);
        let block = draws.block(size);
        for (parent, call) in &block {
            index.queue(numbers[*parent], call);
        }
        index.end_block(height);
        let answers = index.apply().expect("lists in order");
        let calls = block.into_iter().map(|(parent, call)| (numbers[parent], call)).collect();
        assert_eq!(accounts.apply(height, calls).expect("tables in order"), answers);
        if height % 7 == 3 {
            let depth = 1 + draw(&mut draws.state, 4.min(accounts.blocks() as u64)) as usize;
            accounts.roll_back_blocks(depth).expect("taken back");
            index.roll_back_blocks(depth).expect("taken back");
        }
        if height % 11 == 5 {
            accounts.remember(5);
            index.remember(5);
            assert_eq!(accounts.blocks(), index.blocks());
        }
        assert_eq!(accounts.height(), index.height());
        same(&accounts, &mut index, &numbers);
    }
    assert!(numbers.iter().any(|&number| 2 < accounts.account(number).table.len()), "rows were spilled");
}

#[test]
fn blocks_and_forks_beside_an_index() {
    for seed in 1..=6 {
        beside_an_index(seed * 7919, 16);
    }
}

#[test]
fn with_one_place_for_staged_rows() {
    beside_an_index(4711, 1);
    beside_an_index(815, 0);
}

/// A parent with two rows in its table, in blocks 1 and 2, and a spend in the older row in block 3.
fn spilled() -> (Accounts, ParentNumber) {
    let mut accounts = Accounts::new(4);
    let shop = accounts.add_parent([7; 32]);
    for (height, numbers) in [(1, 1..=600), (2, 601..=1100)] {
        let calls = numbers.map(|n| (shop, BlockCall::AppendBox(BoxNumber(n)))).collect();
        accounts.apply(height, calls).expect("tables in order");
    }
    accounts.apply(3, vec![(shop, BlockCall::Spend(BoxNumber(5)))]).expect("tables in order");
    (accounts, shop)
}

fn with_table(accounts: Accounts, table: SegmentTable) -> (Accounts, ParentNumber) {
    let mut account = accounts.into_accounts().remove(0);
    account.table = table;
    let mut accounts = Accounts::new(4);
    let shop = accounts.add_account(account);
    (accounts, shop)
}

#[test]
fn a_missing_row_is_an_answer() {
    let (accounts, _) = spilled();
    let (mut accounts, shop) = with_table(accounts, SegmentTable::with_capacity(2));
    let before = accounts.account(shop).clone();
    let calls = vec![(shop, BlockCall::Spend(BoxNumber(6))), (shop, BlockCall::AppendTx(TxNumber(1)))];
    assert_eq!(accounts.apply(4, calls), Ok(vec![Err(Refusal::RowMissing), Ok(())]));
    assert_eq!(accounts.roll_back_blocks(1), Ok(()));
    assert_eq!(*accounts.account(shop), before);
}

#[test]
fn what_a_refused_rollback_left_stands() {
    let (mut accounts, shop) = spilled();
    let whole = accounts.account(shop).table.clone();
    accounts.apply(4, vec![(shop, BlockCall::AppendTx(TxNumber(9)))]).expect("tables in order");
    // the rows go while two blocks are taken back
    let mut damaged = accounts.clone();
    damaged.replace_table(shop, SegmentTable::with_capacity(2));
    assert_eq!(damaged.roll_back_blocks(2), Err(Refusal::RowMissing));
    assert_eq!((damaged.blocks(), damaged.height()), (4, Some(4)));
    assert!(damaged.account(shop).segment.txs().is_empty(), "the newer block's call was taken back");
    // and come again
    damaged.replace_table(shop, whole);
    damaged.roll_back_blocks(2).expect("taken back");
    accounts.roll_back_blocks(2).expect("taken back");
    assert_eq!((damaged.account(shop), damaged.height()), (accounts.account(shop), Some(2)));
}

#[test]
fn a_table_out_of_order_is_refused() {
    let (accounts, shop) = spilled();
    let table = &accounts.account(shop).table;
    let mut bytes = table.as_bytes().to_vec();
    bytes.copy_within(..RECORD_SIZE, RECORD_SIZE);
    let (mut accounts, shop) = with_table(accounts.clone(), SegmentTable::from_bytes(bytes, table.len()));
    let before = accounts.account(shop).clone();
    assert_eq!(accounts.apply(4, vec![(shop, BlockCall::Spend(BoxNumber(6)))]), Ok(vec![Err(Refusal::Buffers)]));
    assert_eq!(*accounts.account(shop), before);
}

#[test]
fn rows_that_were_not_flushed_wait_for_their_own_table() {
    let (mut accounts, shop) = spilled();
    let wallet = accounts.add_parent([8; 32]);
    let whole = accounts.account(shop).table.clone();
    let mut bytes = whole.as_bytes().to_vec();
    bytes.copy_within(..RECORD_SIZE, RECORD_SIZE);
    let damaged = SegmentTable::from_bytes(bytes, whole.len());
    // two rows are in the table; 500 numbers more make a third
    let calls = |numbers: std::ops::RangeInclusive<i64>| numbers.map(|n| (shop, BlockCall::AppendBox(BoxNumber(n)))).collect::<Vec<_>>();
    let mut right = accounts.clone();
    right.apply(4, calls(1101..=1600)).expect("tables in order");

    accounts.replace_table(shop, damaged);
    assert_eq!(accounts.apply(4, calls(1101..=1600)), Err(Refusal::Buffers));
    assert_eq!(accounts.apply(5, vec![(wallet, BlockCall::AppendBox(BoxNumber(1)))]), Err(Refusal::Buffers));
    assert!(accounts.account(wallet).table.is_empty() && accounts.account(wallet).segment.boxes().is_empty());

    accounts.replace_table(shop, whole);
    accounts.apply(6, vec![(wallet, BlockCall::AppendBox(BoxNumber(1)))]).expect("tables in order");
    assert_eq!((accounts.account(shop), accounts.account(wallet).table.len()), (right.account(shop), 0));
    accounts.roll_back_blocks(3).expect("taken back");
    right.roll_back_blocks(1).expect("taken back");
    assert_eq!(accounts.account(shop), right.account(shop));
}
