//! The order of whole addresses beside the same order written with tuples.

use ergo_index::*;
use std::cmp::Ordering;

/// What an address holds, in the order in which it is compared.
type Content = ([u8; 32], Option<(i64, Vec<([u8; 32], i64)>)>, Vec<i64>, Vec<i64>);

struct Account<E> {
    segment: Segment,
    balance: Option<Balance>,
    staged: StagedSpills<E>,
    table: SegmentTable<E>,
}

impl<E: Edition> Account<E> {
    fn address(&self) -> Address<'_> {
        Address::new(&self.segment, self.balance.as_ref(), &self.staged, &self.table)
    }

    /// All entries of boxes and of transactions, rows and head as one list.
    fn content(&self) -> Content {
        let balance = self.balance.as_ref().map(|balance| {
            let mut tokens: Vec<_> = balance.tokens().map(|token| (token.id, token.amount)).collect();
            tokens.sort();
            (balance.nano_ergs(), tokens)
        });
        let (mut boxes, mut txs) = (Vec::new(), Vec::new());
        for spill in self.segment.spills() {
            let row = inspect_spill(&self.staged, &self.table, &spill.key()).expect("a spilled row is there").row();
            let row =
                if E::SECOND { row_to_first(row, self.segment.parent(), spill.kind, spill.number).expect("a row of its own") } else { row.to_vec() };
            let read = Segment::from_row(*self.segment.parent(), &row).expect("a row reads back");
            boxes.extend(read.boxes().iter().map(|entry| entry.0));
            txs.extend(read.txs().iter().map(|number| number.0));
        }
        boxes.extend(self.segment.boxes().iter().map(|entry| entry.0));
        txs.extend(self.segment.txs().iter().map(|number| number.0));
        (*self.segment.parent(), balance, boxes, txs)
    }
}

struct Draws(Load);

impl Draws {
    fn below(&mut self, n: u64) -> u64 {
        self.0.next();
        (self.0.state() >> 11) % n
    }
}

/// An account of few choices, so that many agree in much; `flushes` says when rows go to the table.
fn account<E: Edition>(edition: E, draws: &mut Draws, flushes: u64) -> Account<E> {
    let mut segment = Segment::new([draws.below(2) as u8 * 0x81; 32]);
    let mut staged = StagedSpills::in_edition(edition, 4);
    let mut table = SegmentTable::in_edition(edition, 8);
    let mut deleted = DeletedSpills::with_capacity(1);
    let boxes = [0, 1, 3, 511, 512, 513, 1025][draws.below(7) as usize];
    for number in 1..=boxes {
        segment.append_box_entry(BoxNumber(number), &mut staged).expect("there is room");
        if draws.below(flushes) == 0 {
            flush_staged_spills(&mut staged, &mut table, &mut deleted).expect("there is room");
        }
    }
    for _ in 0..draws.below(2) {
        if boxes > 0 {
            segment.flip_box_segment_entry(BoxNumber(1 + draws.below(boxes as u64) as i64), &mut staged, &table).expect("it is unspent");
        }
    }
    for number in 0..[0, 2, 512][draws.below(3) as usize] {
        segment.append_tx_entry(TxNumber(number), &mut staged).expect("there is room");
    }
    let balance = (draws.below(3) > 0).then(|| {
        let mut balance = Balance::new();
        let mut ids = [[1; 32], [0xff; 32], [2; 32]];
        ids.rotate_left(draws.below(3) as usize);
        for id in &ids[..draws.below(3) as usize] {
            balance.add_box(0, &[Token { id: *id, amount: draws.below(2) as i64 }]).expect("there is room");
        }
        balance.add_box(draws.below(2) as i64, &[]).expect("there is room");
        balance
    });
    Account { segment, balance, staged, table }
}

#[test]
fn the_order_is_that_of_the_contents() -> Result<(), Refusal> {
    let mut draws = Draws(Load::new(7)?);
    let mut seen = [0; 3];
    for _ in 0..400 {
        let first = account(First, &mut draws, 700);
        let second = account(Second, &mut draws, 300);
        let third = account(First, &mut draws, 90);
        for (a, x, b, y) in [
            (first.address(), first.content(), second.address(), second.content()),
            (second.address(), second.content(), third.address(), third.content()),
            (third.address(), third.content(), first.address(), first.content()),
        ] {
            assert_eq!(a.rank(&b), Ok(x.cmp(&y)));
            assert_eq!(b.rank(&a), Ok(y.cmp(&x)));
            assert_eq!(a.rank(&a), Ok(Ordering::Equal));
            seen[(x.cmp(&y) as i8 + 1) as usize] += 1;
        }
    }
    assert!(seen.iter().all(|&count| count > 0), "{seen:?}");
    Ok(())
}

#[test]
fn however_divided() -> Result<(), Refusal> {
    // the same entries, with a row in the table, with a staged row, and with the row taken back into the head
    let make = |appends: i64, pops: i64| -> Result<Account<First>, Refusal> {
        let mut segment = Segment::new([1; 32]);
        let mut staged = StagedSpills::with_capacity(1);
        let mut table = SegmentTable::with_capacity(1);
        let mut deleted = DeletedSpills::with_capacity(1);
        for number in 1..=appends {
            segment.append_box_entry(BoxNumber(number), &mut staged)?;
        }
        if pops > 0 {
            flush_staged_spills(&mut staged, &mut table, &mut deleted)?;
        }
        for _ in 0..pops {
            segment.pop_box_entry(&mut staged, &table, &mut deleted)?;
        }
        Ok(Account { segment, balance: None, staged, table })
    };
    let (whole, back) = (make(511, 0)?, make(600, 89)?);
    assert_eq!((whole.segment.box_spills(), back.segment.box_spills()), (0, 0));
    assert_eq!(whole.address().rank(&back.address()), Ok(Ordering::Equal));
    let (head, row) = (make(512, 0)?, make(600, 88)?);
    assert_eq!((head.segment.box_spills(), row.segment.box_spills()), (0, 1));
    assert_eq!(head.address().rank(&row.address()), Ok(Ordering::Equal));
    assert_eq!(whole.address().rank(&head.address()), Ok(Ordering::Less));
    Ok(())
}

#[test]
fn refusals_and_sorting() -> Result<(), Refusal> {
    let mut draws = Draws(Load::new(11)?);
    let whole: Vec<_> = (0..12).map(|_| account(First, &mut draws, 300)).collect();
    let mut addresses: Vec<_> = whole.iter().map(Account::address).collect();
    Address::sort(&mut addresses)?;
    for pair in addresses.windows(2) {
        assert_ne!(pair[0].rank(&pair[1])?, Ordering::Greater);
    }
    // a row that is gone: 12, on either side, also where the hashes differ
    let mut broken = account(First, &mut draws, u64::MAX);
    while broken.segment.box_spills() == 0 {
        broken = account(First, &mut draws, u64::MAX);
    }
    let (no_rows, no_table) = (StagedSpills::with_capacity(1), SegmentTable::with_capacity(1));
    let gone = Address::new(&broken.segment, None, &no_rows, &no_table);
    let other = Segment::new([0x55; 32]);
    let fine = Address::new(&other, None, &no_rows, &no_table);
    assert_eq!(gone.rank(&fine), Err(Refusal::RowMissing));
    assert_eq!(fine.rank(&gone), Err(Refusal::RowMissing));
    assert_eq!(gone.check(), Err(Refusal::RowMissing));
    addresses.push(gone);
    assert_eq!(Address::sort(&mut addresses), Err(Refusal::RowMissing));
    // a table that says more rows than it has: 25, before the missing row
    let short = SegmentTable::from_bytes(vec![0; 8], 1);
    assert_eq!(fine.rank(&Address::new(&broken.segment, None, &no_rows, &short)), Err(Refusal::Buffers));
    Ok(())
}
