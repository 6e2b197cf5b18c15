//! Histories over the safe interface.

use ergo_index::*;

struct Index {
    segment: Segment,
    staged: StagedSpills,
    table: SegmentTable,
    deleted: DeletedSpills,
}

impl Index {
    fn new(capacity: usize) -> Self {
        Index {
            segment: Segment::new([7; 32]),
            staged: StagedSpills::with_capacity(capacity),
            table: SegmentTable::with_capacity(capacity),
            deleted: DeletedSpills::with_capacity(capacity),
        }
    }

    fn append(&mut self, n: i64) -> Result<(), Refusal> {
        self.segment.append_box_entry(BoxNumber(n), &mut self.staged)
    }

    fn spend(&mut self, n: i64) -> Result<(), Refusal> {
        self.segment.flip_box_segment_entry(BoxNumber(n), &mut self.staged, &self.table)
    }

    fn unspend(&mut self, n: i64) -> Result<(), Refusal> {
        self.segment.unflip_box_segment_entry(BoxNumber(n), &mut self.staged, &self.table)
    }

    fn pop(&mut self) -> Result<i64, Refusal> {
        self.segment.pop_box_entry(&mut self.staged, &self.table, &mut self.deleted).map(|n| n.0)
    }

    fn flush(&mut self) -> Result<(), Refusal> {
        flush_staged_spills(&mut self.staged, &mut self.table, &mut self.deleted)
    }
}

#[test]
fn what_was_done_is_undone() -> Result<(), Refusal> {
    let mut index = Index::new(4);
    for n in 1..=1600 {
        index.append(n)?;
        if n % 3 == 0 {
            index.spend(n / 3)?;
        }
    }
    assert_eq!(index.segment.box_spills(), 3);
    assert_eq!(index.segment.tally(&index.staged, &index.table)?, Tally { unspent: 1600 - 533, spent: 533, unknown: 0 });
    index.flush()?;
    assert_eq!((index.staged.len(), index.table.len()), (0, 3));
    for n in (1..=1600).rev() {
        if n % 3 == 0 {
            index.unspend(n / 3)?;
        }
        assert_eq!(index.pop()?, n);
    }
    assert_eq!(index.pop(), Err(Refusal::NothingToPop));
    index.flush()?;
    assert_eq!((index.segment.boxes().len(), index.segment.box_spills(), index.table.len()), (0, 0, 0));
    Ok(())
}

#[test]
fn unspent_boxes_are_paged_newest_first() -> Result<(), Refusal> {
    let mut index = Index::new(4);
    for n in 0..=1600 {
        index.append(n)?;
        if n % 3 == 0 && n > 0 {
            index.spend(n / 3)?;
        }
    }
    let (staged, table) = (&index.staged, &index.table);
    let unspent: Vec<BoxNumber> = index.segment.unspent_boxes(staged, table).collect::<Result<_, _>>()?;
    assert!(unspent.iter().copied().eq((534..=1600).rev().map(BoxNumber)));
    for offset in [0, 1, 64, 600, 1003, 1066, 1067, 5000, usize::MAX] {
        for length in [0, 1, 63, 64] {
            let page = index.segment.unspent_page(offset, length, staged, table)?;
            assert!(page.iter().eq(unspent.iter().skip(offset).take(length)));
        }
    }
    assert_eq!(index.segment.unspent_page(0, 65, staged, table), Err(Refusal::PageTooLong));

    let without_rows = StagedSpills::with_capacity(1);
    let mut refused = index.segment.unspent_boxes(&without_rows, table);
    assert_eq!((refused.next(), refused.next()), (Some(Err(Refusal::RowMissing)), None));
    Ok(())
}

#[test]
fn the_first_copy_is_spent_and_the_refusals_tell_apart() -> Result<(), Refusal> {
    let mut index = Index::new(1);
    index.append(5)?;
    index.append(5)?;
    index.spend(5)?;
    assert_eq!(index.segment.boxes(), [-5, 5]);
    index.spend(5)?;
    index.unspend(5)?;
    assert_eq!(index.segment.boxes(), [5, -5]);
    assert_eq!(index.spend(4), Err(Refusal::TargetNotSeen));
    assert_eq!(index.unspend(i64::MIN), Err(Refusal::TargetIsMinimum));
    assert_eq!(index.append(-1), Err(Refusal::NegativeNumber));
    Ok(())
}

#[test]
fn full_lists_refuse_and_change_nothing() -> Result<(), Refusal> {
    let mut index = Index::new(1);
    for n in 1..=1024 {
        index.append(n)?;
    }
    let before = (index.segment.clone(), index.staged.clone());
    assert_eq!(index.append(1025), Err(Refusal::StagingFull));
    assert_eq!((index.segment.clone(), index.staged.clone()), before);
    index.flush()?;
    index.append(1025)?;
    assert_eq!(index.flush(), Err(Refusal::TableFull));
    assert_eq!((index.staged.len(), index.table.len()), (1, 1));
    Ok(())
}

#[test]
fn transactions_and_boxes_are_counted_apart() -> Result<(), Refusal> {
    let mut index = Index::new(1);
    index.append(5)?;
    index.segment.append_tx_entry(TxNumber(9), &mut index.staged)?;
    assert_eq!((index.segment.boxes(), index.segment.txs()), (&[BoxEntry(5)][..], &[TxNumber(9)][..]));
    assert_eq!(index.segment.pop_tx_entry(&mut index.staged, &index.table, &mut index.deleted)?, TxNumber(9));
    assert_eq!(index.segment.pop_tx_entry(&mut index.staged, &index.table, &mut index.deleted), Err(Refusal::NothingToPop));
    Ok(())
}

#[test]
fn rows_are_inspected_where_they_stand() -> Result<(), Refusal> {
    let mut index = Index::new(2);
    for n in 1..=513 {
        index.append(n)?;
    }
    let key = box_segment_id(index.segment.parent(), 0);
    let shown = inspect_spill(&index.staged, &index.table, &key)?;
    assert!(matches!(shown, Spill::Staged(_)));
    let row = Segment::from_row([0; 32], shown.row())?;
    assert_eq!(row.boxes(), (1..=512).collect::<Vec<_>>());
    assert_eq!(index.staged.iter().next(), Some((key, shown.row())));
    index.flush()?;
    assert!(matches!(inspect_spill(&index.staged, &index.table, &key)?, Spill::Table(_)));
    assert_eq!(inspect_spill(&index.staged, &index.table, &tx_segment_id(index.segment.parent(), 0)), Err(Refusal::RowMissing));
    Ok(())
}

#[test]
fn lists_that_are_not_in_order_are_refused() {
    let mut segment = Segment::new([7; 32]);
    let mut staged = StagedSpills::from_bytes(vec![0; 2 * RECORD_SIZE], 2);
    assert_eq!(segment.append_box_entry(BoxNumber(1), &mut staged), Err(Refusal::Buffers));
    let mut staged = StagedSpills::from_bytes(vec![0; RECORD_SIZE], 2);
    assert_eq!(segment.append_box_entry(BoxNumber(1), &mut staged), Err(Refusal::Buffers));
    assert_eq!(staged.iter().count(), 1);
}

#[test]
fn rows_and_records_read_back() -> Result<(), Refusal> {
    let mut staged = StagedSpills::with_capacity(1);
    let mut segment = Segment::new([3; 32]);
    segment.append_tx_entry(TxNumber(1), &mut staged)?;
    segment.append_box_entry(BoxNumber(1), &mut staged)?;
    segment.flip_box_segment_entry(BoxNumber(1), &mut staged, &SegmentTable::with_capacity(0))?;
    assert_eq!(segment.to_row(), [2, 2, 2, 1, 0, 0]);
    assert_eq!(Segment::from_row([3; 32], &segment.to_row())?, segment);
    assert_eq!(Segment::from_row([3; 32], &[0, 0, 0, 0, 0]), Err(Refusal::BytesLeftOver));

    let tokens: Vec<Token> = (0..128).map(|i| Token { id: [i; 32], amount: i64::from(i) + 1 }).collect();
    let mut balance = Balance::new();
    balance.add_box(10, &tokens)?;
    assert_eq!(balance.add_box(0, &[Token { id: [200; 32], amount: 1 }]), Err(Refusal::TooManyTokens));
    let mut address = IndexedAddress { balance: Some(balance), segment };
    assert_eq!(IndexedAddress::from_bytes(&address.to_bytes())?, address);
    address.balance = None;
    let mut bytes = address.to_bytes();
    assert_eq!(IndexedAddress::from_bytes(&bytes)?, address);
    bytes[32] = 2;
    assert_eq!(IndexedAddress::from_bytes(&bytes), Err(Refusal::BadFlag));

    let first = UndoEntry { header: None, txs: u64::MAX, boxes: 0 };
    assert_eq!(first.encode().len(), 17);
    assert_eq!(UndoEntry::decode(&first.encode())?, first);
    assert_eq!(UndoEntry::decode(&[]), Err(Refusal::UndoEntryEmpty));
    assert_eq!(UndoEntry::decode(&[2]), Err(Refusal::UndoEntryTag));
    Ok(())
}

#[test]
fn numbers_read_back_and_a_refused_read_stays() {
    let mut writer = VlqWriter::new();
    for n in [0, 63, 64, -64, -65, i64::MIN, i64::MAX] {
        writer.put_i64(n);
    }
    let bytes = writer.into_bytes();
    let mut reader = VlqReader::new(&bytes);
    for n in [0, 63, 64, -64, -65] {
        assert_eq!(reader.get_i64(), Ok(n));
    }
    let at = reader.position();
    assert_eq!(reader.get_i32(), Err(Refusal::NumberTooLarge));
    assert_eq!(reader.position(), at);
    assert_eq!((reader.get_i64(), reader.get_i64()), (Ok(i64::MIN), Ok(i64::MAX)));
    assert_eq!(reader.get_i64(), Err(Refusal::BytesEnd));
}
