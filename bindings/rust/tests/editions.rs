//! The same calls with rows of either edition, and tables converted there and back.

use ergo_index::*;

struct Index<E: Edition> {
    segment: Segment,
    staged: StagedSpills<E>,
    table: SegmentTable<E>,
    deleted: DeletedSpills,
}

impl<E: Edition> Index<E> {
    fn new(edition: E) -> Self {
        Index {
            segment: Segment::new([7; 32]),
            staged: StagedSpills::in_edition(edition, 4),
            table: SegmentTable::in_edition(edition, 4),
            deleted: DeletedSpills::with_capacity(4),
        }
    }

    fn flush(&mut self) -> Result<(), Refusal> {
        flush_staged_spills(&mut self.staged, &mut self.table, &mut self.deleted)
    }

    /// 1,200 boxes, every third spent, and 600 transactions; all flushed.
    fn filled(edition: E) -> Result<Self, Refusal> {
        let mut index = Index::new(edition);
        for n in 1..=1200 {
            index.segment.append_box_entry(BoxNumber(n), &mut index.staged)?;
        }
        for n in (3..=1200).step_by(3) {
            index.segment.flip_box_segment_entry(BoxNumber(n), &mut index.staged, &index.table)?;
        }
        for n in 1..=600 {
            index.segment.append_tx_entry(TxNumber(n), &mut index.staged)?;
        }
        index.flush()?;
        Ok(index)
    }

    /// Everything taken back: the numbers as they were popped.
    fn emptied(&mut self) -> Result<Vec<i64>, Refusal> {
        for n in (3..=1200).step_by(3) {
            self.segment.unflip_box_segment_entry(BoxNumber(n), &mut self.staged, &self.table)?;
        }
        let mut popped = Vec::new();
        while let Ok(n) = self.segment.pop_box_entry(&mut self.staged, &self.table, &mut self.deleted) {
            popped.push(n.0);
        }
        while let Ok(n) = self.segment.pop_tx_entry(&mut self.staged, &self.table, &mut self.deleted) {
            popped.push(n.0);
        }
        self.flush()?;
        Ok(popped)
    }
}

#[test]
fn both_editions_answer_alike() -> Result<(), Refusal> {
    let (mut first, mut second) = (Index::filled(First)?, Index::filled(Second)?);
    assert_eq!(first.segment, second.segment);
    assert_eq!(first.segment.tally(&first.staged, &first.table)?, second.segment.tally(&second.staged, &second.table)?);
    let pages = |index: Result<Vec<BoxNumber>, Refusal>| index.map(|boxes| boxes.len());
    assert_eq!(pages(first.segment.unspent_boxes(&first.staged, &first.table).collect()), Ok(800));
    assert_eq!(pages(second.segment.unspent_boxes(&second.staged, &second.table).collect()), Ok(800));
    let expected: Vec<i64> = (1..=1200).rev().chain((1..=600).rev()).collect();
    assert_eq!(first.emptied()?, expected);
    assert_eq!(second.emptied()?, expected);
    assert!(first.table.is_empty() && second.table.is_empty());
    Ok(())
}

#[test]
fn tables_are_converted_there_and_back() -> Result<(), Refusal> {
    let (first, second) = (Index::filled(First)?, Index::filled(Second)?);
    let converted = first.table.to_second(first.segment.spills()).expect("every row is of a spill");
    assert_eq!(converted, second.table);
    assert_eq!(second.table.to_first(), Ok(first.table.clone()));

    // a spill that is not given, and a row that stands under another key
    let unconverted = first.table.to_second(first.segment.spills().skip(1)).expect_err("a row without a spill");
    assert_eq!(unconverted.key, box_segment_id(&[7; 32], 0));
    assert_eq!(unconverted.refusal, None);
    let mut bytes = second.table.as_bytes().to_vec();
    bytes[0] ^= 1;
    let moved = SegmentTable::from_bytes_in_edition(Second, bytes, second.table.len());
    assert_eq!(moved.to_first().map_err(|e| e.refusal), Err(Some(Refusal::RowOfAnotherSpill)));
    Ok(())
}

#[test]
fn a_row_of_another_spill_is_refused() -> Result<(), Refusal> {
    let mut index = Index::filled(Second)?;
    let mut bytes = index.table.as_bytes().to_vec();
    bytes[34] ^= 1;
    let table = SegmentTable::from_bytes_in_edition(Second, bytes, index.table.len());
    assert_eq!(index.segment.tally(&index.staged, &table), Err(Refusal::RowOfAnotherSpill));
    assert_eq!(index.segment.flip_box_segment_entry(BoxNumber(1), &mut index.staged, &table), Err(Refusal::RowOfAnotherSpill));
    let key = box_segment_id(&[7; 32], 0);
    assert_eq!(inspect_spill(&index.staged, &table, &key)?.row()[0], 6);
    Ok(())
}

#[test]
fn rows_are_refused_as_the_readers_do() {
    let row = [2, 2, 2, 1, 0, 0];
    let parent = [7; 32];
    let second = row_to_second(&row, &parent, RowKind::Txs, -1).expect("a row");
    assert_eq!(second, [&[7; 32][..], &[2, 1], &row].concat());
    assert_eq!(row_to_first(&second, &parent, RowKind::Txs, -1).as_deref(), Ok(&row[..]));
    assert_eq!(row_to_first(&second, &parent, RowKind::Txs, 0), Err(Refusal::RowOfAnotherSpill));
    assert_eq!(row_to_first(&second, &[8; 32], RowKind::Txs, -1), Err(Refusal::RowOfAnotherSpill));
    assert_eq!(row_to_first(&second[..33], &parent, RowKind::Txs, -1), Err(Refusal::BytesEnd));
    assert_eq!(row_to_second(&row[..5], &parent, RowKind::Txs, -1), Err(Refusal::BytesEnd));
    assert_eq!(row_to_second(&[0; 5], &parent, RowKind::Boxes, 0), Err(Refusal::BytesLeftOver));
    assert_eq!(row_to_second(&[0; 10_255], &parent, RowKind::Boxes, 0), Err(Refusal::Buffers));
    assert_eq!(row_to_first(&[0; 10_293], &parent, RowKind::Boxes, 0), Err(Refusal::Buffers));
}
