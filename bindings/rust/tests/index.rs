//! An index of many parents beside the single calls, over blocks and forks.

use ergo_index::*;

fn draw(state: &mut u64) -> u64 {
    *state ^= *state << 13;
    *state ^= *state >> 7;
    *state ^= *state << 17;
    *state
}

#[derive(Clone, Debug)]
enum Call {
    Box(i64),
    Tx(i64),
    Spend(i64),
    Credit(i64, Vec<Token>),
    Debit(i64, Vec<Token>),
}

/// The same calls, one by one.
struct Single {
    parents: Vec<(Segment, Balance)>,
    staged: StagedSpills,
    table: SegmentTable,
    deleted: DeletedSpills,
}

impl Single {
    fn new(parents: usize) -> Self {
        let parents = (0..parents).map(|p| (Segment::new([p as u8; 32]), Balance::new())).collect();
        Single { parents, staged: StagedSpills::with_capacity(64), table: SegmentTable::with_capacity(64), deleted: DeletedSpills::with_capacity(64) }
    }

    fn flush(&mut self) {
        flush_staged_spills(&mut self.staged, &mut self.table, &mut self.deleted).expect("the table has room");
    }

    fn make(&mut self, parent: usize, call: &Call) -> Result<(), Refusal> {
        let (segment, balance) = &mut self.parents[parent];
        match call {
            Call::Box(n) => segment.append_box_entry(BoxNumber(*n), &mut self.staged),
            Call::Tx(n) => segment.append_tx_entry(TxNumber(*n), &mut self.staged),
            Call::Spend(n) => segment.flip_box_segment_entry(BoxNumber(*n), &mut self.staged, &self.table),
            Call::Credit(nanos, tokens) => balance.add_box(*nanos, tokens),
            Call::Debit(nanos, tokens) => balance.subtract_box(*nanos, tokens),
        }
    }

    fn undo(&mut self, parent: usize, call: &Call) {
        let (segment, balance) = &mut self.parents[parent];
        match call {
            Call::Box(n) => assert_eq!(segment.pop_box_entry(&mut self.staged, &self.table, &mut self.deleted), Ok(BoxEntry(*n))),
            Call::Tx(n) => assert_eq!(segment.pop_tx_entry(&mut self.staged, &self.table, &mut self.deleted), Ok(TxNumber(*n))),
            Call::Spend(n) => segment.unflip_box_segment_entry(BoxNumber(*n), &mut self.staged, &self.table).expect("an unspend"),
            Call::Credit(nanos, tokens) => balance.subtract_box(*nanos, tokens).expect("a debit"),
            Call::Debit(nanos, tokens) => balance.add_box(*nanos, tokens).expect("a credit"),
        }
    }
}

fn queue(index: &mut Index, parent: ParentNumber, call: &Call) {
    match call {
        Call::Box(n) => index.append_box(parent, BoxNumber(*n)),
        Call::Tx(n) => index.append_tx(parent, TxNumber(*n)),
        Call::Spend(n) => index.spend(parent, BoxNumber(*n)),
        Call::Credit(nanos, tokens) => index.credit(parent, *nanos, tokens),
        Call::Debit(nanos, tokens) => index.debit(parent, *nanos, tokens),
    };
}

const PARENTS: usize = 3;

fn rows_of(table: &SegmentTable) -> Vec<(Key, Vec<u8>)> {
    let mut rows: Vec<_> = table.iter().map(|(key, row)| (key, row.to_vec())).collect();
    rows.sort();
    rows
}

/// Rows that stand apart from an index, as a store would keep them.
#[derive(Default)]
struct Kept(std::collections::BTreeMap<Key, Vec<u8>>);

impl Rows for Kept {
    type Error = Refusal;

    fn row(&mut self, key: &Key) -> Result<Option<Vec<u8>>, Refusal> {
        Ok(self.0.get(key).cloned())
    }
}

impl Kept {
    fn write(&mut self, index: &mut Index) {
        for change in index.changes() {
            match change.row {
                Some(row) => drop(self.0.insert(change.key, row.to_vec())),
                None => drop(self.0.remove(&change.key)),
            }
        }
        index.changes_written();
    }
}

fn draw_block(state: &mut u64, next: &mut [[i64; 2]; PARENTS], long: bool) -> Vec<(usize, Call)> {
    let mut block = Vec::new();
    for _ in 0..(if long { 260 } else { 40 }) {
        let drawn = draw(state);
        let parent = (drawn >> 8) as usize % PARENTS;
        let tokens = || (0..drawn % 3).map(|i| Token { id: [(drawn >> 50) as u8 % 5 + i as u8; 32], amount: (drawn >> 56) as i64 + 1 }).collect();
        block.push((
            parent,
            match drawn % 16 {
                0..=8 => {
                    next[parent][0] += 1;
                    Call::Box(next[parent][0])
                }
                9..=10 => {
                    next[parent][1] += 1;
                    Call::Tx(next[parent][1])
                }
                11..=13 => Call::Spend((drawn >> 20) as i64 % (next[parent][0] + 2)),
                14 => Call::Credit((drawn >> 30) as i64, tokens()),
                _ => Call::Debit((drawn >> 40) as i64, tokens()),
            },
        ));
    }
    block
}

/// Blocks and forks on an index of all rows, on one with a working set, and by single calls.
fn history(seed: u64, capacities: Capacities) {
    let mut state = seed;
    let mut single = Single::new(PARENTS);
    let (mut whole, mut part, mut kept) = (Index::new(capacities), Index::new(capacities), Kept::default());
    part.note_changes();
    let parents: Vec<ParentNumber> = (0..PARENTS).map(|p| whole.add_parent([p as u8; 32])).collect();
    for p in 0..PARENTS {
        part.add_parent([p as u8; 32]);
    }
    let mut next = [[0; 2]; PARENTS];
    let mut stood: Vec<(Vec<(usize, Call)>, [[i64; 2]; PARENTS], Mark)> = Vec::new();
    for height in 1..=24 {
        let fork = draw(&mut state) % 4;
        if fork == 0 && !stood.is_empty() {
            let depth = 1 + draw(&mut state) as usize % stood.len().min(3);
            single.flush();
            let mut mark = part.mark();
            for _ in 0..depth {
                let (calls, before, start) = stood.pop().unwrap();
                calls.iter().rev().for_each(|(parent, call)| single.undo(*parent, call));
                (next, mark) = (before, start);
            }
            single.flush();
            whole.roll_back_blocks(depth).expect("undone");
            part.roll_back_with(mark, &mut kept).expect("undone");
        } else {
            let (before, start) = (next, part.mark());
            let block = draw_block(&mut state, &mut next, draw(&mut seed.clone()) % 2 == 0);
            single.flush();
            let expected: Vec<CallAnswer> = block.iter().map(|(parent, call)| single.make(*parent, call)).collect();
            for (parent, call) in &block {
                queue(&mut whole, parents[*parent], call);
                queue(&mut part, parents[*parent], call);
            }
            assert_eq!(whole.waiting(), block.len());
            assert_eq!(whole.apply(), Ok(expected.clone()), "block {height} of seed {seed}");
            assert_eq!(part.apply_with(&mut kept), Ok(expected.clone()), "block {height} of seed {seed}, with a working set");
            whole.end_block(height);
            let accepted = block.into_iter().zip(&expected).filter(|(_, answer)| answer.is_ok()).map(|(call, _)| call).collect();
            stood.push((accepted, before, start));
        }
        kept.write(&mut part);
        if draw(&mut state) % 2 == 0 {
            part.forget_rows();
        }
        for (place, parent) in parents.iter().enumerate() {
            let (segment, balance) = &single.parents[place];
            assert!(whole.segment(*parent) == *segment && whole.balance(*parent) == *balance, "parent {place} at {height} of seed {seed}");
            assert!(part.segment(*parent) == *segment && part.balance(*parent) == *balance);
        }
    }
    single.flush();
    whole.flush().expect("a flush");
    assert_eq!(rows_of(whole.table()), rows_of(&single.table));
    assert!(kept.0.into_iter().eq(rows_of(&single.table)), "what was told as changed is the table");
}

#[test]
fn blocks_and_forks_are_the_single_calls() {
    for seed in 1..=12 {
        history(seed, Capacities::default());
    }
}

#[test]
fn small_lists_grow_or_are_flushed() {
    for seed in 1..=6 {
        history(seed, Capacities { staged: 1, deleted: 1, rows: 0, journal: 0 });
        history(seed, Capacities { staged: 0, deleted: 0, rows: 1, journal: 20 });
    }
}

#[test]
fn old_blocks_are_forgotten() {
    let mut index = Index::new(Capacities::default());
    let parent = index.add_parent([1; 32]);
    for height in 1..=10 {
        index.append_box(parent, BoxNumber(height as i64)).credit(parent, 5, &[]).apply().unwrap();
        index.end_block(height);
    }
    index.remember(4);
    assert_eq!((index.blocks(), index.journal().standing()), (4, 8));
    index.roll_back_blocks(3).unwrap();
    assert_eq!((index.height(), index.boxes(parent).len(), index.nano_ergs(parent)), (Some(7), 7, 35));
    index.append_box(parent, BoxNumber(20)).apply().unwrap();
    index.end_block(8);
    index.roll_back_blocks(2).unwrap();
    assert_eq!((index.blocks(), index.boxes(parent).len(), index.journal().standing()), (0, 6, 0));
}

#[test]
fn several_blocks_at_once() {
    let (mut one, mut all) = (Index::new(Capacities::default()), Index::new(Capacities::default()));
    let (p, q) = (one.add_parent([1; 32]), all.add_parent([1; 32]));
    for height in 1..=8 {
        let token = [Token { id: [height as u8; 32], amount: 1 }];
        one.append_box(p, BoxNumber(height)).credit(p, 5, &token).spend(p, BoxNumber(height - 1)).apply().unwrap();
        one.end_block(height as u64);
        all.append_box(q, BoxNumber(height)).credit(q, 5, &token).spend(q, BoxNumber(height - 1));
        all.end_block(height as u64);
    }
    assert_eq!((all.height(), all.waiting()), (None, 24));
    let answers = all.apply().unwrap();
    assert_eq!((answers.len(), answers[2]), (24, Err(Refusal::TargetNotSeen)));
    for left in (0..8).rev() {
        assert_eq!((all.height(), all.blocks(), all.segment(q)), (one.height(), left + 1, one.segment(p)));
        one.roll_back_blocks(1).unwrap();
        all.roll_back_blocks(1).unwrap();
    }
    assert_eq!((all.journal(), all.balance(q)), (one.journal(), Balance::new()));
}

#[test]
fn parts_come_back() {
    let mut index = Index::new(Capacities::default());
    let parent = index.add_parent([1; 32]);
    for n in 1..=600 {
        index.append_box(parent, BoxNumber(n));
    }
    index.apply().unwrap();
    let parts = index.clone().into_parts();
    let mut again = Index::from_parts(parts);
    assert_eq!((again.parent(&[1; 32]), again.journal()), (Some(parent), index.journal()));
    again.roll_back(again.oldest_mark()).unwrap();
    assert_eq!((again.boxes(parent).len(), again.segment(parent).box_spills()), (0, 0));
}

#[test]
fn a_missing_row_stops_a_block_and_the_rest_waits() {
    let mut index = Index::new(Capacities::default());
    let parent = index.add_parent([1; 32]);
    for n in 1..=600 {
        index.append_box(parent, BoxNumber(n));
    }
    index.apply().unwrap();
    index.flush().unwrap();
    let kept = index.table().clone();
    index.forget_rows();
    index.append_tx(parent, TxNumber(1)).spend(parent, BoxNumber(5)).append_tx(parent, TxNumber(2));
    assert_eq!(index.apply(), Err(Refusal::RowMissing));
    assert_eq!((index.waiting(), index.txs(parent).len()), (2, 1));
    let mut rows = Kept(kept.iter().map(|(key, row)| (key, row.to_vec())).collect());
    assert_eq!(index.apply_with(&mut rows), Ok(vec![Ok(()); 3]));
    assert_eq!(index.txs(parent), [1, 2]);
}
