//! A batch answers and leaves what the single calls do.

use ergo_index::*;

const PARENTS: usize = 3;
const CAPACITY: usize = 3;

struct Single {
    parents: Vec<(Segment, Balance)>,
    staged: StagedSpills,
    table: SegmentTable,
    deleted: DeletedSpills,
}

#[derive(Clone, Copy, Debug)]
enum Call {
    AppendBox(usize, i64),
    AppendTx(usize, i64),
    Spend(usize, i64),
    Unspend(usize, i64),
    PopBox(usize),
    PopTx(usize),
    Flush,
    Credit(usize, i64, u8, i64),
    Debit(usize, i64, u8, i64),
}

impl Single {
    fn new() -> Self {
        Single {
            parents: (0..PARENTS).map(|p| (Segment::new([p as u8 + 1; 32]), Balance::new())).collect(),
            staged: StagedSpills::with_capacity(CAPACITY),
            table: SegmentTable::with_capacity(CAPACITY),
            deleted: DeletedSpills::with_capacity(CAPACITY),
        }
    }

    fn batch(&self) -> Batch {
        Batch::new(self.parents.clone(), self.staged.clone(), self.table.clone(), self.deleted.clone())
    }

    fn make(&mut self, call: Call) -> BatchAnswer {
        let (staged, table, deleted) = (&mut self.staged, &mut self.table, &mut self.deleted);
        let tokens = |token, amount| [Token { id: [token; 32], amount }];
        match call {
            Call::AppendBox(p, n) => self.parents[p].0.append_box_entry(BoxNumber(n), staged).map(|()| None),
            Call::AppendTx(p, n) => self.parents[p].0.append_tx_entry(TxNumber(n), staged).map(|()| None),
            Call::Spend(p, n) => self.parents[p].0.flip_box_segment_entry(BoxNumber(n), staged, table).map(|()| None),
            Call::Unspend(p, n) => self.parents[p].0.unflip_box_segment_entry(BoxNumber(n), staged, table).map(|()| None),
            Call::PopBox(p) => self.parents[p].0.pop_box_entry(staged, table, deleted).map(|n| Some(n.0)),
            Call::PopTx(p) => self.parents[p].0.pop_tx_entry(staged, table, deleted).map(|n| Some(n.0)),
            Call::Flush => flush_staged_spills(staged, table, deleted).map(|()| None),
            Call::Credit(p, nanos, token, amount) => self.parents[p].1.add_box(nanos, &tokens(token, amount)).map(|()| None),
            Call::Debit(p, nanos, token, amount) => self.parents[p].1.subtract_box(nanos, &tokens(token, amount)).map(|()| None),
        }
    }

    fn agrees_with(&self, batch: &Batch) {
        for (p, (segment, balance)) in self.parents.iter().enumerate() {
            assert_eq!((&batch.segment(p), &batch.balance(p)), (segment, balance));
        }
        assert_eq!((batch.staged(), batch.table(), batch.deleted()), (&self.staged, &self.table, &self.deleted));
    }
}

fn queue(batch: &mut Batch, call: Call) {
    match call {
        Call::AppendBox(p, n) => batch.append_box(p, BoxNumber(n)),
        Call::AppendTx(p, n) => batch.append_tx(p, TxNumber(n)),
        Call::Spend(p, n) => batch.spend(p, BoxNumber(n)),
        Call::Unspend(p, n) => batch.unspend(p, BoxNumber(n)),
        Call::PopBox(p) => batch.pop_box(p),
        Call::PopTx(p) => batch.pop_tx(p),
        Call::Flush => batch.flush(),
        Call::Credit(p, nanos, token, amount) => batch.credit(p, nanos, token, amount),
        Call::Debit(p, nanos, token, amount) => batch.debit(p, nanos, token, amount),
    };
}

struct Random(u64);

impl Random {
    fn below(&mut self, n: u64) -> u64 {
        self.0 ^= self.0 << 13;
        self.0 ^= self.0 >> 7;
        self.0 ^= self.0 << 17;
        self.0 % n
    }

    fn amount(&mut self) -> i64 {
        match self.below(20) {
            0 => i64::MAX,
            1 => i64::MIN,
            n => n as i64 * 1000,
        }
    }

    // `next` is the next number to append; while `growing`, appends outweigh pops.
    fn call(&mut self, next: &mut i64, growing: bool) -> Call {
        let p = self.below(PARENTS as u64) as usize;
        let old = self.below(*next as u64 + 2) as i64;
        let (append, pop) = if growing { (60, 5) } else { (5, 60) };
        let mut at = self.below(100);
        for (share, kind) in [(append, 0), (pop, 1), (28, 2), (6, 3)] {
            if at < share {
                *next += i64::from(kind == 0);
                return match (kind, self.below(4)) {
                    (0, 0) => Call::AppendTx(p, *next),
                    (0, 1) if self.below(50) == 0 => Call::AppendBox(p, -*next),
                    (0, _) => Call::AppendBox(p, *next),
                    (1, 0) => Call::PopTx(p),
                    (1, _) => Call::PopBox(p),
                    (2, 0 | 1) => Call::Spend(p, old),
                    (2, _) => Call::Unspend(p, if self.below(50) == 0 { i64::MIN } else { old }),
                    (_, 0 | 1) => Call::Credit(p, self.amount(), self.below(200) as u8, self.amount()),
                    (_, _) => Call::Debit(p, self.amount(), self.below(200) as u8, self.amount()),
                };
            }
            at -= share;
        }
        Call::Flush
    }
}

#[test]
fn random_histories_agree_with_the_single_calls() -> Result<(), Refusal> {
    let mut seen = [0; 33];
    let mut rows = 0;
    for seed in 1..=4 {
        let mut random = Random(0x9E37_79B9_7F4A_7C15_u64.wrapping_mul(seed));
        let mut single = Single::new();
        let mut batch = single.batch();
        let mut next = 0;
        for part in 0..24 {
            let growing = part % 8 < 5;
            let size = random.below(3000);
            let calls: Vec<Call> = (0..size).map(|_| random.call(&mut next, growing)).collect();
            calls.iter().for_each(|&call| queue(&mut batch, call));
            assert_eq!(batch.waiting(), calls.len());
            let expected: Vec<BatchAnswer> = calls.iter().map(|&call| single.make(call)).collect();
            let answers = batch.run()?;
            for (i, call) in calls.iter().enumerate() {
                assert_eq!(answers[i], expected[i], "seed {seed}, part {part}, call {i}: {call:?}");
                seen[answers[i].map_or_else(|refusal| usize::from(refusal.code()), |_| 0)] += 1;
            }
            assert_eq!((answers.len(), batch.waiting()), (calls.len(), 0));
            rows = rows.max(batch.table().len());
            single.agrees_with(&batch);
        }
    }
    for code in [0, 9, 14, 15, 16, 17, 19, 22, 23] {
        assert!(seen[code] > 0, "no call was answered by {code}: {seen:?}");
    }
    assert_eq!(rows, CAPACITY);
    Ok(())
}

#[test]
fn a_refused_state_is_refused_once_and_keeps_the_calls() {
    let single = Single::new();
    let twice = StagedSpills::from_bytes(vec![0; 2 * RECORD_SIZE], 2);
    let mut batch = Batch::new(single.parents.clone(), twice.clone(), single.table.clone(), single.deleted.clone());
    batch.append_box(0, BoxNumber(1)).credit(1, 5, 1, 1);
    assert_eq!(batch.run(), Err(Refusal::Buffers));
    assert_eq!((batch.waiting(), batch.staged(), batch.segment(0).boxes().len()), (2, &twice, 0));
    assert_eq!(batch.balance(1), Balance::new());
}

#[test]
fn parents_are_numbered_by_a_byte() -> Result<(), Refusal> {
    let single = Single::new();
    let parents = (0..MAX_PARENTS).map(|p| (Segment::new([p as u8; 32]), Balance::new()));
    let mut batch = Batch::new(parents, single.staged.clone(), single.table.clone(), single.deleted.clone());
    batch.append_box(255, BoxNumber(4));
    assert_eq!(batch.run()?, [Ok(None)]);
    assert_eq!((batch.segment(255).boxes(), batch.segment(0).boxes().len()), (&[BoxEntry(4)][..], 0));
    assert_eq!(batch.run()?, []);
    Ok(())
}

#[test]
#[should_panic(expected = "parent 3 of 3")]
fn an_unknown_parent_is_no_call() {
    Single::new().batch().pop_box(PARENTS);
}

/// The calls of an input over no parent and empty lists, with room for so many answers: the result, the calls made and why there was no further one.
fn run_bytes(input: &[u8], room: usize) -> (u8, usize, u8) {
    let (mut ids, mut numbers, mut lengths, mut spills): ([u8; 0], [i64; 0], [usize; 0], [i32; 0]) = ([], [], [], []);
    let (mut staged, mut table, mut deleted): ([u8; 0], [u8; 0], [u8; 0]) = ([], [], []);
    let (mut staged_count, mut table_count, mut deleted_count) = (0, 0, 0);
    let (mut answers, mut popped) = (vec![0; 2 * room], vec![0; room]);
    let (mut at, mut made, mut end) = (9, 9, 9);
    // SAFETY: each pointer comes from a live borrow, each length is that of its slice, and nothing that is written overlaps anything else.
    let code = unsafe {
        ffi::ergo_index_run_calls(
            input.as_ptr(),
            input.len(),
            0,
            ids.as_mut_ptr(),
            0,
            numbers.as_mut_ptr(),
            0,
            lengths.as_mut_ptr(),
            0,
            spills.as_mut_ptr(),
            0,
            &mut staged_count,
            0,
            staged.as_mut_ptr(),
            0,
            &mut table_count,
            0,
            table.as_mut_ptr(),
            0,
            &mut deleted_count,
            0,
            deleted.as_mut_ptr(),
            0,
            answers.as_mut_ptr(),
            answers.len(),
            popped.as_mut_ptr(),
            popped.len(),
            &mut at,
            &mut made,
            &mut end,
        )
    };
    assert_eq!(at, made, "each flush is a byte");
    (code, made, end)
}

#[test]
fn each_end_has_its_name() {
    assert_eq!(run_bytes(&[7, 7], 1), (0, 1, END_NO_ROOM));
    assert_eq!(run_bytes(&[7], 1), (0, 1, END_OF_INPUT));
    assert_eq!(run_bytes(&[7, 7], 3), (0, 2, END_OF_INPUT));
    assert_eq!(run_bytes(&[], 1), (0, 0, END_OF_INPUT));
    assert_eq!(run_bytes(&[7, 1], 3), (0, 1, END_CUT_CALL));
    assert_eq!(run_bytes(&[7, 10, 0], 3), (0, 1, END_NO_CALL));
    assert_eq!(run_bytes(&[7, 5, 0], 3), (0, 1, END_NO_CALL));
}
