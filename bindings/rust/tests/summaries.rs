//! A segment with a summary beside one without, over random histories: the same answers and the same bytes, and a summary that equals the fresh one.
use ergo_index::*;

// xorshift, so that a failure can be repeated
struct Draw(u64);

impl Draw {
    fn below(&mut self, n: u64) -> u64 {
        self.0 ^= self.0 << 13;
        self.0 ^= self.0 >> 7;
        self.0 ^= self.0 << 17;
        self.0 % n
    }
}

struct Index<E: Edition> {
    segment: Segment,
    staged: StagedSpills<E>,
    table: SegmentTable<E>,
    deleted: DeletedSpills,
}

impl<E: Edition> Index<E> {
    fn new(edition: E) -> Self {
        Index {
            segment: Segment::new([7; 32]),
            staged: StagedSpills::in_edition(edition, 3),
            table: SegmentTable::in_edition(edition, 8),
            deleted: DeletedSpills::with_capacity(8),
        }
    }

    fn append(&mut self, n: i64) -> Result<(), Refusal> {
        self.segment.append_box_entry(BoxNumber(n), &mut self.staged)
    }

    fn pop(&mut self) -> Result<BoxEntry, Refusal> {
        self.segment.pop_box_entry(&mut self.staged, &self.table, &mut self.deleted)
    }

    fn spend(&mut self, n: i64) -> Result<(), Refusal> {
        self.segment.flip_box_segment_entry(BoxNumber(n), &mut self.staged, &self.table)
    }

    fn unspend(&mut self, n: i64) -> Result<(), Refusal> {
        self.segment.unflip_box_segment_entry(BoxNumber(n), &mut self.staged, &self.table)
    }

    fn flush(&mut self) -> Result<(), Refusal> {
        flush_staged_spills(&mut self.staged, &mut self.table, &mut self.deleted)
    }

    fn tally(&self) -> Result<Tally, Refusal> {
        self.segment.tally(&self.staged, &self.table)
    }
}

fn history<E: Edition>(edition: E, state: u64) {
    let mut draw = Draw(state);
    let (mut with, mut without) = (Index::new(edition), Index::new(edition));
    with.segment.summarize(&with.staged, &with.table).expect("nothing is spilled yet");
    let mut last = 0;
    for step in 0..6000 {
        // mostly appends first, mostly pops later
        let appends = if step < 3000 { 12 } else { 2 };
        match draw.below(20) {
            k if k < appends => {
                last += draw.below(3) as i64;
                assert_eq!(with.append(last), without.append(last));
            }
            k if k < appends + 4 => {
                let n = draw.below(last as u64 + 2) as i64;
                assert_eq!(with.spend(n), without.spend(n));
            }
            k if k < appends + 6 => {
                let n = draw.below(last as u64 + 2) as i64;
                assert_eq!(with.unspend(n), without.unspend(n));
            }
            k if k == 19 => assert_eq!(with.flush(), without.flush()),
            _ => {
                let popped = with.pop();
                assert_eq!(popped, without.pop());
                if let Ok(n) = popped {
                    last = n.0.abs();
                }
            }
        }
        assert_eq!(with.segment, without.segment);
        if step % 50 == 0 {
            assert_eq!(with.staged, without.staged);
            assert_eq!(with.tally(), without.tally());
            let mut fresh = without.segment.clone();
            fresh.summarize(&without.staged, &without.table).expect("every row can be read");
            assert_eq!(with.segment.summary(), fresh.summary());
        }
    }
}

#[test]
fn a_summary_changes_no_answer_and_stays_current() {
    for state in 1..=6 {
        history(First, state);
        history(Second, state);
    }
}

#[test]
fn a_summary_is_made_and_dropped() -> Result<(), Refusal> {
    let mut index = Index::new(First);
    for n in 1..=1100 {
        index.append(n)?;
    }
    assert_eq!(index.segment.summary(), None);
    index.segment.summarize(&index.staged, &index.table)?;
    let line = SummaryLine { first: 513, last: 1024, unspent: 512, unknown: 0, spent: 0 };
    assert_eq!(index.segment.summary().map(|lines| lines[1]), Some(line));

    // a row that is not there: unseen by the tally over the summary
    let (staged, table) = (StagedSpills::in_edition(First, 1), SegmentTable::in_edition(First, 1));
    assert_eq!(index.segment.tally(&staged, &table)?.unspent, 1100);
    assert_eq!(index.segment.summarize(&staged, &table), Err(Refusal::SummaryTooShort));
    index.segment.drop_summary();
    assert_eq!(index.segment.tally(&staged, &table), Err(Refusal::RowMissing));
    Ok(())
}

/// With a summary a spend over a working set fetches one row, without one as many as the halving reads.
#[test]
fn a_summary_saves_fetches() {
    let mut segment = Segment::new([3; 32]);
    let (mut staged, mut table, mut deleted) = (StagedSpills::with_capacity(64), SegmentTable::with_capacity(64), DeletedSpills::with_capacity(1));
    for n in 1..=512 * 40 + 1 {
        segment.append_box_entry(BoxNumber(n), &mut staged).unwrap();
    }
    flush_staged_spills(&mut staged, &mut table, &mut deleted).unwrap();
    let mut summarized = segment.clone();
    summarized.summarize(&staged, &table).unwrap();
    let fetches = |segment: &Segment| {
        let mut work = SegmentTable::with_capacity(64);
        let mut fetched = 0;
        while let Some(missing) = segment.missing_for_spend(BoxNumber(5_000), &staged, &work) {
            let row = inspect_spill(&staged, &table, &missing.key).unwrap().row().to_vec();
            work.put_row(&missing.key, &row).unwrap();
            fetched += 1;
        }
        let (mut spent, mut staged) = (segment.clone(), staged.clone());
        spent.flip_box_segment_entry(BoxNumber(5_000), &mut staged, &work).unwrap();
        fetched
    };
    assert_eq!(fetches(&summarized), 1);
    assert!((4..=8).contains(&fetches(&segment)));
}
