//! The flat list beside the index, over random histories that keep the rules: the same answers, the same numbers, the same spent copies.
use ergo_index::*;
use std::collections::HashMap;

// xorshift, so that a failure can be repeated
struct Draw(u64);

impl Draw {
    fn below(&mut self, n: u64) -> u64 {
        self.0 ^= self.0 << 13;
        self.0 ^= self.0 >> 7;
        self.0 ^= self.0 << 17;
        self.0 % n
    }
}

#[derive(Clone, Copy)]
enum Standing {
    Append(i64),
    Spend(i64),
}

struct Both {
    segment: Segment,
    staged: StagedSpills,
    table: SegmentTable,
    deleted: DeletedSpills,
    flat: FlatAccount,
}

impl Both {
    fn flush(&mut self) {
        flush_staged_spills(&mut self.staged, &mut self.table, &mut self.deleted).expect("the table has room");
    }

    fn entries(&self) -> Vec<BoxEntry> {
        let mut all = Vec::new();
        for spill in 0..self.segment.box_spills() {
            let key = box_segment_id(self.segment.parent(), spill);
            let row = inspect_spill(&self.staged, &self.table, &key).expect("the row is there").row();
            all.extend_from_slice(Segment::from_row(*self.segment.parent(), row).expect("it can be read").boxes());
        }
        all.extend_from_slice(self.segment.boxes());
        all
    }

    fn compare(&self) {
        let (ours, theirs) = (self.flat.entries(), self.entries());
        assert!(ours.iter().map(|entry| entry.number()).eq(theirs.iter().map(|entry| entry.number())));
        let spent = |all: &[BoxEntry]| {
            all.iter().filter(|entry| entry.state() == BoxState::Spent).fold(HashMap::new(), |mut held: HashMap<BoxNumber, usize>, entry| {
                *held.entry(entry.number()).or_default() += 1;
                held
            })
        };
        assert_eq!(spent(ours), spent(&theirs));
    }
}

fn history(state: u64) {
    let mut draw = Draw(state);
    let mut both = Both {
        segment: Segment::new([7; 32]),
        staged: StagedSpills::with_capacity(16),
        table: SegmentTable::with_capacity(16),
        deleted: DeletedSpills::with_capacity(16),
        flat: FlatAccount::new(),
    };
    let (mut standing, mut next) = (Vec::new(), 1);
    for _ in 0..6 {
        for _ in 0..draw.below(700) {
            if draw.below(4) < 3 {
                // numbers never fall; some are appended twice
                next += i64::from(draw.below(8) > 0);
                if standing.iter().any(|call| matches!(call, Standing::Spend(n) if *n == next)) {
                    next += 1;
                }
                let answers = (both.segment.append_box_entry(BoxNumber(next), &mut both.staged), both.flat.append_box(BoxNumber(next)));
                assert_eq!(answers, (Ok(()), Ok(())));
                standing.push(Standing::Append(next));
            } else {
                let target = BoxNumber(draw.below(next as u64 + 3) as i64);
                let answers = (both.segment.flip_box_segment_entry(target, &mut both.staged, &both.table), both.flat.spend_box(target));
                assert_eq!(answers.0, answers.1);
                if answers.0.is_ok() {
                    standing.push(Standing::Spend(target.0));
                }
            }
        }
        both.flush();
        both.compare();
        for _ in 0..draw.below(standing.len() as u64 + 1) {
            match standing.pop() {
                Some(Standing::Append(n)) => {
                    let popped = both.segment.pop_box_entry(&mut both.staged, &both.table, &mut both.deleted);
                    assert_eq!((popped, both.flat.pop_box()), (Ok(BoxEntry(n)), Ok(BoxEntry(n))));
                    next = n;
                }
                Some(Standing::Spend(n)) => {
                    let answers =
                        (both.segment.unflip_box_segment_entry(BoxNumber(n), &mut both.staged, &both.table), both.flat.unspend_box(BoxNumber(n)));
                    assert_eq!(answers, (Ok(()), Ok(())));
                }
                None => unreachable!("a call stands"),
            }
        }
        both.flush();
        both.compare();
    }
}

#[test]
fn the_flat_list_answers_as_the_index() {
    for state in 1..=20 {
        history(state);
    }
}
