//! Trials of staging sizes beside the same steps made call by call.
use ergo_index::*;

/// Which of calls and undos came last.
#[derive(Clone, Copy, PartialEq)]
enum Side {
    Calls,
    Undos,
}

struct Model {
    segment: Segment,
    staged: StagedSpills,
    table: SegmentTable,
    deleted: DeletedSpills,
    side: Option<Side>,
    standing: Vec<(LoadCall, usize)>,
    figures: TrialFigures,
}

impl Model {
    fn noted<T>(&mut self, answer: Result<T, Refusal>) -> Result<T, Refusal> {
        self.figures.staged = self.figures.staged.max(self.staged.len());
        self.figures.deleted = self.figures.deleted.max(self.deleted.len());
        answer
    }

    fn flush(&mut self) -> Result<(), Refusal> {
        let answer = flush_staged_spills(&mut self.staged, &mut self.table, &mut self.deleted);
        self.noted(answer)
    }

    fn change_to(&mut self, side: Side) -> Result<(), Refusal> {
        if self.side.is_some_and(|last| last != side) {
            self.flush()?;
        }
        self.side = Some(side);
        Ok(())
    }

    fn make(&mut self, call: LoadCall, block: usize, room: usize) -> Result<(), Refusal> {
        if call == LoadCall::Flush {
            return self.flush();
        }
        self.change_to(Side::Calls)?;
        let answer = match call {
            LoadCall::AppendBox(n) => self.segment.append_box_entry(n, &mut self.staged),
            LoadCall::AppendTx(n) => self.segment.append_tx_entry(n, &mut self.staged),
            LoadCall::Spend(n) => self.segment.flip_box_segment_entry(n, &mut self.staged, &self.table),
            LoadCall::Flush => unreachable!(),
        };
        match self.noted(answer) {
            Ok(()) if self.standing.len() == room => Err(Refusal::StandingCallsFull),
            Ok(()) => {
                self.standing.push((call, block));
                Ok(())
            }
            Err(end @ (Refusal::StagingFull | Refusal::DeletedFull | Refusal::TableFull)) => Err(end),
            Err(_) => Ok(()),
        }
    }

    fn undo(&mut self, call: LoadCall) -> Result<(), Refusal> {
        self.change_to(Side::Undos)?;
        let answer = match call {
            LoadCall::AppendBox(_) => self.segment.pop_box_entry(&mut self.staged, &self.table, &mut self.deleted).map(|_| ()),
            LoadCall::AppendTx(_) => self.segment.pop_tx_entry(&mut self.staged, &self.table, &mut self.deleted).map(|_| ()),
            LoadCall::Spend(n) => self.segment.unflip_box_segment_entry(n, &mut self.staged, &self.table),
            LoadCall::Flush => unreachable!(),
        };
        self.noted(answer)
    }
}

/// The trial, from the documents.
fn modelled(state: u64, steps: &[i32], sizes: TrialSizes) -> Result<TrialFigures, Refusal> {
    let mut load = Load::new(state)?;
    let mut model = Model {
        segment: Segment::new([0; 32]),
        staged: StagedSpills::with_capacity(sizes.staged),
        table: SegmentTable::with_capacity(sizes.table),
        deleted: DeletedSpills::with_capacity(sizes.deleted),
        side: None,
        standing: Vec::new(),
        figures: TrialFigures { staged: 0, deleted: 0 },
    };
    let mut blocks = 0usize;
    for step in steps {
        if *step >= 0 {
            for _ in 0..*step {
                let call = load.next().expect("a load never ends");
                model.make(call, blocks, sizes.standing)?;
            }
            blocks += 1;
            continue;
        }
        let depth = step.unsigned_abs() as usize;
        if depth > 720 || depth > blocks {
            return Err(Refusal::ForkTooDeep);
        }
        blocks -= depth;
        while let Some((call, block)) = model.standing.last().copied() {
            if block < blocks {
                break;
            }
            model.undo(call)?;
            model.standing.pop();
        }
    }
    Ok(model.figures)
}

// xorshift, so that a failure can be repeated
struct Draw(u64);

impl Draw {
    fn below(&mut self, n: u64) -> u64 {
        self.0 ^= self.0 << 13;
        self.0 ^= self.0 >> 7;
        self.0 ^= self.0 << 17;
        self.0 % n
    }
}

#[test]
fn trials_answer_as_the_calls_do() {
    let mut draw = Draw(7);
    let mut figures = 0;
    for state in 1..=60 {
        let steps: Vec<i32> =
            (0..draw.below(14)).map(|_| if draw.below(3) == 0 { -(draw.below(4) as i32) - 1 } else { draw.below(900) as i32 }).collect();
        let sizes = TrialSizes {
            table: draw.below(12) as usize,
            staged: draw.below(6) as usize,
            deleted: draw.below(5) as usize,
            standing: 500 + draw.below(6000) as usize,
        };
        let ours = try_forks(state, &steps, sizes);
        assert_eq!(ours, modelled(state, &steps, sizes), "state {state}, steps {steps:?}, {sizes:?}");
        if let Ok(found) = ours {
            figures += 1;
            // enough, and not less
            let enough = TrialSizes { staged: found.staged, deleted: found.deleted, ..sizes };
            assert_eq!(try_forks(state, &steps, enough), Ok(found));
            if found.staged > 0 {
                let fewer = TrialSizes { staged: found.staged - 1, ..enough };
                assert_eq!(try_forks(state, &steps, fewer), Err(Refusal::StagingFull));
            }
            if found.deleted > 0 {
                let fewer = TrialSizes { deleted: found.deleted - 1, ..enough };
                assert_eq!(try_forks(state, &steps, fewer), Err(Refusal::DeletedFull));
            }
        }
    }
    assert!(figures > 10, "{figures} trials gave figures");
}

#[test]
fn trials_are_refused() {
    let sizes = TrialSizes { table: 4, staged: 4, deleted: 4, standing: 1000 };
    assert_eq!(try_forks(0, &[1], sizes), Err(Refusal::StateIsZero));
    assert_eq!(try_forks(1, &[0; 4097], sizes), Err(Refusal::Buffers));
    assert_eq!(try_forks(1, &[0; 4096], sizes), Ok(TrialFigures { staged: 0, deleted: 0 }));
    assert_eq!(try_forks(1, &[i32::MIN], sizes), Err(Refusal::ForkTooDeep));
    let blocks: Vec<i32> = [vec![0; 800], vec![-720]].concat();
    assert_eq!(try_forks(1, &blocks, sizes), Ok(TrialFigures { staged: 0, deleted: 0 }));
    let deeper: Vec<i32> = [vec![0; 800], vec![-721]].concat();
    assert_eq!(try_forks(1, &deeper, sizes), Err(Refusal::ForkTooDeep));
    assert_eq!(try_forks(1, &[100], TrialSizes { standing: 3, ..sizes }), Err(Refusal::StandingCallsFull));
    assert_eq!(try_forks(1, &[2000], TrialSizes { staged: 0, ..sizes }), Err(Refusal::StagingFull));
}
