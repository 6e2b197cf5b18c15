//! The release run: every short history on the index, at both editions, and on the flat list, compared after each call with a ledger that is kept here.
//!
//! Each call must be accepted, an undone append must answer its number, and then numbers and spent copies must be those of the standing calls. A line is
//! printed for each difference, then how many histories and calls were run. The exit status is 1 if anything differs.
use ergo_index::*;
use std::process::ExitCode;

/// The standing calls, oldest first, and what they give.
#[derive(Default)]
struct Ledger {
    standing: Vec<HistoryCall>,
}

impl Ledger {
    fn numbers(&self) -> Vec<u64> {
        self.standing
            .iter()
            .filter_map(|call| match call {
                HistoryCall::Append1 => Some(1),
                HistoryCall::Append2 => Some(2),
                _ => None,
            })
            .collect()
    }

    fn spent(&self) -> [usize; 2] {
        [HistoryCall::Spend1, HistoryCall::Spend2].map(|spend| self.standing.iter().filter(|call| **call == spend).count())
    }

    /// What entries show: absolute values in order, and how many copies of 1 and of 2 are spent.
    fn shown_by(&self, entries: &[BoxEntry]) -> bool {
        let spent = [1, 2].map(|number| entries.iter().filter(|entry| **entry == -number).count());
        entries.iter().map(|entry| entry.0.unsigned_abs()).eq(self.numbers()) && spent == self.spent()
    }
}

/// What a history is run on.
trait Account {
    fn append(&mut self, number: BoxNumber) -> Result<(), Refusal>;
    fn spend(&mut self, number: BoxNumber) -> Result<(), Refusal>;
    fn unspend(&mut self, number: BoxNumber) -> Result<(), Refusal>;
    fn pop(&mut self) -> Result<BoxEntry, Refusal>;
    fn flush(&mut self) -> Result<(), Refusal>;
    /// Every entry, oldest first.
    fn entries(&self) -> &[BoxEntry];
}

struct Index<E: Edition> {
    segment: Segment,
    staged: StagedSpills<E>,
    table: SegmentTable<E>,
    deleted: DeletedSpills,
}

impl<E: Edition + Copy> Index<E> {
    fn new(edition: E, capacity: usize) -> Self {
        Index {
            segment: Segment::new([7; 32]),
            staged: StagedSpills::in_edition(edition, capacity),
            table: SegmentTable::in_edition(edition, capacity),
            deleted: DeletedSpills::with_capacity(capacity),
        }
    }
}

impl<E: Edition> Account for Index<E> {
    fn append(&mut self, number: BoxNumber) -> Result<(), Refusal> {
        self.segment.append_box_entry(number, &mut self.staged)
    }

    fn spend(&mut self, number: BoxNumber) -> Result<(), Refusal> {
        self.segment.flip_box_segment_entry(number, &mut self.staged, &self.table)
    }

    fn unspend(&mut self, number: BoxNumber) -> Result<(), Refusal> {
        self.segment.unflip_box_segment_entry(number, &mut self.staged, &self.table)
    }

    fn pop(&mut self) -> Result<BoxEntry, Refusal> {
        self.segment.pop_box_entry(&mut self.staged, &self.table, &mut self.deleted)
    }

    fn flush(&mut self) -> Result<(), Refusal> {
        flush_staged_spills(&mut self.staged, &mut self.table, &mut self.deleted)
    }

    /// Five numbers do not spill: all of them stand in the head.
    fn entries(&self) -> &[BoxEntry] {
        self.segment.boxes()
    }
}

impl Account for FlatAccount {
    fn append(&mut self, number: BoxNumber) -> Result<(), Refusal> {
        self.append_box(number)
    }

    fn spend(&mut self, number: BoxNumber) -> Result<(), Refusal> {
        self.spend_box(number)
    }

    fn unspend(&mut self, number: BoxNumber) -> Result<(), Refusal> {
        self.unspend_box(number)
    }

    fn pop(&mut self) -> Result<BoxEntry, Refusal> {
        self.pop_box()
    }

    /// The flat list passes flushes over.
    fn flush(&mut self) -> Result<(), Refusal> {
        Ok(())
    }

    fn entries(&self) -> &[BoxEntry] {
        FlatAccount::entries(self)
    }
}

/// Makes a call, and says what was wrong with its answer.
fn answer(account: &mut dyn Account, ledger: &Ledger, call: HistoryCall) -> Result<(), String> {
    let said = |refusal: Refusal| refusal.to_string();
    match (call, call.number()) {
        (HistoryCall::Append1 | HistoryCall::Append2, Some(number)) => account.append(number).map_err(said),
        (HistoryCall::Spend1 | HistoryCall::Spend2, Some(number)) => account.spend(number).map_err(said),
        (HistoryCall::Undo, _) => match ledger.standing.last() {
            Some(newest @ (HistoryCall::Append1 | HistoryCall::Append2)) => match account.pop().map_err(said)? {
                entry if entry.state() == BoxState::Unspent && Some(entry.number()) == newest.number() => Ok(()),
                entry => Err(format!("popped {entry:?}")),
            },
            Some(newest) => account.unspend(newest.number().expect("a spend")).map_err(said),
            None => Err("no call stands".into()),
        },
        _ => account.flush().map_err(said),
    }
}

/// Runs a history: how many differences there were.
fn run(name: &str, account: &mut dyn Account, history: &[HistoryCall]) -> usize {
    let (mut ledger, mut differences) = (Ledger::default(), 0);
    let mut differs = |place: usize, what: &str| {
        println!("{name}: {history:?}, call {place}: {what}");
        differences += 1;
    };
    for (place, call) in history.iter().enumerate() {
        if let Err(what) = answer(account, &ledger, *call) {
            differs(place, &what);
        }
        match call {
            HistoryCall::Undo => drop(ledger.standing.pop()),
            HistoryCall::Flush => {}
            _ => ledger.standing.push(*call),
        }
        if !ledger.shown_by(account.entries()) {
            differs(place, &format!("entries {:?}, standing {:?}", account.entries(), ledger.standing));
        }
    }
    differences
}

fn main() -> ExitCode {
    let (mut histories, mut calls, mut differences) = (0, 0, 0);
    for history in ShortHistories::new() {
        // capacities do not matter: nothing spills
        let accounts: [(&str, Box<dyn Account>); 5] = [
            ("edition 1", Box::new(Index::new(First, 4))),
            ("edition 1, no room", Box::new(Index::new(First, 0))),
            ("edition 2", Box::new(Index::new(Second, 4))),
            ("edition 2, no room", Box::new(Index::new(Second, 0))),
            ("flat list", Box::new(FlatAccount::new())),
        ];
        for (name, mut account) in accounts {
            differences += run(name, account.as_mut(), &history);
        }
        histories += 1;
        calls += history.len();
    }
    println!("{histories} histories of {calls} calls, on the index at both editions and on the flat list: {differences} differences");
    if differences == 0 {
        ExitCode::SUCCESS
    } else {
        ExitCode::from(1)
    }
}
