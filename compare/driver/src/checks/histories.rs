//! Histories over several parents with small lists: calls, forks that undo the newest ones, flushes, and calls that no fork needs. Each is run with rows of
//! edition 2 as well.

use reference::calls::write_segment;
use reference::segment::Segment;

use super::Size;
use crate::call::Call;
use crate::index::{row_key, Direction, Id, Kind, Lists, PAGE};
use crate::random::Random;
use crate::report::{shrink, Report};
use crate::sides::Sides;

/// What a history begins with.
#[derive(Clone, Debug)]
struct Start {
    /// Rows and numbers in the head, of each parent; boxes and transactions alike.
    parents: Vec<(i32, usize)>,
    /// Capacities of staged spills, table and deleted spills.
    capacities: [usize; 3],
    /// Every number stands this many times.
    copies: i64,
    /// The first number.
    first: i64,
    /// Whether all parents have one id, so that their rows share keys.
    one_id: bool,
}

impl Start {
    fn new(random: &mut Random) -> Self {
        let parents: Vec<(i32, usize)> = (0..1 + random.index(3))
            .map(|_| {
                let rows = random.pick(&[0, 0, 1, 1, 2]);
                (rows, random.pick(&[0, 0, 1, 3, 20, 509, 511, 512]))
            })
            .collect();
        let rows: usize = parents.iter().map(|(rows, _)| 2 * *rows as usize).sum();
        Self {
            parents,
            capacities: [1 + random.index(4), rows + random.index(4), 1 + random.index(4)],
            copies: random.pick(&[1, 1, 1, 2, 3, 600]),
            first: random.pick(&[0, 1, 1, 1, 8000, 1 << 40, i64::MAX / 2]),
            one_id: random.once_in(10),
        }
    }

    fn number(&self, place: usize) -> i64 {
        place as i64 / self.copies + self.first
    }

    fn sides(&self) -> Sides {
        let [staged, table, deleted] = self.capacities;
        let mut sides = Sides::new(Lists::new(staged, table, deleted));
        for (i, &(rows, length)) in self.parents.iter().enumerate() {
            let id: Id = [if self.one_id { 0 } else { i as u8 }; 32];
            let numbers = |from: usize, length: usize| -> Vec<i64> { (from..from + length).map(|p| self.number(p)).collect() };
            for number in 0..rows {
                let key = row_key(Kind::Box, &id, number);
                if sides.lists.table.holds(&key) {
                    continue;
                }
                let mut row = Segment::empty();
                row.boxes = numbers(number as usize * 512, 512);
                sides.put_row(&key, &write_segment(&row));
                std::mem::swap(&mut row.boxes, &mut row.txs);
                sides.put_row(&row_key(Kind::Tx, &id, number), &write_segment(&row));
            }
            let head = numbers(rows as usize * 512, length);
            sides.add_parent(
                id,
                Segment {
                    txs: head.clone(),
                    boxes: head,
                    box_segment_count: rows,
                    tx_segment_count: rows,
                },
            );
        }
        sides.with_second()
    }
}

/// A call of a parent.
type Step = (usize, Call);

/// Makes a step on both sides; states are compared in full at each flush.
fn make(sides: &mut Sides, (parent, call): &Step, report: &mut Report) -> Result<bool, String> {
    let answer = sides.call(*parent, call, report)?;
    if let Call::Flush = call {
        if let Some(part) = sides.state_differs() {
            return Err(format!("after a flush: {part}"));
        }
    }
    Ok(answer.code == 0)
}

fn replay(start: &Start, steps: &[Step], report: &mut Report) -> Option<String> {
    let mut sides = start.sides();
    for step in steps {
        if let Err(text) = make(&mut sides, step, report) {
            return Some(text);
        }
    }
    sides.state_differs()
}

/// The call that takes another back.
fn undo(call: &Call) -> Call {
    match call.clone() {
        Call::Append(kind, _) => Call::Pop(kind),
        Call::Flip(Direction::Spend, target) => Call::Flip(Direction::Unspend, target),
        Call::Flip(Direction::Unspend, target) => Call::Flip(Direction::Spend, target),
        Call::Credit(nanos, tokens) => Call::Debit(nanos, tokens),
        Call::Debit(nanos, tokens) => Call::Credit(nanos, tokens),
        call => call,
    }
}

struct History<'a> {
    random: &'a mut Random,
    start: Start,
    sides: Sides,
    steps: Vec<Step>,
    /// Accepted calls that are not undone, oldest first.
    standing: Vec<Step>,
    /// The largest number of each parent.
    newest: Vec<i64>,
    wild: bool,
}

impl History<'_> {
    fn step(&mut self, step: Step, report: &mut Report) -> Result<bool, String> {
        self.steps.push(step);
        make(&mut self.sides, self.steps.last().expect("a step"), report)
    }

    fn tokens(&mut self) -> Vec<(Id, i64)> {
        (0..self.random.below(4))
            .map(|_| ([self.random.below(5) as u8; 32], 1 + self.random.below(9) as i64))
            .collect()
    }

    fn call(&mut self, parent: usize) -> Call {
        let newest = self.newest[parent];
        let some = |random: &mut Random| match random.below(6) {
            0 => newest + random.below(3) as i64 - 1,
            1 => random.below(3) as i64,
            _ => newest - random.below(newest.clamp(1, 2000) as u64) as i64,
        };
        if self.wild && self.random.once_in(4) {
            return match self.random.below(5) {
                0 => Call::Pop(Kind::Box),
                1 => Call::Pop(Kind::Tx),
                2 => Call::Flip(Direction::Unspend, some(self.random)),
                3 => Call::Append(Kind::Box, some(self.random)),
                _ => Call::Flip(Direction::Spend, -some(self.random)),
            };
        }
        match self.random.below(10) {
            0..=3 => {
                let step = if self.random.once_in(3) { 0 } else { 1 };
                Call::Append(Kind::Box, newest + step)
            }
            4 => Call::Append(Kind::Tx, self.random.below(1000) as i64),
            5..=7 => Call::Flip(Direction::Spend, some(self.random)),
            8 => Call::Credit(self.random.below(1000) as i64, self.tokens()),
            _ => Call::Debit(self.random.below(100) as i64, self.tokens()),
        }
    }

    /// Some calls, and now and then a run of appends that crosses rows.
    fn forward(&mut self, report: &mut Report) -> Result<(), String> {
        for _ in 0..self.random.below(14) {
            let parent = self.random.index(self.start.parents.len());
            let call = self.call(parent);
            let times = match call {
                Call::Append(..) if self.random.once_in(60) => 200 + self.random.index(900),
                _ => 1,
            };
            for i in 0..times {
                let call = match call {
                    Call::Append(kind, n) => Call::Append(kind, n + i as i64 / self.start.copies),
                    _ => call.clone(),
                };
                if self.step((parent, call.clone()), report)? {
                    if let Call::Append(Kind::Box, n) = call {
                        self.newest[parent] = self.newest[parent].max(n);
                    }
                    self.standing.push((parent, call));
                }
            }
        }
        Ok(())
    }

    /// Undoes the newest calls.
    fn back(&mut self, report: &mut Report) -> Result<(), String> {
        let count = if self.random.once_in(6) {
            self.standing.len()
        } else {
            self.random.index(16).min(self.standing.len())
        };
        for _ in 0..count {
            let Some((parent, call)) = self.standing.pop() else { break };
            if !self.step((parent, undo(&call)), report)? {
                self.standing.push((parent, call));
                break;
            }
        }
        Ok(())
    }

    fn flush(&mut self, report: &mut Report) -> Result<(), String> {
        if !self.random.once_in(if self.wild { 2 } else { 5 }) {
            self.step((0, Call::Flush), report)?;
        }
        Ok(())
    }

    fn run(&mut self, report: &mut Report) -> Result<(), String> {
        for _ in 0..1 + self.random.below(4) {
            self.forward(report)?;
            self.flush(report)?;
            self.back(report)?;
            self.flush(report)?;
        }
        match self.sides.state_differs() {
            Some(part) => Err(format!("at the end: {part}")),
            None => self.tally(report),
        }
    }

    /// Tally and page are additions of the documents: they are compared with what the reference's rows and head hold.
    fn tally(&mut self, report: &mut Report) -> Result<(), String> {
        const UNTOUCHED: [i64; PAGE + 1] = [7; PAGE + 1];
        for (i, (parent, address)) in self.sides.parents.iter().zip(&self.sides.addresses).enumerate() {
            report.call("tally");
            report.call("page");
            let mut page = UNTOUCHED;
            let offset = self.random.pick(&[0, 0, 1, 63, 64, 511, 512, 513, 1100, usize::MAX]);
            let length = self.random.pick(&[0, 1, 2, 63, 64, 64, 64]);
            let tally = self.sides.lists.tally(&parent.id, &parent.boxes);
            let paged = self
                .sides
                .lists
                .unspent_page(&parent.id, &parent.boxes, offset, length, &mut page);
            if let Some((lists, parents)) = self.sides.second() {
                let (id, head, mut other) = (&parent.id, &parents[i].boxes, UNTOUCHED);
                let alike = (
                    lists.tally(id, head),
                    lists.unspent_page(id, head, offset, length, &mut other),
                );
                if (alike, other) != ((tally, paged), page) {
                    return Err(format!("tally and page in edition 2: {alike:?}, {tally:?} and {paged:?}"));
                }
            }
            let (counts, numbers) = match (tally, paged) {
                (Ok(counts), Ok(numbers)) => (counts, numbers),
                (Err(a), Err(b)) if a == b && page == UNTOUCHED => continue,
                other => return Err(format!("tally and page: {other:?}")),
            };
            let mut entries = Vec::new();
            for number in 0..address.segment.box_segment_count {
                let key = row_key(Kind::Box, &parent.id, number);
                let Ok(row) = self.sides.lists.inspect(&key) else {
                    continue;
                };
                entries.extend(
                    super::rows::of_reference(row)
                        .map_err(|code| format!("row {number}: {code}"))?
                        .boxes,
                );
            }
            entries.extend(&address.segment.boxes);
            let many = |test: fn(&i64) -> bool| entries.iter().filter(|n| test(n)).count();
            let counted = (many(|n| *n > 0), many(|n| *n < 0), many(|n| *n == 0));
            if counts != counted {
                return Err(format!("tally {counts:?}, counted {counted:?}"));
            }
            let unspent = entries.iter().rev().copied().filter(|n| *n > 0);
            let listed: Vec<i64> = unspent.skip(offset).take(length).collect();
            let mut all = [0; PAGE + 1];
            all[..listed.len()].copy_from_slice(&listed);
            all[PAGE] = UNTOUCHED[PAGE];
            if (numbers, page) != (listed.len(), all) {
                return Err(format!(
                    "page from {offset} of {length}: {numbers} {page:?}, listed {listed:?}"
                ));
            }
        }
        Ok(())
    }
}

/// Every list of this many calls over a few that meet each other, from states around a spill.
fn short_histories(length: u32, report: &mut Report) {
    for (rows, numbers) in [(0, 0), (0, 512), (1, 0), (1, 1), (2, 0)] {
        let start = Start {
            parents: vec![(rows, numbers)],
            capacities: [1, 2 * rows as usize + 1, 1],
            copies: 2,
            first: 1,
            one_id: false,
        };
        let newest = start.number(rows as usize * 512 + numbers);
        let calls = [
            Call::Append(Kind::Box, newest),
            Call::Append(Kind::Box, newest + 1),
            Call::Append(Kind::Tx, 7),
            Call::Flip(Direction::Spend, newest),
            Call::Flip(Direction::Spend, 1),
            Call::Flip(Direction::Unspend, 1),
            Call::Pop(Kind::Box),
            Call::Pop(Kind::Tx),
            Call::Flush,
        ];
        let all = (calls.len() as u64).pow(length);
        for n in 0..all {
            let mut rest = n;
            let steps: Vec<Step> = (0..length)
                .map(|_| {
                    let call = calls[(rest % calls.len() as u64) as usize].clone();
                    rest /= calls.len() as u64;
                    (0, call)
                })
                .collect();
            if replay(&start, &steps, report).is_some() && report.wants("short histories") {
                let quiet = |steps: &[Step]| replay(&start, steps, &mut Report::default());
                let small = shrink(&steps, |s| quiet(s).is_some());
                report.difference("short histories", format!("{start:?}, then {small:?}: {:?}", quiet(&small)));
            }
            report.histories += 1;
            report.progress(n, all);
        }
    }
}

pub fn run(size: Size, report: &mut Report) {
    report.phase("all short histories");
    short_histories(size.whole as u32 + 2, report);
    report.phase("histories");
    for seed in 0..size.histories {
        let mut random = Random::new(1_000_000 + seed);
        let start = Start::new(&mut random);
        let newest = start
            .parents
            .iter()
            .map(|&(rows, length)| start.number(rows as usize * 512 + length))
            .collect();
        let wild = random.once_in(4);
        let mut history = History {
            sides: start.sides(),
            start,
            random: &mut random,
            steps: Vec::new(),
            standing: Vec::new(),
            newest,
            wild,
        };
        if let Err(text) = history.run(report) {
            if !report.wants("histories") {
                continue;
            }
            let quiet = |steps: &[Step]| replay(&history.start, steps, &mut Report::default());
            let small = shrink(&history.steps, |s| quiet(s).is_some());
            let text = quiet(&small).unwrap_or(text);
            report.difference("histories", format!("{:?}, then {small:?}: {text}", history.start));
        }
        report.histories += 1;
        report.progress(seed, size.histories);
    }
}
