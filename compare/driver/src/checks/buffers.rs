//! Single calls on a segment with its spills, in states that no history need reach: rows damaged, missing or out of order, any spill count.

use reference::calls::write_segment;
use reference::segment::Segment;
use reference::Digest32;

use super::{damage, padded, Size};
use crate::call::Call;
use crate::index::{row_key, Direction, Id, Kind, Lists, ROW_LIMIT};
use crate::random::Random;
use crate::report::{hex, Report};
use crate::sides::Sides;

const PARENT: Id = [0x42; 32];

/// A state and a call.
#[derive(Clone, Default)]
struct Case {
    segment: Segment,
    rows: Vec<(Id, Vec<u8>)>,
    staged: Vec<(Id, Segment)>,
    deleted: Vec<Id>,
    /// Free places of staged spills, table and deleted spills.
    free: [usize; 3],
    call: Option<Call>,
}

impl Case {
    fn sides(&self) -> Sides {
        let [s, t, d] = self.free;
        let mut sides = Sides::new(Lists::new(self.staged.len() + s, self.rows.len() + t, self.deleted.len() + d));
        sides.add_parent(PARENT, self.segment.clone());
        for (key, row) in &self.rows {
            sides.put_row(key, row);
        }
        for (key, spill) in &self.staged {
            sides.stage(key, spill.clone());
        }
        for key in &self.deleted {
            sides.delete(key);
        }
        sides
    }

    fn differs(&self, report: &mut Report) -> Option<String> {
        let mut sides = self.sides();
        let before = (sides.lists.clone(), sides.parents.clone());
        let call = self.call.as_ref()?;
        match sides.call(0, call, report) {
            Err(text) => Some(text),
            Ok(answer) if answer.code != 0 && before != (sides.lists.clone(), sides.parents.clone()) => {
                Some("a refused call has changed something".into())
            }
            Ok(_) => sides.state_differs().or_else(|| inspection_differs(&sides, report)),
        }
    }

    /// Leaves out what the difference does not need.
    fn shrink(mut self) -> Self {
        let differs = |case: &Case| case.differs(&mut Report::default()).is_some();
        loop {
            let mut smaller = Vec::new();
            for i in 0..self.rows.len() {
                let mut less = self.clone();
                less.rows.remove(i);
                smaller.push(less);
            }
            for i in 0..self.staged.len() {
                let mut less = self.clone();
                less.staged.remove(i);
                smaller.push(less);
            }
            for part in [0, self.segment.boxes.len() / 2] {
                let mut less = self.clone();
                let end = part + self.segment.boxes.len().div_ceil(2);
                less.segment.boxes.drain(part..end.min(self.segment.boxes.len()));
                if less.segment.boxes.len() < self.segment.boxes.len() {
                    smaller.push(less);
                }
            }
            match smaller.into_iter().find(differs) {
                Some(less) => self = less,
                None => return self,
            }
        }
    }

    fn text(&self) -> String {
        let rows: Vec<String> = self
            .rows
            .iter()
            .map(|(key, row)| format!("{} {}", hex(&key[..4]), hex(row)))
            .collect();
        format!(
            "{:?} on {:?}, rows {rows:?}, staged {:?}, deleted {}, free {:?}",
            self.call,
            self.segment,
            self.staged,
            self.deleted.len(),
            self.free
        )
    }
}

/// Every row of the parent as inspection shows it: staged first, then the table's.
fn inspection_differs(sides: &Sides, report: &mut Report) -> Option<String> {
    for number in 0..4 {
        report.call("inspect_spill");
        let key = row_key(Kind::Box, &PARENT, number);
        let ours = match sides.lists.inspect(&key) {
            Ok(row) => Some(row),
            Err(12) => None,
            Err(_) => return None,
        };
        let staged = sides.spills.staged.get(&Digest32::from_bytes(key)).map(write_segment);
        let theirs = staged.or_else(|| sides.spills.rows().into_iter().find(|(k, _)| *k == key).map(|(_, row)| row));
        if ours != theirs.as_deref() {
            return Some(format!("inspection of row {number}"));
        }
    }
    None
}

/// Numbers in order, with runs of equal ones that cross rows.
struct Sequence {
    next: i64,
    step: u64,
    negative: u64,
}

impl Sequence {
    fn new(random: &mut Random) -> Self {
        Self {
            next: match random.below(6) {
                0 => 0,
                1 => i64::MAX - 3000,
                2 => (1 << random.below(62)) - 700,
                _ => random.below(3) as i64,
            }
            .max(0),
            step: random.pick(&[1, 1, 2, 2, 3, 900]),
            negative: random.pick(&[0, 1, 2, 3]),
        }
    }

    fn take(&mut self, length: usize, random: &mut Random) -> Vec<i64> {
        let mut numbers = Vec::with_capacity(length);
        for _ in 0..length {
            let n = self.next;
            let spent = match self.negative {
                0 => false,
                1 => true,
                _ => random.once_in(self.negative),
            };
            numbers.push(if spent { -n } else { n });
            self.next = n.saturating_add(if self.step < 900 {
                random.below(self.step + 1) as i64
            } else {
                i64::from(random.once_in(700))
            });
        }
        numbers
    }
}

/// Makes a row of numbers into one that a spend or a pop must look at twice.
fn spoil(row: &mut Segment, random: &mut Random) {
    let last = row.boxes.len() - 1;
    match random.below(10) {
        0 => row.boxes.truncate(last),
        1 => row.boxes.clear(),
        2 => row.boxes.swap(0, last),
        3 => row.boxes[random.index(last + 1)] = i64::MIN,
        4 => row.boxes.push(row.boxes[last]),
        5 => row.box_segment_count = random.int(),
        6 => row.tx_segment_count = random.int(),
        7 => row.txs = vec![random.long(); random.index(514)],
        8 => row.boxes.drain(..random.index(last)).for_each(drop),
        _ => {
            let at = random.index(last);
            row.boxes.swap(at, at + 1);
        }
    }
}

fn case(random: &mut Random) -> Case {
    let mut case = Case::default();
    let mut sequence = Sequence::new(random);
    let spills = random.pick(&[0, 0, 0, 1, 1, 2, 2, 3, 4]);
    let kind = if random.once_in(6) { Kind::Tx } else { Kind::Box };
    let spoilt = random.below(10) < 4;
    let mut known = Vec::new();
    for number in 0..spills {
        let mut row = Segment::empty();
        row.boxes = sequence.take(512, random);
        known.extend([row.boxes[0], row.boxes[511], row.boxes[random.index(512)]]);
        if spoilt && random.below(spills as u64) < 1 {
            spoil(&mut row, random);
        }
        if kind == Kind::Tx {
            std::mem::swap(&mut row.boxes, &mut row.txs);
        }
        let key = row_key(kind, &PARENT, number);
        let place = random.below(8);
        if place < 2 && write_segment(&row).len() <= ROW_LIMIT {
            case.staged.push((key, row.clone()));
        }
        if place > 0 && !(spoilt && random.once_in(8)) {
            let mut bytes = write_segment(&row);
            if spoilt && random.once_in(5) {
                damage(&mut bytes, random);
                // rows with padded numbers are not compared
                if padded::row(&bytes) {
                    bytes = write_segment(&row);
                }
            }
            bytes.truncate(ROW_LIMIT);
            case.rows.push((key, bytes));
        }
        if random.once_in(10) {
            case.deleted.push(key);
        }
    }
    let length = match random.below(4) {
        0 => 0,
        1 => random.pick(&[511, 512]),
        _ => random.index(6),
    };
    let mut head = sequence.take(length, random);
    known.extend(head.iter().copied().take(3));
    known.push(sequence.next);
    if random.once_in(12) && length > 1 {
        head[random.index(length)] = random.long();
    }
    let count = match random.below(14) {
        0 => random.int(),
        1 => spills + 1,
        2 => (spills - 1).max(0),
        _ => spills,
    };
    match kind {
        Kind::Box => (case.segment.boxes, case.segment.box_segment_count) = (head, count),
        Kind::Tx => (case.segment.txs, case.segment.tx_segment_count) = (head, count),
    }
    if random.once_in(16) {
        case.segment.tx_segment_count = random.int();
    }
    case.free = std::array::from_fn(|_| if random.once_in(4) { 0 } else { 1 + random.index(2) });
    let target = match random.below(12) {
        0 => random.long(),
        1 => 0,
        2 => random.pick(&[i64::MIN, i64::MAX, -i64::MAX]),
        _ => (random.pick(&known)).saturating_add(if random.once_in(5) { random.below(3) as i64 - 1 } else { 0 }),
    };
    case.call = Some(match random.below(12) {
        0 => Call::Append(
            kind,
            if random.once_in(8) {
                random.long()
            } else {
                target.saturating_abs()
            },
        ),
        1 => Call::Append(kind, sequence.next),
        2 | 3 => Call::Pop(kind),
        4 => Call::Flush,
        n if n % 2 == 0 => Call::Flip(Direction::Unspend, target),
        _ => Call::Flip(Direction::Spend, target),
    });
    case
}

pub fn run(size: Size, report: &mut Report) {
    report.phase("single calls on segments and their spills");
    let mut random = Random::new(7);
    for i in 0..size.some {
        let case = case(&mut random);
        let function = case.call.as_ref().map_or("", Call::function);
        if case.differs(report).is_some() && report.wants(function) {
            let small = case.shrink();
            let text = small.differs(&mut Report::default()).unwrap_or_default();
            report.difference(function, format!("{}: {text}", small.text()));
        }
        report.progress(i, size.some);
    }
}
