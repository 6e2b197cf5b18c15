//! Both sides of a segment buffer: each call is made on both, and their answers and states are compared.

use std::collections::{BTreeMap, HashMap, HashSet};

use ergo_index::{Edition, Second};
use reference::address::{BalanceInfo, IndexedAddress};
use reference::calls::{write_segment, Spills};
use reference::error::IndexerError;
use reference::segment::Segment;
use reference::Digest32;

use crate::call::{Answer, Call};
use crate::index::{convert_row, row_key, Balance, Direction, Head, Id, Kind, Lists, TOKENS};
use crate::report::Report;
use crate::{codes, ffi};

/// A parent of the index.
#[derive(Clone, PartialEq)]
pub struct Parent {
    pub id: Id,
    pub boxes: Head,
    pub txs: Head,
    pub balance: Balance,
}

/// What a call of the reference may change: a segment, the staged and the deleted spills.
type Changeable = (Segment, HashMap<Digest32, Segment>, HashSet<Digest32>);

pub struct Sides {
    pub lists: Lists,
    pub parents: Vec<Parent>,
    pub spills: Spills,
    pub addresses: Vec<IndexedAddress>,
    /// What the reference's drift rule made of its last flip.
    drift: (u8, bool),
    /// The index with rows of edition 2, if it goes along.
    second: Option<InSecond>,
}

impl Sides {
    pub fn new(lists: Lists) -> Self {
        Self {
            lists,
            parents: Vec::new(),
            spills: Spills::default(),
            addresses: Vec::new(),
            drift: (0, false),
            second: None,
        }
    }

    /// From here on every call is made with rows of edition 2 as well.
    pub fn with_second(mut self) -> Self {
        self.second = Some(InSecond::new(&self.lists, &self.parents));
        self
    }

    /// The lists and parents in edition 2, if they go along.
    pub fn second(&self) -> Option<(&Lists, &[Parent])> {
        self.second.as_ref().map(|second| (&second.lists, &second.parents[..]))
    }

    pub fn add_parent(&mut self, id: Id, segment: Segment) {
        self.parents.push(Parent {
            id,
            boxes: Head::new(&segment.boxes, segment.box_segment_count),
            txs: Head::new(&segment.txs, segment.tx_segment_count),
            balance: Balance::default(),
        });
        self.addresses.push(IndexedAddress {
            tree_hash: Digest32::from_bytes(id),
            balance: Some(BalanceInfo::default()),
            segment,
        });
    }

    /// A row of the segments table, any bytes.
    pub fn put_row(&mut self, key: &Id, row: &[u8]) {
        self.lists.table.push(key, row);
        self.spills.put_row(&Digest32::from_bytes(*key), row);
    }

    pub fn stage(&mut self, key: &Id, spill: Segment) {
        self.lists.staged.push(key, &write_segment(&spill));
        self.spills.staged.insert(Digest32::from_bytes(*key), spill);
    }

    pub fn delete(&mut self, key: &Id) {
        self.lists.deleted.push(key);
        self.spills.deleted.insert(Digest32::from_bytes(*key));
    }

    /// Makes a call on both sides. The answer is the index's; an error tells a difference that no rule names.
    pub fn call(&mut self, parent: usize, call: &Call, report: &mut Report) -> Result<Answer, String> {
        report.call(call.function());
        let ours = of_index(&mut self.lists, &mut self.parents[parent], call);
        if let Some(second) = &mut self.second {
            report.call("the same call in edition 2");
            let alike = of_index(&mut second.lists, &mut second.parents[parent], call);
            if alike != ours {
                return Err(format!("{} answers {ours:?}, in edition 2 {alike:?}", call.function()));
            }
        }
        if ours.code != 0 {
            if let Some(name) = self.only_in_the_table(parent, call, ours.code) {
                report.named(name);
                return Ok(ours);
            }
        }
        let before = self.at_risk(parent, call);
        let theirs = self.of_reference(parent, call);
        if ours != theirs {
            return Err(format!("{} answers {ours:?}, the reference {theirs:?}", call.function()));
        }
        if let Call::Flip(..) = call {
            report.call("tolerate_secondary_drift");
            let tolerated = tolerate(ours.code);
            if tolerated != self.drift {
                return Err(format!(
                    "the drift rule makes {tolerated:?} of {ours:?}, the reference {:?}",
                    self.drift
                ));
            }
        }
        if theirs.code == 0 {
            return Ok(ours);
        }
        report.refused(call.function(), ours.code);
        if self.restore(parent, before) {
            report.named(match call {
                Call::Append(..) => "append at the largest spill count: the Rust keeps 513 entries in the head",
                _ => "pop: a failed pop of the Rust has changed its arguments",
            });
        }
        Ok(ours)
    }

    fn of_reference(&mut self, parent: usize, call: &Call) -> Answer {
        let spills = &mut self.spills;
        let address = &mut self.addresses[parent];
        let ordered = !matches!(call, Call::Flip(..)) || in_order(&address.segment.boxes);
        let number = |result: Result<(), IndexerError>| result.map(|()| 0);
        let result = match call {
            Call::Append(Kind::Box, n) => number(spills.append_box(address, *n)),
            Call::Append(Kind::Tx, n) => number(spills.append_tx(address, *n)),
            Call::Flip(direction, target) => {
                let result = match direction {
                    Direction::Spend => spills.flip(address, *target),
                    Direction::Unspend => spills.unflip(address, *target),
                };
                let code = result.as_ref().map_or_else(|e| codes::of_error(e, ordered), |()| 0);
                self.drift = match reference::calls::tolerate(result) {
                    Ok(skipped) => (0, skipped),
                    Err(e) => (codes::of_error(&e, ordered), false),
                };
                return Answer { code, number: 0 };
            }
            Call::Pop(Kind::Box) => spills.pop_box(address),
            Call::Pop(Kind::Tx) => spills.pop_tx(address),
            Call::Flush => number(spills.flush()),
            Call::Credit(nanos, tokens) => {
                balance(address).add_box(*nanos, &digests(tokens));
                Ok(0)
            }
            Call::Debit(nanos, tokens) => {
                balance(address).subtract_box(*nanos, &digests(tokens));
                Ok(0)
            }
        };
        Answer::of(result.map_err(|e| codes::of_error(&e, ordered)))
    }

    /// The name of a refusal that only document 01's table has, if its condition holds; the state is the one before the call.
    fn only_in_the_table(&mut self, parent: usize, call: &Call, code: u8) -> Option<&'static str> {
        let Parent { id, boxes, txs, .. } = &self.parents[parent];
        let head = |kind| if kind == Kind::Box { boxes } else { txs };
        match (call, code) {
            (Call::Append(kind, _), 11) if head(*kind).spills < 0 => Some("append: 11, its spill count is negative"),
            (Call::Append(_, n), 17) if *n < 0 => Some("append: 17, the number is negative"),
            (Call::Append(kind, _), 16) => {
                let head = head(*kind);
                let key = row_key(*kind, id, head.spills);
                let full = self.lists.staged.full() && !self.lists.staged.holds(&key);
                (full && head.len == 512).then_some("append: 16, staged spills are full")
            }
            (Call::Flip(..), 16) => {
                let full = self.lists.staged.full() && self.reference_stages_one_more(parent, call);
                full.then_some("spend, unspend: 16, staged spills are full")
            }
            (Call::Pop(kind), 11) if head(*kind).spills < 0 => Some("pop: 11, its spill count is negative"),
            (Call::Pop(kind), 21) => {
                let head = head(*kind);
                let key = row_key(*kind, id, head.spills - 1);
                let full = self.lists.deleted.full() && !self.lists.deleted.holds(&key);
                (full && self.reference_accepts(parent, call)).then_some("pop: 21, deleted spills are full")
            }
            (Call::Flip(..) | Call::Pop(_), 4 | 6) if self.staged_row_unreadable(parent, call, code) => {
                Some("staged rows: decoded and checked like table rows")
            }
            (Call::Flush, 22) => {
                let lists = &self.lists;
                let table: Vec<&[u8]> = lists.table.rows().map(|(key, _)| key).collect();
                let new = lists
                    .staged
                    .rows()
                    .filter(|(key, _)| !lists.deleted.keys().any(|k| k == *key) && !table.contains(key));
                (new.count() > lists.table.capacity - lists.table.count).then_some("flush: 22, the table has no room")
            }
            (Call::Credit(nanos, tokens) | Call::Debit(nanos, tokens), 23 | 24) => {
                let adds = matches!(call, Call::Credit(..));
                let due = offence(balance(&mut self.addresses[parent]), adds, *nanos, tokens);
                match code {
                    23 => (due == 23).then_some("balance: 23, a sum leaves 64 signed bits"),
                    _ => (due == 24).then_some("balance: 24, a 129th token"),
                }
            }
            _ => None,
        }
    }

    /// Whether a staged row that the call may read is one that a reader refuses by this code.
    fn staged_row_unreadable(&self, parent: usize, call: &Call, code: u8) -> bool {
        let Parent { id, boxes, txs, .. } = &self.parents[parent];
        let (kind, numbers) = match call {
            Call::Pop(Kind::Tx) => (Kind::Tx, txs.spills - 1..txs.spills),
            Call::Pop(Kind::Box) => (Kind::Box, boxes.spills - 1..boxes.spills),
            _ => (Kind::Box, 0..boxes.spills.min(8)),
        };
        let mut staged = numbers.filter_map(|n| self.spills.staged.get(&Digest32::from_bytes(row_key(kind, id, n))));
        staged.any(|s| match code {
            4 => s.txs.len() > 512 || s.boxes.len() > 512,
            _ => s.box_segment_count < 0 || s.tx_segment_count < 0,
        })
    }

    /// Whether the reference accepts a call; its state stays.
    fn reference_accepts(&mut self, parent: usize, call: &Call) -> bool {
        let before = self.copy(parent);
        let accepted = self.of_reference(parent, call).code == 0;
        self.put_back(parent, before);
        accepted
    }

    /// Whether the reference accepts a call and stages one row more; its state stays.
    fn reference_stages_one_more(&mut self, parent: usize, call: &Call) -> bool {
        let before = self.copy(parent);
        let staged = before.1.len();
        let accepted = self.of_reference(parent, call).code == 0;
        let more = self.spills.staged.len() == staged + 1;
        self.put_back(parent, before);
        accepted && more
    }

    fn copy(&self, parent: usize) -> Changeable {
        let segment = self.addresses[parent].segment.clone();
        (segment, self.spills.staged.clone(), self.spills.deleted.clone())
    }

    /// A copy of what a failed call of the reference may change: an append at the largest count, and a pop that reads a row.
    fn at_risk(&self, parent: usize, call: &Call) -> Option<Changeable> {
        let segment = &self.addresses[parent].segment;
        let risk = match call {
            Call::Append(Kind::Box, _) => segment.box_segment_count == i32::MAX,
            Call::Append(Kind::Tx, _) => segment.tx_segment_count == i32::MAX,
            Call::Pop(Kind::Box) => segment.boxes.is_empty(),
            Call::Pop(Kind::Tx) => segment.txs.is_empty(),
            _ => false,
        };
        risk.then(|| self.copy(parent))
    }

    /// Puts the reference back to the state before a failed call; true if the call had changed it.
    fn restore(&mut self, parent: usize, before: Option<Changeable>) -> bool {
        let Some(before) = before else {
            return false;
        };
        let changed = self.copy(parent) != before;
        self.put_back(parent, before);
        changed
    }

    fn put_back(&mut self, parent: usize, (segment, staged, deleted): Changeable) {
        self.addresses[parent].segment = segment;
        self.spills.staged = staged;
        self.spills.deleted = deleted;
    }

    /// The first part of the state in which the sides differ; rows compare by key.
    pub fn state_differs(&self) -> Option<String> {
        if let Some(part) = self
            .second
            .as_ref()
            .and_then(|second| second.differs(&self.lists, &self.parents))
        {
            return Some(format!("{part} in edition 2"));
        }
        for (i, (p, a)) in self.parents.iter().zip(&self.addresses).enumerate() {
            let s = &a.segment;
            if p.boxes.used() != s.boxes || p.boxes.spills != s.box_segment_count {
                return Some(format!("boxes of parent {i}"));
            }
            if p.txs.used() != s.txs || p.txs.spills != s.tx_segment_count {
                return Some(format!("transactions of parent {i}"));
            }
            let b = a.balance.as_ref().expect("a balance");
            let tokens = b.tokens.iter().map(|(id, amount)| (id.as_bytes().as_slice(), *amount));
            if p.balance.nanos != b.nano_ergs || !p.balance.tokens().eq(tokens) {
                return Some(format!("balance of parent {i}"));
            }
        }
        let table: BTreeMap<&[u8], &[u8]> = self.lists.table.rows().collect();
        let rows = self.spills.rows();
        if !table
            .into_iter()
            .eq(rows.iter().map(|(key, row)| (key.as_slice(), row.as_slice())))
        {
            return Some("segments table".into());
        }
        let staged: BTreeMap<&[u8], &[u8]> = self.lists.staged.rows().collect();
        let rows: BTreeMap<&[u8], Vec<u8>> = self
            .spills
            .staged
            .iter()
            .map(|(key, s)| (key.as_bytes().as_slice(), write_segment(s)))
            .collect();
        if !staged.into_iter().eq(rows.iter().map(|(key, row)| (*key, row.as_slice()))) {
            return Some("staged spills".into());
        }
        let mut ours: Vec<&[u8]> = self.lists.deleted.keys().collect();
        let mut theirs: Vec<&[u8]> = self.spills.deleted.iter().map(|key| key.as_bytes().as_slice()).collect();
        ours.sort();
        theirs.sort();
        (ours != theirs).then(|| "deleted spills".into())
    }
}

/// A call on the index.
fn of_index(lists: &mut Lists, parent: &mut Parent, call: &Call) -> Answer {
    let Parent { id, boxes, txs, balance } = parent;
    let code = |code| if code == 0 { Ok(0) } else { Err(code) };
    Answer::of(match call {
        Call::Append(Kind::Box, n) => code(lists.append(Kind::Box, id, boxes, *n)),
        Call::Append(Kind::Tx, n) => code(lists.append(Kind::Tx, id, txs, *n)),
        Call::Flip(direction, target) => code(lists.flip(*direction, id, boxes, *target)),
        Call::Pop(Kind::Box) => lists.pop(Kind::Box, id, boxes),
        Call::Pop(Kind::Tx) => lists.pop(Kind::Tx, id, txs),
        Call::Flush => code(lists.flush()),
        Call::Credit(nanos, tokens) => {
            let (ids, amounts) = flat(tokens);
            code(balance.add_box(*nanos, &ids, &amounts))
        }
        Call::Debit(nanos, tokens) => {
            let (ids, amounts) = flat(tokens);
            code(balance.subtract_box(*nanos, &ids, &amounts))
        }
    })
}

/// The index with rows of edition 2, beside the one with rows of edition 1.
struct InSecond {
    lists: Lists,
    parents: Vec<Parent>,
}

impl InSecond {
    /// The same state, its rows converted.
    fn new(lists: &Lists, parents: &[Parent]) -> Self {
        let mut second = Lists::in_second(lists.staged.capacity, lists.table.capacity, lists.deleted.capacity);
        for (key, row) in lists.table.rows() {
            second
                .table
                .push(&id_of(key), &converted(true, key, row, parents).expect("a row of a spill"));
        }
        Self {
            lists: second,
            parents: parents.to_vec(),
        }
    }

    /// The first part of the state in which the editions differ: rows are those of the other edition, converted, in the same places.
    fn differs(&self, lists: &Lists, parents: &[Parent]) -> Option<&'static str> {
        if self.parents != parents {
            return Some("parents");
        }
        for (part, ours, others) in [
            ("staged spills", &self.lists.staged, &lists.staged),
            ("segments table", &self.lists.table, &lists.table),
        ] {
            let alike = |((k, row), (other, old)): ((&[u8], &[u8]), (&[u8], &[u8]))| {
                k == other
                    && converted(true, k, old, parents).as_deref() == Ok(row)
                    && converted(false, k, row, parents).as_deref() == Ok(old)
            };
            if ours.count != others.count || !ours.rows().zip(others.rows()).all(alike) {
                return Some(part);
            }
        }
        (self.lists.deleted != lists.deleted).then_some("deleted spills")
    }
}

fn id_of(key: &[u8]) -> Id {
    key.try_into().expect("32 bytes")
}

/// A row in the other edition, for the spill of a parent whose key it has; rows are few.
fn converted(to_second: bool, key: &[u8], row: &[u8], parents: &[Parent]) -> Result<Vec<u8>, u8> {
    let spills = parents.iter().flat_map(|p| {
        let most = p.boxes.spills.max(p.txs.spills).max(0) + 4;
        (0..most).flat_map(|n| [(p.id, 1, n), (p.id, 2, n)])
    });
    let kind = |byte| if byte == 1 { Kind::Box } else { Kind::Tx };
    let found = spills.into_iter().find(|(id, byte, n)| row_key(kind(*byte), id, *n) == key);
    let (id, byte, n) = found.ok_or(0)?;
    let mut out = vec![0; Second::ROW_LIMIT];
    let written = convert_row(to_second, row, &id, byte, n, &mut out)?;
    out.truncate(written);
    Ok(out)
}

/// The index's drift rule on the code of a flip: its code, and whether the flip is skipped.
pub fn tolerate(flip: u8) -> (u8, bool) {
    let mut skipped = false;
    let code = unsafe { ffi::ergo_index_tolerate_secondary_drift(flip, &mut skipped) };
    (code, skipped)
}

fn balance(address: &mut IndexedAddress) -> &mut BalanceInfo {
    address.balance.as_mut().expect("a balance")
}

fn digests(tokens: &[(Id, i64)]) -> Vec<(Digest32, i64)> {
    tokens
        .iter()
        .map(|(id, amount)| (Digest32::from_bytes(*id), *amount))
        .collect()
}

fn flat(tokens: &[(Id, i64)]) -> (Vec<u8>, Vec<i64>) {
    let ids = tokens.iter().flat_map(|(id, _)| *id).collect();
    (ids, tokens.iter().map(|(_, amount)| *amount).collect())
}

/// No -2^63, and absolute values that never fall.
pub fn in_order(numbers: &[i64]) -> bool {
    !numbers.contains(&i64::MIN) && numbers.is_sorted_by_key(|n| n.unsigned_abs())
}

/// The refusal that a box meets in list order, nanoErgs first: 23, 24, or 0 for none.
pub fn offence(held: &BalanceInfo, adds: bool, nanos: i64, tokens: &[(Id, i64)]) -> u8 {
    let sum = |a: i64, b: i64| if adds { a.checked_add(b) } else { a.checked_sub(b) };
    if sum(held.nano_ergs, nanos).is_none() {
        return 23;
    }
    let mut list: Vec<(Id, i64)> = held.tokens.iter().map(|(id, amount)| (*id.as_bytes(), *amount)).collect();
    for (id, amount) in tokens {
        match list.iter().position(|(known, _)| known == id) {
            Some(at) => match sum(list[at].1, *amount) {
                None => return 23,
                Some(n) if !adds && n <= 0 => drop(list.remove(at)),
                Some(n) => list[at].1 = n,
            },
            None if !adds => {}
            None if list.len() == TOKENS => return 24,
            None => list.push((*id, *amount)),
        }
    }
    0
}
