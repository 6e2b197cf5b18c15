//! Calls in a batch on one parent: refusal 25 is tested once.

use super::{Direction, Head, Id, Kind, Lists, HEAD, TOKENS};
use crate::ffi::*;

pub struct Batch {
    ids: Vec<u8>,
    numbers: Vec<i64>,
    lengths: [usize; 3],
    spills: [i32; 2],
    input: Vec<u8>,
    answers: Vec<u8>,
    popped: Vec<i64>,
}

impl Batch {
    /// Of a parent with an empty head of transactions and an empty balance.
    pub fn new(parent: &Id, boxes: &Head) -> Self {
        let mut numbers = boxes.numbers.clone();
        numbers.resize(2 * HEAD + TOKENS + 1, 0);
        Self {
            ids: [&parent[..], &[0; 32 * TOKENS]].concat(),
            numbers,
            lengths: [boxes.len, 0, 0],
            spills: [boxes.spills, 0],
            input: Vec::new(),
            answers: Vec::new(),
            popped: Vec::new(),
        }
    }

    fn queue(&mut self, kind: u8, number: Option<i64>) {
        self.input.extend([kind, 0]);
        self.input.extend(number.iter().flat_map(|n| n.to_be_bytes()));
        self.answers.extend([0, 0]);
        self.popped.push(0);
    }

    pub fn append(&mut self, kind: Kind, number: i64) {
        self.queue(if kind == Kind::Box { 1 } else { 2 }, Some(number));
    }

    pub fn flip(&mut self, direction: Direction, target: i64) {
        self.queue(if direction == Direction::Spend { 3 } else { 4 }, Some(target));
    }

    pub fn pop(&mut self, kind: Kind) {
        self.queue(if kind == Kind::Box { 5 } else { 6 }, None);
    }

    /// So many calls in bytes, of a parent with empty heads and an empty balance.
    pub fn of_calls(parent: &Id, input: &[u8], calls: usize) -> Self {
        let mut batch = Self::new(parent, &Head::new(&[], 0));
        batch.input.extend(input);
        batch.answers.resize(2 * calls, 0);
        batch.popped.resize(calls, 0);
        batch
    }

    /// The parent again with these boxes, an empty head of transactions and an empty balance; the calls stay queued.
    pub fn restart(&mut self, boxes: &Head) {
        self.numbers.fill(0);
        self.numbers[..HEAD].copy_from_slice(&boxes.numbers[..HEAD]);
        self.lengths = [boxes.len, 0, 0];
        self.spills = [boxes.spills, 0];
    }

    /// Makes all queued calls, which stay queued. Every one is to be accepted.
    pub fn run(&mut self, lists: &mut Lists) {
        assert!(self.codes(lists).all(|code| code == 0), "a call of the batch was refused");
    }

    /// Makes all queued calls, which stay queued, and gives the code of each.
    pub fn codes(&mut self, lists: &mut Lists) -> impl Iterator<Item = u8> + '_ {
        let (s, t, d) = (&mut lists.staged, &mut lists.table, &mut lists.deleted);
        let (mut at, mut made, mut end) = (0, 0, 0);
        let code = unsafe {
            ergo_index_run_calls(
                self.input.as_ptr(),
                self.input.len(),
                1,
                self.ids.as_mut_ptr(),
                self.ids.len(),
                self.numbers.as_mut_ptr(),
                self.numbers.len(),
                self.lengths.as_mut_ptr(),
                self.lengths.len(),
                self.spills.as_mut_ptr(),
                self.spills.len(),
                &mut s.count,
                s.capacity,
                s.bytes.as_mut_ptr(),
                s.bytes.len(),
                &mut t.count,
                t.capacity,
                t.bytes.as_mut_ptr(),
                t.bytes.len(),
                &mut d.count,
                d.capacity,
                d.bytes.as_mut_ptr(),
                d.bytes.len(),
                self.answers.as_mut_ptr(),
                self.answers.len(),
                self.popped.as_mut_ptr(),
                self.popped.len(),
                &mut at,
                &mut made,
                &mut end,
            )
        };
        assert_eq!((code, made), (0, self.popped.len()));
        self.answers.chunks_exact(2).map(|answer| answer[0])
    }
}
