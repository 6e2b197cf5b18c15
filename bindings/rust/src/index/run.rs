//! The batch and the undo, until they come to their end.

use super::calls::{first, newest, Queue};
use super::fetching::Rows;
use super::{Block, CallAnswer, Index, Mark};
use crate::ffi;
use crate::refusal::{accepted, Refusal};

/// Where a batch stopped: the next byte of its input, the calls made, and why.
pub(super) struct Stop {
    pub(super) at: usize,
    pub(super) made: usize,
    pub(super) end: u8,
}

/// What was refused: the first call of an input, or the undo of the newest standing call.
enum Step<'a> {
    Made(&'a [u8]),
    Undone,
}

impl Index {
    /// Makes the calls that wait, as [`Index::apply`] does, over a table that holds some rows of those that are kept: a row that a call needs is fetched. If that
    /// fails, the calls before it were made and stand, and the others wait.
    pub fn apply_with<R: Rows>(&mut self, rows: &mut R) -> Result<Vec<CallAnswer>, R::Error> {
        let mut queue = std::mem::take(&mut self.queue);
        if queue.at == 0 && self.settled && self.staged.is_empty() && self.deleted.is_empty() {
            queue.pass_flush();
        }
        let made = self.make_all(&mut queue, rows);
        if let Err(error) = made {
            self.queue = queue;
            return Err(error);
        }
        let (start, used) = queue.start;
        let block = |(height, calls, bytes)| Block { height, end: Mark(start + calls as u64), bytes: used + bytes };
        self.blocks.extend(queue.ended().map(block));
        // the first answer is that of the flush
        let answers = queue.answers.get(1..).unwrap_or_default().iter().map(|&code| accepted(code)).collect();
        queue.clear();
        self.queue = queue;
        Ok(answers)
    }

    /// Makes the calls of a queue that were not made yet.
    fn make_all<R: Rows>(&mut self, queue: &mut Queue, rows: &mut R) -> Result<(), R::Error> {
        loop {
            self.before_a_flush();
            let from = queue.answers.len();
            // a place more than calls: the batch looks behind the last call, and ends there
            queue.answers.resize(queue.calls + 1, 0);
            let stop = self.batch(&queue.bytes[queue.at..], &mut queue.answers[from..]);
            queue.answers.truncate(from + stop.as_ref().map_or(0, |stop| stop.made));
            let stop = stop?;
            queue.at += stop.at;
            match stop.end {
                ffi::END_OF_INPUT => {
                    self.places.used(self.staged.len(), self.table.len());
                    self.settled = true;
                    return Ok(());
                }
                ffi::END_JOURNAL_FULL => self.journal.grow(queue.bytes.len() - queue.at),
                refusal => self.lift(refusal, Step::Made(&queue.bytes[queue.at..]), rows)?,
            }
        }
    }

    /// Takes back every call that was accepted after a mark, as [`Index::roll_back`] does; a row that this needs is fetched.
    ///
    /// # Panics
    /// If calls before the mark have left the journal.
    pub fn roll_back_with<R: Rows>(&mut self, mark: Mark, rows: &mut R) -> Result<(), R::Error> {
        let standing = mark.0.checked_sub(self.journal.forgotten).expect("the calls behind the mark are remembered") as usize;
        self.queue.clear();
        self.settled = false;
        loop {
            self.make_room();
            if let Some(changes) = &mut self.changes {
                changes.note_undo(&self.staged, &self.deleted);
            }
            let before = self.changes.is_some().then(|| self.table.clone());
            let code = self.undo_to(standing);
            if let (Some(changes), Some(before)) = (&mut self.changes, before) {
                changes.note_difference(&before, &self.table);
            }
            if code == 0 {
                self.settled = true;
                return Ok(());
            }
            self.lift(code, Step::Undone, rows)?;
        }
    }

    /// A batch begins with a flush.
    pub(super) fn before_a_flush(&mut self) {
        self.make_room();
        if let Some(changes) = &mut self.changes {
            changes.note_flush(&self.staged, &self.deleted);
        }
    }

    /// Makes room, or fetches the row that the call needs, so that it can be made again.
    fn lift<R: Rows>(&mut self, code: u8, step: Step<'_>, rows: &mut R) -> Result<(), R::Error> {
        const ROW_MISSING: u8 = Refusal::RowMissing as u8;
        const STAGING_FULL: u8 = Refusal::StagingFull as u8;
        const DELETED_FULL: u8 = Refusal::DeletedFull as u8;
        const TABLE_FULL: u8 = Refusal::TableFull as u8;
        match code {
            ROW_MISSING => match step {
                Step::Made(input) => self.fetch_for(&first(input), false, rows)?,
                Step::Undone => self.fetch_for(&newest(self.journal.entries()), true, rows)?,
            },
            STAGING_FULL if self.places.more(&self.staged.list) => {}
            STAGING_FULL if self.staged.is_empty() => self.staged.list.grow(1),
            DELETED_FULL if self.deleted.is_empty() => self.deleted.list.grow(1),
            STAGING_FULL | DELETED_FULL => self.flush()?,
            TABLE_FULL => self.table.list.grow(self.staged.len()),
            _ => return Err(Refusal::from_code(code).expect("what ends a batch of whole calls or an undo is a refusal").into()),
        }
        Ok(())
    }

    pub(super) fn batch(&mut self, input: &[u8], answers: &mut [u8]) -> Result<Stop, Refusal> {
        let (p, j) = (&mut self.parents, &mut self.journal);
        let (s, t, d) = (&mut self.staged.list, &mut self.table.list, &mut self.deleted.list);
        let (s_capacity, t_capacity, d_capacity) = (self.places.for_batch(s), t.capacity(), d.capacity());
        let mut stop = Stop { at: 0, made: 0, end: 0 };
        // SAFETY: each pointer comes from a live borrow, each length is that of its slice, and nothing that is written overlaps anything else.
        accepted(unsafe {
            ffi::ergo_index_apply_calls(
                input.as_ptr(),
                input.len(),
                p.count,
                p.ids.as_mut_ptr(),
                p.ids.len(),
                p.numbers.as_mut_ptr(),
                p.numbers.len(),
                p.lengths.as_mut_ptr(),
                p.lengths.len(),
                p.spills.as_mut_ptr(),
                p.spills.len(),
                &mut s.count,
                s_capacity,
                s.bytes.as_mut_ptr(),
                s.bytes.len(),
                &mut t.count,
                t_capacity,
                t.bytes.as_mut_ptr(),
                t.bytes.len(),
                &mut d.count,
                d_capacity,
                d.bytes.as_mut_ptr(),
                d.bytes.len(),
                j.bytes.as_mut_ptr(),
                j.bytes.len(),
                &mut j.used,
                &mut j.standing,
                answers.as_mut_ptr(),
                answers.len(),
                &mut stop.at,
                &mut stop.made,
                &mut stop.end,
            )
        })?;
        Ok(stop)
    }

    fn undo_to(&mut self, mark: usize) -> u8 {
        let (p, j) = (&mut self.parents, &mut self.journal);
        let (s, t, d) = (&mut self.staged.list, &mut self.table.list, &mut self.deleted.list);
        let (s_capacity, t_capacity, d_capacity) = (self.places.for_undo(s), t.capacity(), d.capacity());
        // SAFETY: as in `batch`.
        unsafe {
            ffi::ergo_index_undo_to(
                p.count,
                mark,
                p.ids.as_mut_ptr(),
                p.ids.len(),
                p.numbers.as_mut_ptr(),
                p.numbers.len(),
                p.lengths.as_mut_ptr(),
                p.lengths.len(),
                p.spills.as_mut_ptr(),
                p.spills.len(),
                &mut s.count,
                s_capacity,
                s.bytes.as_mut_ptr(),
                s.bytes.len(),
                &mut t.count,
                t_capacity,
                t.bytes.as_mut_ptr(),
                t.bytes.len(),
                &mut d.count,
                d_capacity,
                d.bytes.as_mut_ptr(),
                d.bytes.len(),
                j.bytes.as_ptr(),
                j.bytes.len(),
                &mut j.used,
                &mut j.standing,
            )
        }
    }
}
