//! The calls with a summary.

use super::*;

/// A summary with a line for each spill, all zero.
pub struct Summary {
    pub lines: usize,
    pub numbers: Vec<u64>,
}

impl Summary {
    pub fn new(lines: usize) -> Self {
        Self {
            lines,
            numbers: vec![0; lines * 5],
        }
    }

    /// Made from the rows.
    pub fn make(&mut self, lists: &Lists, parent: &Id, head: &Head) -> u8 {
        let (h, s, t) = (&head.numbers, &lists.staged, &lists.table);
        unsafe {
            ergo_index_summarize_boxes(
                lists.second,
                parent.as_ptr(),
                head.len,
                head.spills,
                h.as_ptr(),
                h.len(),
                s.count,
                s.capacity,
                s.bytes.as_ptr(),
                s.bytes.len(),
                t.count,
                t.capacity,
                t.bytes.as_ptr(),
                t.bytes.len(),
                self.lines,
                self.numbers.as_mut_ptr(),
                self.numbers.len(),
            )
        }
    }

    pub fn flip(&mut self, lists: &mut Lists, direction: Direction, parent: &Id, head: &mut Head, target: i64) -> u8 {
        let call = match direction {
            Direction::Spend => ergo_index_flip_box_segment_entry_with_summary,
            Direction::Unspend => ergo_index_unflip_box_segment_entry_with_summary,
        };
        let (h, s, t) = (&mut head.numbers, &mut lists.staged, &lists.table);
        unsafe {
            call(
                lists.second,
                parent.as_ptr(),
                head.len,
                head.spills,
                h.as_mut_ptr(),
                h.len(),
                target,
                &mut s.count,
                s.capacity,
                s.bytes.as_mut_ptr(),
                s.bytes.len(),
                t.count,
                t.capacity,
                t.bytes.as_ptr(),
                t.bytes.len(),
                self.lines,
                self.numbers.as_mut_ptr(),
                self.numbers.len(),
            )
        }
    }

    /// Unspent, spent and unknown entries.
    pub fn tally(&self, head: &Head) -> Result<(usize, usize, usize), u8> {
        let (mut unspent, mut spent, mut unknown) = (0, 0, 0);
        let code = unsafe {
            ergo_index_tally_with_summary(
                head.len,
                head.spills,
                head.numbers.as_ptr(),
                head.numbers.len(),
                self.lines,
                self.numbers.as_ptr(),
                self.numbers.len(),
                &mut unspent,
                &mut spent,
                &mut unknown,
            )
        };
        match code {
            0 => Ok((unspent, spent, unknown)),
            refused => Err(refused),
        }
    }
}
