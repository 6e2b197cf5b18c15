//! Trials of staging sizes with made-up forks.

use crate::ffi;
use crate::lists::{KEY_SIZE, RECORD_SIZE};
use crate::refusal::{accepted, Refusal};

/// The numbers that a standing call takes in its list.
const STANDING_NUMBERS: usize = 3;

/// The room that a trial has: rows in the segments table, staged rows, deleted keys, and calls that can stand at once.
#[derive(Clone, Copy, Debug, PartialEq, Eq)]
pub struct TrialSizes {
    /// Rows in the segments table.
    pub table: usize,
    /// Staged rows.
    pub staged: usize,
    /// Deleted keys.
    pub deleted: usize,
    /// Standing calls.
    pub standing: usize,
}

/// What a trial needed: lists of these sizes give the same answers, smaller ones do not.
#[derive(Clone, Copy, Debug, PartialEq, Eq)]
pub struct TrialFigures {
    /// The largest number of staged rows at any one time.
    pub staged: usize,
    /// The largest number of deleted keys at any one time.
    pub deleted: usize,
}

/// Runs the steps on one parent from an empty index and tells the sizes that they needed. A step `n` is a block of `n` calls of the [`Load`](crate::Load) from
/// `state`, a step `-d` a fork of `d` blocks, which undoes their standing calls, newest first; a flush is made at every change between calls and undos.
///
/// Refused by 25 (more than 4,096 steps), 38 (state 0), and by what ends the run: 16, 21, 22 where a list is full, 39 for a fork deeper than 720 blocks or than
/// the blocks that stand, 40 where more calls stand than there is room for. The buffers are this function's own.
///
/// ```
/// use ergo_index::{try_forks, Refusal, TrialFigures, TrialSizes};
/// let sizes = TrialSizes { table: 8, staged: 4, deleted: 4, standing: 4000 };
/// assert_eq!(try_forks(1, &[], sizes), Ok(TrialFigures { staged: 0, deleted: 0 }));
/// assert_eq!(try_forks(1, &[10, -2], sizes), Err(Refusal::ForkTooDeep));
/// assert_eq!(try_forks(0, &[10], sizes), Err(Refusal::StateIsZero));
///
/// // three blocks that spill, and two of them taken back
/// let figures = try_forks(1, &[1000, 1000, 1000, -2], sizes)?;
/// let enough = TrialSizes { staged: figures.staged, deleted: figures.deleted, ..sizes };
/// assert_eq!(try_forks(1, &[1000, 1000, 1000, -2], enough), Ok(figures));
/// # Ok::<(), Refusal>(())
/// ```
pub fn try_forks(state: u64, steps: &[i32], sizes: TrialSizes) -> Result<TrialFigures, Refusal> {
    let mut table = vec![0; sizes.table * RECORD_SIZE];
    let mut staged = vec![0; sizes.staged * RECORD_SIZE];
    let mut deleted = vec![0; sizes.deleted * KEY_SIZE];
    let mut standing = vec![0; sizes.standing * STANDING_NUMBERS];
    let mut figures = TrialFigures { staged: 0, deleted: 0 };
    // SAFETY: each pointer comes from a live borrow, each length is that of its slice, and nothing that is written overlaps anything else.
    accepted(unsafe {
        ffi::ergo_index_try_forks(
            state,
            steps.as_ptr(),
            steps.len(),
            sizes.table,
            table.as_mut_ptr(),
            table.len(),
            sizes.staged,
            staged.as_mut_ptr(),
            staged.len(),
            sizes.deleted,
            deleted.as_mut_ptr(),
            deleted.len(),
            sizes.standing,
            standing.as_mut_ptr(),
            standing.len(),
            &mut figures.staged,
            &mut figures.deleted,
        )
    })?;
    Ok(figures)
}
