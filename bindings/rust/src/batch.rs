//! Many calls at once: refusal 25 is tested once, then every call is made.

use crate::balance::Balance;
use crate::entry::{BoxNumber, TxNumber};
use crate::ffi;
use crate::lists::{DeletedSpills, SegmentTable, StagedSpills};
use crate::load::Load;
use crate::parents::Parents;
use crate::refusal::{accepted, Refusal};
use crate::segment::Segment;

/// The most parents of a batch: a queued call names its parent by one byte.
pub const MAX_PARENTS: usize = 256;

/// Why a batch made no further call: the answers have no room for another one.
pub const END_NO_ROOM: u8 = 0;
/// Why a batch made no further call: the input has ended.
pub const END_OF_INPUT: u8 = 1;
/// Why a batch made no further call: the input ends inside a call.
pub const END_CUT_CALL: u8 = 2;
/// Why a batch made no further call: what stands there is none, as its kind or its parent is unknown.
pub const END_NO_CALL: u8 = 31;

/// What a call of a batch answers: a popped number, nothing, or a refusal.
pub type BatchAnswer = Result<Option<i64>, Refusal>;

/// The segments and balances of up to 256 parents with their lists of spills, and calls that wait.
///
/// [`Batch::run`] tests once what every single call tests first (25), and then makes the calls in the order in which they were queued. Each answers as the
/// call of [`Segment`], [`Balance`] or [`flush_staged_spills`](crate::flush_staged_spills) that it stands for. A refused call changes nothing and the calls
/// behind it are made.
///
/// ```
/// use ergo_index::*;
///
/// let parents = [[7; 32], [8; 32]].map(|id| (Segment::new(id), Balance::new()));
/// let lists = (StagedSpills::with_capacity(2), SegmentTable::with_capacity(2), DeletedSpills::with_capacity(2));
/// let mut batch = Batch::new(parents, lists.0, lists.1, lists.2);
///
/// batch.append_box(0, BoxNumber(5)).spend(0, BoxNumber(5)).spend(0, BoxNumber(6)).pop_box(0);
/// batch.append_tx(1, TxNumber(9)).credit(1, 1_500_000, 3, 10).flush();
/// let answers = batch.run()?;
/// assert_eq!(answers[..4], [Ok(None), Ok(None), Err(Refusal::TargetNotSeen), Ok(Some(-5))]);
/// assert_eq!(answers[4..], [Ok(None); 3]);
/// assert_eq!((batch.segment(1).txs(), batch.balance(1).amount_of(&[3; 32])), (&[TxNumber(9)][..], Some(10)));
/// # Ok::<(), Refusal>(())
/// ```
#[derive(Clone)]
pub struct Batch {
    parents: Parents,
    staged: StagedSpills,
    table: SegmentTable,
    deleted: DeletedSpills,
    input: Vec<u8>,
    calls: usize,
}

impl Batch {
    /// A batch over these parents, numbered from 0 in this order, and their lists; no call waits. Nothing is tested before [`Batch::run`].
    ///
    /// # Panics
    /// If there are more than 256 parents.
    pub fn new(parents: impl IntoIterator<Item = (Segment, Balance)>, staged: StagedSpills, table: SegmentTable, deleted: DeletedSpills) -> Self {
        let mut blocks = Parents::default();
        for (segment, balance) in parents {
            blocks.push(&segment, &balance);
        }
        assert!(blocks.count <= MAX_PARENTS, "a batch of {} parents, of at most {MAX_PARENTS}", blocks.count);
        Batch { parents: blocks, staged, table, deleted, input: Vec::new(), calls: 0 }
    }

    /// How many parents there are.
    pub fn parents(&self) -> usize {
        self.parents.count
    }

    /// How many calls wait.
    pub fn waiting(&self) -> usize {
        self.calls
    }

    fn queue(&mut self, kind: u8, parent: usize) {
        assert!(parent < self.parents.count, "parent {parent} of {}", self.parents.count);
        self.input.extend([kind, parent as u8]);
        self.calls += 1;
    }

    fn queue_number(&mut self, kind: u8, parent: usize, number: i64) -> &mut Self {
        self.queue(kind, parent);
        self.input.extend(number.to_be_bytes());
        self
    }

    fn queue_change(&mut self, kind: u8, parent: usize, nanos: i64, token: u8, amount: i64) -> &mut Self {
        self.queue_number(kind, parent, nanos);
        self.input.push(token);
        self.input.extend(amount.to_be_bytes());
        self
    }

    /// Queues [`Segment::append_box_entry`]. This and every other call that names a parent panics if there is no such parent.
    pub fn append_box(&mut self, parent: usize, number: BoxNumber) -> &mut Self {
        self.queue_number(1, parent, number.0)
    }

    /// Queues [`Segment::append_tx_entry`].
    pub fn append_tx(&mut self, parent: usize, number: TxNumber) -> &mut Self {
        self.queue_number(2, parent, number.0)
    }

    /// Queues [`Segment::flip_box_segment_entry`].
    pub fn spend(&mut self, parent: usize, target: BoxNumber) -> &mut Self {
        self.queue_number(3, parent, target.0)
    }

    /// Queues [`Segment::unflip_box_segment_entry`].
    pub fn unspend(&mut self, parent: usize, target: BoxNumber) -> &mut Self {
        self.queue_number(4, parent, target.0)
    }

    /// Queues [`Segment::pop_box_entry`].
    pub fn pop_box(&mut self, parent: usize) -> &mut Self {
        self.queue(5, parent);
        self
    }

    /// Queues [`Segment::pop_tx_entry`].
    pub fn pop_tx(&mut self, parent: usize) -> &mut Self {
        self.queue(6, parent);
        self
    }

    /// Queues [`flush_staged_spills`](crate::flush_staged_spills).
    pub fn flush(&mut self) -> &mut Self {
        self.input.push(7);
        self.calls += 1;
        self
    }

    /// Queues [`Balance::add_box`] with one token, whose id is the byte 32 times.
    pub fn credit(&mut self, parent: usize, nanos: i64, token: u8, amount: i64) -> &mut Self {
        self.queue_change(8, parent, nanos, token, amount)
    }

    /// Queues [`Balance::subtract_box`] with one token, whose id is the byte 32 times.
    pub fn debit(&mut self, parent: usize, nanos: i64, token: u8, amount: i64) -> &mut Self {
        self.queue_change(9, parent, nanos, token, amount)
    }

    /// Queues the next calls of a load, all to parent 0. Panics if there is no parent, and is refused as [`Load::next_bytes`] is.
    pub fn load(&mut self, load: &mut Load, calls: usize) -> Result<&mut Self, Refusal> {
        assert!(0 < self.parents.count, "a load without a parent");
        self.input.extend(load.next_bytes(calls)?);
        self.calls += calls;
        Ok(self)
    }

    /// Makes the calls that wait, and answers each. Refused by 25 of any segment, balance or list: then nothing was changed and the calls still wait.
    pub fn run(&mut self) -> Result<Vec<BatchAnswer>, Refusal> {
        let (s, t, d) = (&mut self.staged.list, &mut self.table.list, &mut self.deleted.list);
        let (s_capacity, t_capacity, d_capacity) = (s.capacity(), t.capacity(), d.capacity());
        let p = &mut self.parents;
        let (mut answers, mut popped) = (vec![0; 2 * self.calls], vec![0; self.calls]);
        let (mut at, mut made, mut end) = (0, 0, 0);
        // SAFETY: each pointer comes from a live borrow, each length is that of its slice, and nothing that is written overlaps anything else.
        accepted(unsafe {
            ffi::ergo_index_run_calls(
                self.input.as_ptr(),
                self.input.len(),
                p.count,
                p.ids.as_mut_ptr(),
                p.ids.len(),
                p.numbers.as_mut_ptr(),
                p.numbers.len(),
                p.lengths.as_mut_ptr(),
                p.lengths.len(),
                p.spills.as_mut_ptr(),
                p.spills.len(),
                &mut s.count,
                s_capacity,
                s.bytes.as_mut_ptr(),
                s.bytes.len(),
                &mut t.count,
                t_capacity,
                t.bytes.as_mut_ptr(),
                t.bytes.len(),
                &mut d.count,
                d_capacity,
                d.bytes.as_mut_ptr(),
                d.bytes.len(),
                answers.as_mut_ptr(),
                answers.len(),
                popped.as_mut_ptr(),
                popped.len(),
                &mut at,
                &mut made,
                &mut end,
            )
        })?;
        assert_eq!((at, made), (self.input.len(), self.calls), "every call that was queued is made");
        assert_eq!(end, END_OF_INPUT, "only whole calls were queued, and each has room for its answer");
        self.input.clear();
        self.calls = 0;
        let answer = |(said, number): (&[u8], i64)| accepted(said[0]).map(|()| (said[1] == 1).then_some(number));
        Ok(answers.chunks_exact(2).zip(popped).map(answer).collect())
    }

    /// A parent's segment, as the calls that were made left it. Panics if there is no such parent.
    pub fn segment(&self, parent: usize) -> Segment {
        self.parents.segment(parent)
    }

    /// A parent's balance, as the calls that were made left it. Panics if there is no such parent.
    pub fn balance(&self, parent: usize) -> Balance {
        self.parents.balance(parent)
    }

    /// The parents with their segments and balances, and the lists, as the calls that were made left them. Calls that wait are dropped.
    ///
    /// ```
    /// use ergo_index::{Balance, Batch, BoxEntry, BoxNumber, DeletedSpills, Refusal, Segment, SegmentTable, StagedSpills};
    /// let lists = (StagedSpills::with_capacity(2), SegmentTable::with_capacity(2), DeletedSpills::with_capacity(2));
    /// let mut batch = Batch::new([(Segment::new([7; 32]), Balance::new())], lists.0, lists.1, lists.2);
    /// batch.append_box(0, BoxNumber(5)).run()?;
    /// let (parents, staged, table, deleted) = batch.into_parts();
    /// assert_eq!((parents[0].0.boxes(), staged.len(), table.capacity(), deleted.len()), (&[BoxEntry(5)][..], 0, 2, 0));
    /// # Ok::<(), Refusal>(())
    /// ```
    pub fn into_parts(self) -> (Vec<(Segment, Balance)>, StagedSpills, SegmentTable, DeletedSpills) {
        (self.parents.to_vec(), self.staged, self.table, self.deleted)
    }

    /// The staged spills.
    pub fn staged(&self) -> &StagedSpills {
        &self.staged
    }

    /// The segments table.
    pub fn table(&self) -> &SegmentTable {
        &self.table
    }

    /// The deleted spills.
    pub fn deleted(&self) -> &DeletedSpills {
        &self.deleted
    }
}

impl std::fmt::Debug for Batch {
    fn fmt(&self, f: &mut std::fmt::Formatter<'_>) -> std::fmt::Result {
        write!(f, "Batch of {} parents, {} calls waiting", self.parents.count, self.calls)
    }
}
