//! Two servers over different forks of one load, and whether they give the same account.
//!
//! ```text
//! copies [HISTORIES [CALLS]]
//! ```
//!
//! In each history two servers make the same CALLS calls of a load, credits and debits among them, for each of two parents. Each server flushes when it likes,
//! makes branches of its own and undoes them, at times with the newest calls before them, which it then makes again. The first has rows of edition 1, the
//! second rows of edition 2 and lists of other capacities. At the end every answer of the two is compared byte by byte. The exit status is 1 if any differs.
use ergo_index::*;
use std::process::ExitCode;

const PARENTS: usize = 2;
const TOKENS: u8 = 5;

/// A call that can be undone.
#[derive(Clone, Copy, Debug, PartialEq, Eq)]
enum Call {
    Box(i64),
    Tx(i64),
    Spend(i64),
    Credit(i64, Token),
    Debit(i64, Token),
}

/// The draws of a load's state; the load has no credits, forks or flushes of a server's own.
struct Draws(Load);

impl Draws {
    fn below(&mut self, n: u64) -> u64 {
        self.0.next();
        (self.0.state() >> 11) % n
    }
}

/// What stands of a parent's calls, as far as the history rules ask for it.
#[derive(Default)]
struct Rules {
    spent: Vec<i64>,
    nanos: i64,
    tokens: [i64; TOKENS as usize],
}

/// The calls that both servers make, with their parents. Box numbers come in pairs if `twice`, else each once; a parent has at most `limit` of them.
fn main_branch(seed: u64, calls: usize, twice: bool, limit: usize) -> Result<Vec<(usize, Call)>, Refusal> {
    let mut draws = Draws(Load::new(seed + 1_000_003)?);
    let mut loads = Vec::new();
    for parent in 0..PARENTS {
        loads.push((Load::new(seed * PARENTS as u64 + parent as u64 + 1)?, Rules::default(), 0));
    }
    let mut all = Vec::new();
    while all.len() < calls * PARENTS {
        let parent = draws.below(PARENTS as u64) as usize;
        let (load, rules, boxes) = &mut loads[parent];
        let numbered = |n: i64| if twice { n / 2 } else { n };
        let call = match load.next() {
            Some(LoadCall::AppendBox(n)) => {
                // "no box number is appended while its spent count is above 0"
                if *boxes == limit || rules.spent.contains(&numbered(n.0)) {
                    continue;
                }
                *boxes += 1;
                Call::Box(numbered(n.0))
            }
            Some(LoadCall::AppendTx(n)) => Call::Tx(n.0),
            Some(LoadCall::Spend(n)) => {
                rules.spent.push(numbered(n.0));
                Call::Spend(numbered(n.0))
            }
            _ => {
                let kind = draws.below(TOKENS.into()) as u8;
                let (nanos, amount) = (draws.below(3_000_000_000) as i64, draws.below(1000) as i64 + 1);
                let held = &mut rules.tokens[usize::from(kind)];
                let token = |amount| Token { id: [kind; 32], amount };
                if draws.below(2) == 0 || *held == 0 {
                    rules.nanos += nanos;
                    *held += amount;
                    Call::Credit(nanos, token(amount))
                } else {
                    let (nanos, amount) = (nanos.min(rules.nanos), amount.min(*held));
                    rules.nanos -= nanos;
                    *held -= amount;
                    Call::Debit(nanos, token(amount))
                }
            }
        };
        all.push((parent, call));
    }
    Ok(all)
}

#[derive(Clone)]
struct Server<E: Edition> {
    accounts: Vec<(Segment, Balance)>,
    staged: StagedSpills<E>,
    table: SegmentTable<E>,
    deleted: DeletedSpills,
    standing: Vec<(usize, Call)>,
    made: usize,
}

impl<E: Edition> Server<E> {
    fn new(edition: E, rows: usize) -> Self {
        Server {
            accounts: (0..PARENTS).map(|parent| (Segment::new([parent as u8; 32]), Balance::new())).collect(),
            staged: StagedSpills::in_edition(edition, rows),
            table: SegmentTable::in_edition(edition, rows),
            deleted: DeletedSpills::with_capacity(rows),
            standing: Vec::new(),
            made: 0,
        }
    }

    fn call(&mut self, parent: usize, call: Call) -> Result<(), Refusal> {
        let (segment, balance) = &mut self.accounts[parent];
        self.made += 1;
        match call {
            Call::Box(n) => segment.append_box_entry(BoxNumber(n), &mut self.staged)?,
            Call::Tx(n) => segment.append_tx_entry(TxNumber(n), &mut self.staged)?,
            Call::Spend(n) => segment.flip_box_segment_entry(BoxNumber(n), &mut self.staged, &self.table)?,
            Call::Credit(nanos, token) => balance.add_box(nanos, &[token])?,
            Call::Debit(nanos, token) => balance.subtract_box(nanos, &[token])?,
        }
        self.standing.push((parent, call));
        Ok(())
    }

    /// Undoes the newest standing call, which is answered.
    fn undo(&mut self) -> Result<Option<(usize, Call)>, Refusal> {
        let Some(&(parent, call)) = self.standing.last() else { return Ok(None) };
        let (segment, balance) = &mut self.accounts[parent];
        self.made += 1;
        match call {
            Call::Box(n) => assert_eq!(segment.pop_box_entry(&mut self.staged, &self.table, &mut self.deleted)?, BoxEntry(n)),
            Call::Tx(n) => assert_eq!(segment.pop_tx_entry(&mut self.staged, &self.table, &mut self.deleted)?, TxNumber(n)),
            Call::Spend(n) => segment.unflip_box_segment_entry(BoxNumber(n), &mut self.staged, &self.table)?,
            Call::Credit(nanos, token) => balance.subtract_box(nanos, &[token])?,
            Call::Debit(nanos, token) => balance.add_box(nanos, &[token])?,
        }
        self.standing.pop();
        Ok(Some((parent, call)))
    }

    fn flush(&mut self) -> Result<(), Refusal> {
        self.made += 1;
        flush_staged_spills(&mut self.staged, &mut self.table, &mut self.deleted)
    }

    /// A box number that no box of the parent is above.
    fn next_box(&self, parent: usize) -> i64 {
        let numbers = self.standing.iter().filter_map(|(whose, call)| if let Call::Box(n) = call { (*whose == parent).then_some(*n) } else { None });
        numbers.max().map_or(0, |n| n + 1)
    }

    fn drawn(&self, draws: &mut Draws) -> (usize, Call) {
        let parent = draws.below(PARENTS as u64) as usize;
        let next = self.next_box(parent);
        let call = match draws.below(8) {
            0..=3 => Call::Box(next),
            4 | 5 => Call::Spend(draws.below(next as u64 + 1) as i64),
            6 => Call::Tx(draws.below(100_000) as i64),
            _ => Call::Credit(1, Token { id: [TOKENS + parent as u8; 32], amount: 1 }),
        };
        (parent, call)
    }

    /// Takes back what stands past the first `before` calls, then `back` calls more, which are made again.
    fn take_back(&mut self, before: usize, back: u64) -> Result<(), Refusal> {
        self.flush()?;
        while self.standing.len() > before {
            self.undo()?;
        }
        let mut again = Vec::new();
        for _ in 0..back {
            again.extend(self.undo()?);
        }
        self.flush()?;
        while let Some((parent, call)) = again.pop() {
            self.call(parent, call)?;
        }
        Ok(())
    }

    /// Goes along the main branch with forks and flushes of its own.
    fn follow(&mut self, main: &[(usize, Call)], seed: u64) -> Result<(), Refusal> {
        let mut draws = Draws(Load::new(seed)?);
        for &(parent, call) in main {
            match draws.below(97) {
                0 => {
                    let before = self.standing.len();
                    for _ in 0..draws.below(40) {
                        let (whose, call) = self.drawn(&mut draws);
                        // a branch may be refused what it asks for
                        let _ = self.call(whose, call);
                    }
                    self.take_back(before, draws.below(30))?;
                }
                1..=3 => self.flush()?,
                _ => {}
            }
            // a spend of a number that is spent or was passed over is refused, on both servers
            match self.call(parent, call) {
                Ok(()) | Err(Refusal::NoCopyOfThatSign | Refusal::TargetNotSeen) => {}
                Err(refusal) => return Err(refusal),
            }
        }
        Ok(())
    }

    /// One box more for each parent, taken back: a head of 512 becomes a row.
    fn one_more(&mut self) -> Result<(), Refusal> {
        let before = self.standing.len();
        for parent in 0..PARENTS {
            self.call(parent, Call::Box(self.next_box(parent)))?;
        }
        self.take_back(before, 0)
    }

    /// Each parent's newest box taken back and made again, with all that stands on it: an empty head above a row becomes a head of 512.
    fn newest_again(&mut self) -> Result<(), Refusal> {
        let newest = |parent| self.standing.iter().rposition(|(whose, call)| *whose == parent && matches!(call, Call::Box(_)));
        let oldest = (0..PARENTS).filter_map(newest).min().unwrap_or(self.standing.len());
        self.take_back(self.standing.len(), (self.standing.len() - oldest) as u64)
    }

    /// A parent's entries, signed, the oldest first: a copy of the server is popped empty.
    fn entries(&self, parent: usize, pop: impl Fn(&mut Server<E>, usize) -> Result<i64, Refusal>) -> Result<Vec<i64>, Refusal> {
        let mut copy = self.clone();
        let mut all = Vec::new();
        copy.flush()?;
        loop {
            match pop(&mut copy, parent) {
                Ok(n) => all.push(n),
                Err(Refusal::NothingToPop) => break,
                Err(refusal) => return Err(refusal),
            }
        }
        all.reverse();
        Ok(all)
    }

    fn box_entries(&self, parent: usize) -> Result<Vec<i64>, Refusal> {
        self.entries(parent, |s, p| s.accounts[p].0.pop_box_entry(&mut s.staged, &s.table, &mut s.deleted).map(|n| n.0))
    }

    fn tx_entries(&self, parent: usize) -> Result<Vec<i64>, Refusal> {
        self.entries(parent, |s, p| s.accounts[p].0.pop_tx_entry(&mut s.staged, &s.table, &mut s.deleted).map(|n| n.0))
    }

    /// Every answer of a parent, in bytes; signed entries only where no number above 0 stands twice.
    fn answers(&self, parent: usize) -> Result<Vec<Vec<u8>>, Refusal> {
        let bytes = |numbers: &mut dyn Iterator<Item = i64>| numbers.flat_map(i64::to_be_bytes).collect::<Vec<u8>>();
        let (segment, balance) = &self.accounts[parent];
        let (boxes, txs) = (self.box_entries(parent)?, self.tx_entries(parent)?);
        let mut all = vec![bytes(&mut boxes.iter().map(|n| n.abs())), bytes(&mut txs.iter().map(|n| n.abs()))];
        let mut spent: Vec<i64> = boxes.iter().copied().filter(|n| *n < 0).collect();
        spent.sort_unstable();
        all.push(bytes(&mut spent.into_iter()));
        if boxes.windows(2).all(|pair| pair[0] == 0 || pair[0].abs() != pair[1].abs()) {
            all.push(bytes(&mut boxes.iter().copied()));
        }
        let tally = segment.tally(&self.staged, &self.table)?;
        all.push([tally.unspent, tally.spent, tally.unknown].iter().flat_map(|n| n.to_be_bytes()).collect());
        for id in 0..TOKENS + PARENTS as u8 {
            all.push(bytes(&mut balance.amount_of(&[id; 32]).into_iter()));
        }
        all.push(bytes(&mut [balance.nano_ergs(), statement_milli_ergs(balance.nano_ergs())].into_iter()));
        let pages = (0..boxes.len() + 1).step_by(PAGE_LENGTH).map(|offset| (offset, PAGE_LENGTH));
        for (offset, length) in pages.chain([(1, 1), (7, 63), (boxes.len(), 5)]) {
            all.push(bytes(&mut segment.unspent_page(offset, length, &self.staged, &self.table)?.into_iter().map(|n| n.0)));
        }
        Ok(all)
    }
}

#[derive(Default)]
struct Seen {
    parents: usize,
    divided: usize,
    made: usize,
    compared: usize,
    differences: usize,
}

impl Seen {
    fn history(&mut self, seed: u64, calls: usize) -> Result<(), Refusal> {
        // every third history has box numbers in pairs, every other ends with a head that is full
        let (twice, limit) = (seed % 3 == 0, if seed % 2 == 0 { 2 * SEGMENT_THRESHOLD } else { usize::MAX });
        let main = main_branch(seed, calls, twice, limit)?;
        let (mut first, mut second) = (Server::new(First, 32), Server::new(Second, 24));
        first.follow(&main, seed + 17)?;
        second.follow(&main, seed + 1717)?;
        first.one_more()?;
        second.newest_again()?;
        self.made += first.made + second.made;
        if first.standing != second.standing {
            println!("history {seed}: the standing calls differ");
            self.differences += 1;
        }
        for parent in 0..PARENTS {
            let heads = (&first.accounts[parent].0, &second.accounts[parent].0);
            self.divided += usize::from(heads.0.box_spills() != heads.1.box_spills() || heads.0.tx_spills() != heads.1.tx_spills());
            let (ours, theirs) = (first.answers(parent)?, second.answers(parent)?);
            self.parents += 1;
            self.compared += ours.len();
            let differ = ours.iter().zip(&theirs).filter(|(a, b)| a != b).count() + ours.len().abs_diff(theirs.len());
            if differ > 0 {
                println!("history {seed}, parent {parent}: {differ} answers differ");
            }
            self.differences += differ;
        }
        Ok(())
    }
}

fn main() -> ExitCode {
    let mut words = std::env::args().skip(1);
    let mut word = |other: usize| words.next().map_or(Some(other), |text| text.parse().ok());
    let (Some(histories), Some(calls)) = (word(24), word(3000)) else {
        eprintln!("usage: copies [HISTORIES [CALLS]]");
        return ExitCode::from(2);
    };
    let mut seen = Seen::default();
    for seed in 1..=histories as u64 {
        if let Err(refusal) = seen.history(seed, calls) {
            println!("history {seed}: {refusal}");
            return ExitCode::from(1);
        }
    }
    println!(
        "{histories} histories, {} parents, {} of them divided otherwise between head and rows, {} calls, undos and flushes; {} answers compared, {} differences",
        seen.parents, seen.divided, seen.made, seen.compared, seen.differences
    );
    ExitCode::from(u8::from(seen.differences > 0))
}
