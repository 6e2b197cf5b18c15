//! The accounts of two servers in one sequence.
//!
//! ```text
//! sorted_accounts [ACCOUNTS [CALLS]]
//! ```
//!
//! Two servers make the same CALLS calls of a load for each of ACCOUNTS accounts; the first has rows of edition 1, the second rows of edition 2. The second
//! leaves the last calls of every third account out. All accounts of both are put into their order, so that equal ones stand beside each other. A line for each:
//! `=` where the account is equal to the one before, the server, the hash's first bytes, nanoErgs, tokens, boxes and transactions of rows and head.
use ergo_index::*;
use std::cmp::Ordering;

struct Account<E> {
    segment: Segment,
    balance: Balance,
    staged: StagedSpills<E>,
    table: SegmentTable<E>,
    held: [usize; 2],
}

fn account<E: Edition>(edition: E, n: u64, calls: usize) -> Result<Account<E>, Refusal> {
    let rows = calls / SEGMENT_THRESHOLD + 1;
    let mut a = Account {
        segment: Segment::new(blake2b256(&n.to_be_bytes())),
        balance: Balance::new(),
        staged: StagedSpills::in_edition(edition, rows),
        table: SegmentTable::in_edition(edition, rows),
        held: [0, 0],
    };
    for call in Load::new(n + 1)?.take(calls) {
        match call {
            LoadCall::AppendBox(number) => {
                a.segment.append_box_entry(number, &mut a.staged)?;
                a.balance.add_box(number.0, &[Token { id: [n as u8; 32], amount: 1 }])?;
                a.held[0] += 1;
            }
            LoadCall::AppendTx(number) => {
                a.segment.append_tx_entry(number, &mut a.staged)?;
                a.held[1] += 1;
            }
            // a load may spend a box twice
            LoadCall::Spend(number) => {
                let _ = a.segment.flip_box_segment_entry(number, &mut a.staged, &a.table);
            }
            LoadCall::Flush => {
                flush_staged_spills(&mut a.staged, &mut a.table, &mut DeletedSpills::with_capacity(0))?;
            }
        }
    }
    Ok(a)
}

fn line(server: usize, segment: &Segment, balance: &Balance, held: [usize; 2]) -> String {
    let hash: String = segment.parent()[..4].iter().map(|byte| format!("{byte:02x}")).collect();
    format!("server {server}  {hash}..  {} nanoErgs  {} tokens  {} boxes  {} transactions", balance.nano_ergs(), balance.len(), held[0], held[1])
}

fn main() -> Result<(), Refusal> {
    let mut arguments = std::env::args().skip(1).map(|word| word.parse().expect("a number"));
    let accounts: u64 = arguments.next().unwrap_or(6);
    let calls = arguments.next().unwrap_or(2000) as usize;
    let mut first = Vec::new();
    let mut second = Vec::new();
    for n in 0..accounts {
        first.push(account(First, n, calls)?);
        second.push(account(Second, n, if n % 3 == 2 { calls - calls / 10 } else { calls })?);
    }
    let mut all = Vec::new();
    for a in &first {
        all.push((Address::new(&a.segment, Some(&a.balance), &a.staged, &a.table), line(1, &a.segment, &a.balance, a.held)));
    }
    for a in &second {
        all.push((Address::new(&a.segment, Some(&a.balance), &a.staged, &a.table), line(2, &a.segment, &a.balance, a.held)));
    }
    for (address, _) in &all {
        address.check()?;
    }
    all.sort_by(|(a, _), (b, _)| a.rank(b).expect("both addresses passed their check"));
    let mut equal = 0;
    for (i, (address, line)) in all.iter().enumerate() {
        let same = i > 0 && all[i - 1].0.rank(address)? == Ordering::Equal;
        equal += usize::from(same);
        println!("{} {line}", if same { '=' } else { ' ' });
    }
    println!("{} accounts, {equal} pairs equal", all.len());
    Ok(())
}
