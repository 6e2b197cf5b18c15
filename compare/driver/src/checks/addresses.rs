//! Address records, written and read.

use reference::address::{BalanceInfo, IndexedAddress};
use reference::{calls, Digest32, VlqReader};

use super::{damage, padded, rows, strings, Size};
use crate::codes::of_read;
use crate::ffi::*;
use crate::index::{Balance, ReadLists, ADDRESS_LIMIT, TOKENS};
use crate::random::Random;
use crate::report::{hex, shrink, Report};

/// Where a record is read to.
#[derive(Default)]
struct ReadAddress {
    hash: [u8; 32],
    has_balance: bool,
    balance: Balance,
    lists: ReadLists,
}

impl ReadAddress {
    fn read(&mut self, row: &[u8]) -> u8 {
        let (b, l) = (&mut self.balance, &mut self.lists);
        unsafe {
            ergo_index_read_indexed_address(
                row.as_ptr(),
                row.len(),
                self.hash.as_mut_ptr(),
                &mut self.has_balance,
                b.ids.as_mut_ptr(),
                b.amounts.as_mut_ptr(),
                &mut b.count,
                &mut b.nanos,
                l.txs.as_mut_ptr(),
                l.txs.len(),
                &mut l.n_txs,
                l.boxes.as_mut_ptr(),
                l.boxes.len(),
                &mut l.n_boxes,
                &mut l.box_segment_count,
                &mut l.tx_segment_count,
            )
        }
    }

    fn holds(&self, address: &IndexedAddress) -> bool {
        let held = match &address.balance {
            Some(balance) => {
                let tokens = balance.tokens.iter().map(|(id, amount)| (id.as_bytes().as_slice(), *amount));
                self.has_balance && self.balance.nanos == balance.nano_ergs && self.balance.tokens().eq(tokens)
            }
            None => !self.has_balance,
        };
        held && self.hash == *address.tree_hash.as_bytes() && self.lists.holds(&address.segment)
    }
}

/// Whether a record states more than 128 tokens, and as many as the bytes left may hold.
fn states_too_many_tokens(row: &[u8]) -> bool {
    let mut reader = VlqReader::new(row);
    let mut count = || {
        reader.get_bytes(32).ok()?;
        (reader.get_u8().ok()? == 1).then_some(())?;
        reader.get_i64().ok()?;
        let count = usize::try_from(reader.get_i32().ok()?).ok()?;
        (count <= reader.remaining() / 33).then_some(count)
    };
    count().is_some_and(|n| n > TOKENS)
}

/// The code on which both sides agree; a named difference, or the two answers.
fn compare(row: &[u8], read: &mut ReadAddress) -> Result<u8, Result<&'static str, String>> {
    let ours = read.read(row);
    let theirs = calls::read_indexed_address(row).map_err(|e| of_read(&e));
    match (ours, theirs) {
        (25, _) if row.len() > ADDRESS_LIMIT => Err(Ok("address record: 25, above 15,675 bytes")),
        (34, _) if padded::record(row) => Err(Ok(padded::NAME)),
        (_, _) if padded::record(row) => Err(Err(format!("{ours}, though a number is padded"))),
        (24, _) if states_too_many_tokens(row) => Err(Ok("address record: 24, more than 128 tokens")),
        (8, Ok((_, taken))) if taken < row.len() => Err(Ok("address record: 8, bytes are left over")),
        (0, Ok((address, taken))) if taken == row.len() && read.holds(&address) => Ok(0),
        (code, Err(same)) if code == same => Ok(code),
        (_, theirs) => Err(Err(format!("{ours}, the reference {:?}", theirs.map(|(_, taken)| taken)))),
    }
}

fn read(row: &[u8], to: &mut ReadAddress, report: &mut Report) {
    report.call("read_indexed_address");
    match compare(row, to) {
        Ok(0) => {}
        Ok(code) => report.refused("read_indexed_address", code),
        Err(Ok(name)) => report.named(name),
        Err(Err(_)) if !report.wants("read_indexed_address") => {}
        Err(Err(_)) => {
            let unlisted = |row: &[u8]| compare(row, &mut ReadAddress::default()).err().and_then(Result::err);
            let small = shrink(row, |r| unlisted(r).is_some());
            report.difference(
                "read_indexed_address",
                format!("{}: {}", hex(&small), unlisted(&small).unwrap_or_default()),
            );
        }
    }
}

fn write(address: &IndexedAddress, random: &mut Random, report: &mut Report) -> Vec<u8> {
    report.call("write_indexed_address");
    let theirs = calls::write_indexed_address(address);
    let mut balance = Balance::default();
    let mut count = 0;
    if let Some(held) = &address.balance {
        balance.nanos = held.nano_ergs;
        count = held.tokens.len();
        for (i, (id, amount)) in held.tokens.iter().take(TOKENS).enumerate() {
            balance.ids[32 * i..32 * i + 32].copy_from_slice(id.as_bytes());
            balance.amounts[i] = *amount;
        }
    }
    let room = match random.below(8) {
        0 => theirs.len(),
        1 => theirs.len() - 1 - random.index(3),
        _ => ADDRESS_LIMIT + 8,
    };
    let (mut out, mut at) = (vec![0xa5; room], 0);
    let s = &address.segment;
    let code = unsafe {
        ergo_index_write_indexed_address(
            address.tree_hash.as_bytes().as_ptr(),
            address.balance.is_some(),
            balance.ids.as_ptr(),
            balance.amounts.as_ptr(),
            count,
            balance.nanos,
            s.txs.as_ptr(),
            s.txs.len(),
            s.txs.len(),
            s.boxes.as_ptr(),
            s.boxes.len(),
            s.boxes.len(),
            s.box_segment_count,
            s.tx_segment_count,
            out.as_mut_ptr(),
            out.len(),
            &mut at,
        )
    };
    match code {
        0 if out[..at] == theirs => {}
        25 if count > TOKENS => report.named("address record: 25, a balance above 128 tokens"),
        25 if s.txs.len() > 512 || s.boxes.len() > 512 => report.named("segment row: 25, a list above 512 numbers"),
        32 if room < theirs.len() => report.named("writers: 32, the output is too short"),
        _ => report.difference("write_indexed_address", format!("{address:?}: {code}")),
    }
    theirs
}

fn address(random: &mut Random) -> IndexedAddress {
    let balance = (!random.once_in(4)).then(|| {
        let count = match random.below(10) {
            0 => 126 + random.index(6),
            1 => random.index(128),
            _ => random.index(5),
        };
        let tokens = (0..count)
            .map(|_| (Digest32::from_bytes(random.bytes()), random.long()))
            .collect();
        BalanceInfo {
            nano_ergs: random.long(),
            tokens,
        }
    });
    IndexedAddress {
        tree_hash: Digest32::from_bytes(random.bytes()),
        balance,
        segment: rows::segment(random),
    }
}

/// A record of 128 tokens with numbers of ten bytes, so that it stands around the limit of 15,675 bytes.
fn long(random: &mut Random) -> Vec<u8> {
    let mut record = vec![0x5a; 32];
    record.push(1);
    record.extend([0x80; 9]);
    record.extend([1, 0x80, 0x02]);
    for _ in 0..TOKENS {
        record.extend(random.bytes::<32>());
        record.extend([0x80; 9]);
        record.push(1);
    }
    record.extend(rows::long(random));
    record
}

pub fn run(size: Size, report: &mut Report) {
    report.phase("address records");
    let mut to = ReadAddress::default();
    // everything short behind a hash; without a balance, with one of no token, and with a token count
    for front in [&[][..], &[0], &[1], &[1, 0], &[1, 0, 0], &[1, 0, 2]] {
        for length in 0..=2 {
            for rest in strings(length) {
                let mut row = vec![0x5a; 32];
                row.extend_from_slice(front);
                row.extend(rest);
                read(&row, &mut to, report);
            }
        }
    }
    for length in 0..40 {
        read(&vec![0; length], &mut to, report);
    }
    let mut random = Random::new(6);
    for i in 0..size.some {
        let mut row = write(&address(&mut random), &mut random, report);
        read(&row, &mut to, report);
        for _ in 0..3 {
            if row.len() > 33 && random.once_in(2) {
                // damage behind the hash, where the fields are
                let mut rest = row.split_off(32);
                damage(&mut rest, &mut random);
                row.extend(rest);
            } else {
                damage(&mut row, &mut random);
            }
            read(&row, &mut to, report);
        }
        if i % 32 == 0 {
            read(&long(&mut random), &mut to, report);
        }
        report.progress(i, size.some);
    }
}
