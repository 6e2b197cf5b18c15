//! Turns a stored segments table, a file of records, from one edition into the other.
//!
//! ```text
//! convert second TABLE PARENTS OUT   from edition 1 to edition 2
//! convert first TABLE OUT            from edition 2 to edition 1
//! convert sample TABLE PARENTS       writes a table of edition 1 and its parents, to try the other two on
//! ```
//!
//! PARENTS has a line for each parent: its id in hex, how many rows of boxes and how many rows of transactions it has spilled. OUT is written whole or not at
//! all; the table's file stays.

use std::error::Error;
use std::{env, fs};

use ergo_index::*;

type Failure = Box<dyn Error>;

fn read_table<E: Edition>(edition: E, path: &str) -> Result<SegmentTable<E>, Failure> {
    let bytes = fs::read(path)?;
    if bytes.len() % E::RECORD_SIZE != 0 {
        return Err(format!("{path}: {} bytes are not whole records of {}", bytes.len(), E::RECORD_SIZE).into());
    }
    let records = bytes.len() / E::RECORD_SIZE;
    Ok(SegmentTable::from_bytes_in_edition(edition, bytes, records))
}

fn read_parent(line: &str) -> Option<Vec<SpillId>> {
    let mut fields = line.split_whitespace();
    let (hex, boxes, txs) = (fields.next()?, fields.next()?.parse().ok()?, fields.next()?.parse().ok()?);
    if hex.len() != 64 || fields.next().is_some() {
        return None;
    }
    let mut parent = [0; 32];
    for (byte, digits) in parent.iter_mut().zip(hex.as_bytes().chunks(2)) {
        *byte = u8::from_str_radix(std::str::from_utf8(digits).ok()?, 16).ok()?;
    }
    let of = |kind, spills: i32| (0..spills).map(move |number| SpillId { parent, kind, number });
    Some(of(RowKind::Boxes, boxes).chain(of(RowKind::Txs, txs)).collect())
}

fn read_parents(path: &str) -> Result<Vec<SpillId>, Failure> {
    let mut spills = Vec::new();
    for (at, line) in fs::read_to_string(path)?.lines().enumerate() {
        spills.extend(read_parent(line).ok_or_else(|| format!("{path}:{}: an id of 64 hex digits and two spill counts", at + 1))?);
    }
    Ok(spills)
}

/// Two parents with five rows between them, some of whose boxes are spent.
fn sample(table: &str, parents: &str) -> Result<(), Failure> {
    let (mut staged, mut rows) = (StagedSpills::with_capacity(5), SegmentTable::with_capacity(5));
    let mut lines = String::new();
    for (id, boxes, txs) in [(7, 1200, 600), (8, 700, 513)] {
        let mut segment = Segment::new([id; 32]);
        for n in 1..=boxes {
            segment.append_box_entry(BoxNumber(n), &mut staged)?;
        }
        for n in 1..=txs {
            segment.append_tx_entry(TxNumber(n), &mut staged)?;
        }
        for n in (1..=boxes).step_by(100) {
            segment.flip_box_segment_entry(BoxNumber(n), &mut staged, &rows)?;
        }
        lines += &format!("{} {} {}\n", format!("{id:02x}").repeat(32), segment.box_spills(), segment.tx_spills());
    }
    flush_staged_spills(&mut staged, &mut rows, &mut DeletedSpills::with_capacity(0))?;
    fs::write(table, rows.as_bytes())?;
    Ok(fs::write(parents, lines)?)
}

fn main() -> Result<(), Failure> {
    let words: Vec<String> = env::args().skip(1).collect();
    let words: Vec<&str> = words.iter().map(String::as_str).collect();
    match words[..] {
        ["second", table, parents, out] => {
            let second = read_table(First, table)?.to_second(read_parents(parents)?)?;
            fs::write(out, second.as_bytes())?;
            println!("{} rows of edition 2: {out}", second.len());
        }
        ["first", table, out] => {
            let first = read_table(Second, table)?.to_first()?;
            fs::write(out, first.as_bytes())?;
            println!("{} rows of edition 1: {out}", first.len());
        }
        ["sample", table, parents] => sample(table, parents)?,
        _ => return Err("convert second TABLE PARENTS OUT | convert first TABLE OUT | convert sample TABLE PARENTS".into()),
    }
    Ok(())
}
