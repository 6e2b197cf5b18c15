//! Coded numbers of both widths, and the milliErgs of a statement.

use reference::{VlqReader, VlqWriter};

use super::padded::{self, NAME as PADDED};
use super::{strings, Size};
use crate::codes::of_read;
use crate::ffi::*;
use crate::random::Random;
use crate::report::{hex, shrink, Report};

/// How each side reads at a position: the number and the next position, or the code.
type Read = Result<(i64, usize), u8>;

/// What reads at a position on both sides, and what tells that the number there is padded.
type Width = (&'static str, fn(&[u8], usize) -> (Read, Read), fn(&[u8], usize) -> bool);

fn long(bytes: &[u8], from: usize) -> (Read, Read) {
    let (mut at, mut n) = (from, 0);
    let code = unsafe { ergo_index_get_i64(bytes.as_ptr(), bytes.len(), &mut at, &mut n) };
    let ours = if code == 0 { Ok((n, at)) } else { Err(code) };
    let mut reader = VlqReader::new(bytes);
    reader.get_bytes(from).expect("a position inside");
    let theirs = reader.get_i64().map(|n| (n, reader.position())).map_err(|e| of_read(&e));
    (ours, theirs)
}

fn int(bytes: &[u8], from: usize) -> (Read, Read) {
    let (mut at, mut n) = (from, 0);
    let code = unsafe { ergo_index_get_i32(bytes.as_ptr(), bytes.len(), &mut at, &mut n) };
    let ours = if code == 0 { Ok((n.into(), at)) } else { Err(code) };
    let mut reader = VlqReader::new(bytes);
    reader.get_bytes(from).expect("a position inside");
    let theirs = reader
        .get_i32()
        .map(|n| (n.into(), reader.position()))
        .map_err(|e| of_read(&e));
    (ours, theirs)
}

const WIDTHS: [Width; 2] = [("get_i64", long, padded::long), ("get_i32", int, padded::int)];

/// Whether both sides agree, padded numbers apart, which are 34.
fn agree((ours, theirs): (Read, Read), padded: bool) -> bool {
    if padded {
        ours == Err(34)
    } else {
        ours == theirs
    }
}

fn read(bytes: &[u8], from: usize, report: &mut Report) {
    for (name, both, padded) in WIDTHS {
        report.call(name);
        let (ours, theirs) = both(bytes, from);
        if !agree((ours, theirs), padded(bytes, from)) {
            if report.wants(name) {
                let small = shrink(&bytes[from..], |b| !agree(both(b, 0), padded(b, 0)));
                report.difference(name, format!("{}: {:?}", hex(&small), both(&small, 0)));
            }
        } else if padded(bytes, from) {
            report.named(PADDED);
        } else if let Err(code) = ours {
            report.refused(name, code);
        }
    }
}

fn write(n: i64, report: &mut Report) {
    let (mut out, mut at) = ([0u8; 16], 0);
    let mut writer = VlqWriter::new();
    report.call("put_i64");
    let code = unsafe { ergo_index_put_i64(n, out.as_mut_ptr(), out.len(), &mut at) };
    writer.put_i64(n);
    if code != 0 || out[..at] != *writer.as_slice() {
        report.difference("put_i64", format!("{n}: {code} {}", hex(&out[..at])));
    }
    let (mut out, mut at) = ([0u8; 16], 0);
    writer.clear();
    report.call("put_i32");
    let code = unsafe { ergo_index_put_i32(n as i32, out.as_mut_ptr(), out.len(), &mut at) };
    writer.put_i32(n as i32);
    if code != 0 || out[..at] != *writer.as_slice() {
        report.difference("put_i32", format!("{}: {code} {}", n as i32, hex(&out[..at])));
    }
}

fn milli_ergs(n: i64, report: &mut Report) {
    report.call("statement_milli_ergs");
    let ours = unsafe { ergo_index_statement_milli_ergs(n) };
    let formula = (i128::from(n) + 500_000).div_euclid(1_000_000);
    if i128::from(ours) != formula {
        report.difference("statement_milli_ergs", format!("{n}: {ours}, by the formula {formula}"));
    }
}

pub fn run(size: Size, report: &mut Report) {
    report.phase("coded numbers");
    for length in 0..=size.whole {
        for bytes in strings(length) {
            read(&bytes, 0, report);
        }
        report.progress(length as u64, size.whole as u64);
    }
    let mut random = Random::new(1);
    for n in -70_000..70_000 {
        write(n, report);
    }
    for i in 0..size.many {
        let mut bytes = vec![0; random.index(14)];
        for b in &mut bytes {
            *b = match random.below(8) {
                0 => random.word() as u8,
                1 => random.pick(&[0, 1, 2, 3, 0x7f]),
                2 => 0x80,
                _ => random.word() as u8 | 0x80,
            };
        }
        let from = if random.once_in(4) { random.index(bytes.len() + 1) } else { 0 };
        read(&bytes, from, report);
        let n = random.long();
        write(n, report);
        milli_ergs(n, report);
        report.progress(i, size.many);
    }
}
