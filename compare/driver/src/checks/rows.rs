//! Segment rows, written and read.

use reference::calls;
use reference::segment::Segment;

use super::{damage, padded, strings, Size};
use crate::codes::of_read;
use crate::index::{write_segment, ReadLists, ROW_LIMIT};
use crate::random::Random;
use crate::report::{hex, shrink, Report};

/// The reference's answer for a whole row, as its readers of stored rows give it: bytes left over are 8.
pub fn of_reference(row: &[u8]) -> Result<Segment, u8> {
    match calls::read_persisted_segment(row) {
        Ok((segment, taken)) if taken == row.len() => Ok(segment),
        Ok(_) => Err(8),
        Err(e) => Err(of_read(&e)),
    }
}

/// The code on which both sides agree; a named difference, or the two answers.
fn compare(row: &[u8], lists: &mut ReadLists) -> Result<u8, Result<&'static str, String>> {
    let ours = lists.read_segment(row);
    if ours == 25 && row.len() > ROW_LIMIT {
        return Err(Ok("segment row: 25, above 10,254 bytes"));
    }
    match (ours == 34, padded::row(row)) {
        (true, true) => return Err(Ok(padded::NAME)),
        (false, false) => {}
        (_, padded) => return Err(Err(format!("{ours}, padded: {padded}"))),
    }
    match of_reference(row) {
        Ok(segment) if ours == 0 && lists.holds(&segment) => Ok(0),
        Err(code) if ours == code => Ok(code),
        theirs => Err(Err(format!("{ours}, the reference {:?}", theirs.map(|_| "accepts")))),
    }
}

fn read(row: &[u8], lists: &mut ReadLists, report: &mut Report) {
    report.call("read_persisted_segment");
    match compare(row, lists) {
        Ok(0) => {}
        Ok(code) => report.refused("read_persisted_segment", code),
        Err(Ok(name)) => report.named(name),
        Err(Err(_)) if !report.wants("read_persisted_segment") => {}
        Err(Err(_)) => {
            let unlisted = |row: &[u8]| compare(row, &mut ReadLists::default()).err().and_then(Result::err);
            let small = shrink(row, |r| unlisted(r).is_some());
            report.difference(
                "read_persisted_segment",
                format!("{}: {}", hex(&small), unlisted(&small).unwrap_or_default()),
            );
        }
    }
}

fn write(segment: &Segment, random: &mut Random, report: &mut Report) -> Vec<u8> {
    report.call("write_segment");
    let theirs = calls::write_segment(segment);
    let room = match random.below(8) {
        0 => theirs.len(),
        1 => theirs.len().saturating_sub(1 + random.index(3)),
        _ => ROW_LIMIT + 8,
    };
    let mut out = vec![0xa5; room];
    match write_segment(segment, &mut out) {
        Ok(taken) if out[..taken] == theirs => {}
        Err(25) if segment.txs.len() > 512 || segment.boxes.len() > 512 => {
            report.named("segment row: 25, a list above 512 numbers")
        }
        Err(32) if room < theirs.len() => report.named("writers: 32, the output is too short"),
        ours => report.difference("write_segment", format!("{segment:?}: {ours:?}")),
    }
    theirs
}

/// A list around a boundary of its length, its numbers of one size or of all.
fn numbers(random: &mut Random) -> Vec<i64> {
    let length = match random.below(12) {
        0 => random.pick(&[510, 511, 512, 512, 513]),
        1 => random.index(520),
        _ => random.index(8),
    };
    match random.below(4) {
        0 => vec![random.long(); length],
        1 => (0..length).map(|_| -random.long().saturating_abs()).collect(),
        _ => (0..length).map(|_| random.long()).collect(),
    }
}

pub fn segment(random: &mut Random) -> Segment {
    let count = |random: &mut Random| {
        if random.once_in(3) {
            random.int()
        } else {
            random.int() & i32::MAX
        }
    };
    Segment {
        txs: numbers(random),
        boxes: numbers(random),
        box_segment_count: count(random),
        tx_segment_count: count(random),
    }
}

/// A row of ten-byte numbers, so that it stands around the limit of 10,254 bytes; bytes left over put it above.
pub fn long(random: &mut Random) -> Vec<u8> {
    let numbers = |random: &mut Random| {
        let ten = |random: &mut Random| (1 << 62) | (random.word() >> 2) as i64;
        (0..512)
            .map(|_| if random.once_in(2) { !ten(random) } else { ten(random) })
            .collect()
    };
    let mut row = calls::write_segment(&Segment {
        txs: numbers(random),
        boxes: numbers(random),
        box_segment_count: random.int() & i32::MAX,
        tx_segment_count: random.int() & i32::MAX,
    });
    row.extend(vec![0; random.index(3)]);
    row
}

pub fn run(size: Size, report: &mut Report) {
    report.phase("segment rows");
    let mut lists = ReadLists::default();
    for length in 0..=size.whole {
        for row in strings(length) {
            read(&row, &mut lists, report);
        }
    }
    // all rows of four to six bytes over a few bytes that matter
    let bytes = [0u8, 1, 2, 3, 4, 0x7f, 0x80, 0x81, 0xff];
    for length in 4..=size.whole + 3 {
        let mut row = vec![0; length];
        for n in 0..9u64.pow(length as u32) {
            let mut rest = n;
            for b in &mut row {
                *b = bytes[(rest % 9) as usize];
                rest /= 9;
            }
            read(&row, &mut lists, report);
        }
    }
    let mut random = Random::new(2);
    for i in 0..size.some {
        let segment = segment(&mut random);
        let mut row = write(&segment, &mut random, report);
        read(&row, &mut lists, report);
        for _ in 0..3 {
            damage(&mut row, &mut random);
            read(&row, &mut lists, report);
        }
        if i % 16 == 0 {
            read(&long(&mut random), &mut lists, report);
        }
        report.progress(i, size.some);
    }
}
