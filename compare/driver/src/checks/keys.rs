//! Digests and row keys.

use reference::segment_id::{box_segment_id, tx_segment_id};
use reference::Digest32;

use super::Size;
use crate::index::{blake2b256, row_key, Kind};
use crate::random::Random;
use crate::report::{hex, Report};

fn key(parent: &[u8; 32], number: i32, report: &mut Report) {
    let id = Digest32::from_bytes(*parent);
    for (name, kind, theirs) in [
        ("box_segment_id", Kind::Box, box_segment_id(&id, number)),
        ("tx_segment_id", Kind::Tx, tx_segment_id(&id, number)),
    ] {
        report.call(name);
        let ours = row_key(kind, parent, number);
        if ours != *theirs.as_bytes() {
            report.difference(
                name,
                format!("{} {number}: {}, the reference {theirs:?}", hex(parent), hex(&ours)),
            );
        }
    }
}

fn digest(input: &[u8], report: &mut Report) {
    report.call("blake2b256");
    let (ours, theirs) = (blake2b256(input), reference::blake2b256(input));
    if ours != *theirs.as_bytes() {
        report.difference(
            "blake2b256",
            format!("{}: {}, the reference {theirs:?}", hex(input), hex(&ours)),
        );
    }
}

pub fn run(size: Size, report: &mut Report) {
    report.phase("digests and row keys");
    let mut random = Random::new(3);
    for byte in 0..=255u8 {
        for number in [0, 1, 9, 10, 99, 100, i32::MAX, i32::MIN, -1, -10] {
            key(&[byte; 32], number, report);
        }
    }
    for length in 0..1200 {
        let input: Vec<u8> = (0..length).map(|i| i as u8).collect();
        digest(&input, report);
    }
    let count = size.some;
    for i in 0..count {
        let power = 10i32.pow(random.below(10) as u32).wrapping_add(random.below(3) as i32 - 1);
        let number = match random.below(3) {
            0 => power,
            1 => -power,
            _ => random.word() as i32 >> random.below(32),
        };
        key(&random.bytes(), number, report);
        let length = match random.below(4) {
            0 => random.pick(&[127, 128, 129, 255, 256, 257, 4096]),
            _ => random.index(300),
        };
        let input: Vec<u8> = (0..length).map(|_| random.word() as u8).collect();
        digest(&input, report);
        report.progress(i, count);
    }
}
