//! Undo entries and pruning.

use reference::calls::UndoTable;
use reference::store::undo::UndoEntry;
use reference::Digest32;

use super::{damage, strings, Size};
use crate::codes::of_error;
use crate::ffi::*;
use crate::random::Random;
use crate::report::{hex, shrink, Report};

/// Header id if known, and the two numbers.
type Entry = (Option<[u8; 32]>, u64, u64);

fn decoded(bytes: &[u8]) -> (Result<Entry, u8>, Result<Entry, u8>) {
    let (mut known, mut header, mut txs, mut boxes) = (false, [0; 32], 0, 0);
    let code = unsafe {
        ergo_index_decode_undo_entry(
            bytes.as_ptr(),
            bytes.len(),
            &mut known,
            header.as_mut_ptr(),
            &mut txs,
            &mut boxes,
        )
    };
    let ours = match code {
        0 => Ok((known.then_some(header), txs, boxes)),
        refused => Err(refused),
    };
    let theirs = UndoEntry::decode(bytes)
        .map(|e| {
            (
                e.prev_indexed_header_id.map(|id| *id.as_bytes()),
                e.prev_global_tx_index,
                e.prev_global_box_index,
            )
        })
        .map_err(|e| of_error(&e, true));
    (ours, theirs)
}

fn decode(bytes: &[u8], report: &mut Report) {
    report.call("UndoEntry::decode");
    let (ours, theirs) = decoded(bytes);
    if let Err(code) = ours {
        report.refused("UndoEntry::decode", code);
    }
    if ours != theirs && report.wants("UndoEntry::decode") {
        let small = shrink(bytes, |b| decoded(b).0 != decoded(b).1);
        report.difference("UndoEntry::decode", format!("{}: {:?}", hex(&small), decoded(&small)));
    }
}

fn encode((header, txs, boxes): Entry, room: usize, report: &mut Report) -> Vec<u8> {
    report.call("UndoEntry::encode");
    let theirs = UndoEntry {
        prev_indexed_header_id: header.map(Digest32::from_bytes),
        prev_global_tx_index: txs,
        prev_global_box_index: boxes,
    }
    .encode();
    let (mut out, mut written) = (vec![0xa5; room], 0);
    let id = header.unwrap_or_default();
    let code = unsafe {
        ergo_index_encode_undo_entry(
            header.is_some(),
            id.as_ptr(),
            txs,
            boxes,
            out.as_mut_ptr(),
            out.len(),
            &mut written,
        )
    };
    match code {
        0 if out[..written] == theirs => {}
        32 if room < theirs.len() => report.named("writers: 32, the output is too short"),
        _ => report.difference("UndoEntry::encode", format!("{header:?} {txs} {boxes}: {code} {}", hex(&out))),
    }
    theirs
}

/// On named windows only: the default of the index is another than the reference's.
fn prune(heights: &[u64], current: u64, window: Option<u64>, report: &mut Report) {
    let Some(window) = window else { return };
    report.call("prune_below_window");
    let mut kept = heights.to_vec();
    let mut count = heights.len();
    let code = unsafe {
        ergo_index_prune_below_window(
            kept.as_mut_ptr(),
            kept.len(),
            &mut count,
            heights.len(),
            current,
            true,
            window,
        )
    };
    let theirs = UndoTable::new(heights).prune(current, window);
    if code != 0 || kept[..count] != theirs {
        report.difference(
            "prune_below_window",
            format!("{heights:?} {current} {window:?}: {code} {:?}", &kept[..count]),
        );
    }
}

pub fn run(size: Size, report: &mut Report) {
    report.phase("undo entries and pruning");
    for length in 0..=size.whole.min(2) {
        for bytes in strings(length) {
            decode(&bytes, report);
        }
    }
    for tag in 0..=255u8 {
        for length in 0..70 {
            let mut bytes = vec![0xa5; length + 1];
            bytes[0] = tag;
            decode(&bytes, report);
        }
    }
    let mut random = Random::new(4);
    for i in 0..size.many / 2 {
        let header = (!random.once_in(2)).then(|| random.bytes());
        let entry = (header, random.long() as u64, random.long() as u64);
        let room = if random.once_in(4) { random.index(52) } else { 64 };
        let mut bytes = encode(entry, room, report);
        decode(&bytes, report);
        damage(&mut bytes, &mut random);
        decode(&bytes, report);
        report.progress(i, size.many);
    }
    for i in 0..size.some {
        let mut heights: Vec<u64> = (0..random.below(12)).map(|_| random.below(460)).collect();
        if random.once_in(8) {
            heights.push(random.word());
            heights.push(u64::MAX);
        }
        heights.sort();
        heights.dedup();
        let current = if random.once_in(8) {
            random.long() as u64
        } else {
            random.below(460)
        };
        let window = match random.below(4) {
            0 => None,
            1 => Some(random.long() as u64),
            2 => Some(current.wrapping_add(random.below(3)).wrapping_sub(1)),
            _ => Some(random.below(460)),
        };
        prune(&heights, current, window, report);
        report.progress(i, size.some);
    }
}
