//! The refusal code of document 01 for an answer of the reference.

use reference::error::{IndexerError, UndoEntryMalformedReason};
use reference::ReadError;

pub fn of_read(error: &ReadError) -> u8 {
    let text = match error {
        ReadError::UnexpectedEnd => return 1,
        ReadError::Overflow => return 2,
        ReadError::InvalidData(text) => text,
    };
    let said = [
        ("spill count is negative", 6),
        ("length is negative", 3),
        ("exceeds remaining input", 5),
        ("exceeds 512", 4),
        ("presence flag", 7),
    ];
    find(text, &said)
}

/// `head_in_order` tells the two places apart that the reference answers alike: 10 is of the head, 13 of a row.
pub fn of_error(error: &IndexerError, head_in_order: bool) -> u8 {
    let text = match error {
        IndexerError::DbDecode { source, .. } => return of_read(source),
        IndexerError::DbRowLength { .. } => return 8,
        IndexerError::CounterRange { .. } => return 18,
        IndexerError::SegmentEntryMissing { .. } => return 15,
        IndexerError::UndoEntryMalformed { reason } => return of_undo(*reason),
        IndexerError::SegmentTopologyError { detail } => detail,
        other => panic!("no code for {other:?}"),
    };
    let said = [
        ("cannot be i64::MIN", 9),
        ("invalid or out of order", if head_in_order { 13 } else { 10 }),
        ("negative box segment count", 11),
        ("missing on disk", 12),
        ("missing during merge-back", 12),
        ("box entries in spill", 13),
        ("double-flip", 14),
        ("on empty segment", 19),
        ("spill was empty", 20),
    ];
    find(text, &said)
}

fn of_undo(reason: UndoEntryMalformedReason) -> u8 {
    match reason {
        UndoEntryMalformedReason::Empty => 26,
        UndoEntryMalformedReason::TruncatedHeaderId => 27,
        UndoEntryMalformedReason::UnknownTag(_) => 28,
        UndoEntryMalformedReason::TruncatedCounters => 29,
        UndoEntryMalformedReason::TrailingBytes { .. } => 30,
    }
}

fn find(text: &str, said: &[(&str, u8)]) -> u8 {
    let code = said.iter().find(|(part, _)| text.contains(part));
    code.unwrap_or_else(|| panic!("no code for {text:?}")).1
}
