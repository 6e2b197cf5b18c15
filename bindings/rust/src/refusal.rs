//! Refusals, by name and by number.

use std::error::Error;
use std::fmt;

/// Why a call was refused. A refused call changed nothing.
///
/// ```
/// use ergo_index::Refusal;
/// assert_eq!(Refusal::TargetNotSeen.code(), 15);
/// assert_eq!(Refusal::from_code(15), Some(Refusal::TargetNotSeen));
/// assert_eq!(Refusal::from_code(0), None);
/// assert_eq!(Refusal::TargetNotSeen.to_string(), "refusal 15: the target was not seen");
/// ```
#[derive(Clone, Copy, Debug, PartialEq, Eq, Hash)]
#[repr(u8)]
#[non_exhaustive]
pub enum Refusal {
    /// 1: the bytes end inside a field.
    BytesEnd = 1,
    /// 2: a coded number does not fit its width.
    NumberTooLarge = 2,
    /// 3: a list's length is negative.
    NegativeLength = 3,
    /// 4: a list has more than 512 numbers.
    ListTooLong = 4,
    /// 5: a length is above the bytes that are left.
    LengthAboveBytesLeft = 5,
    /// 6: a row's spill count is negative.
    NegativeSpillCountRead = 6,
    /// 7: an address record's flag is neither 00 nor 01.
    BadFlag = 7,
    /// 8: bytes are left over behind a row or record.
    BytesLeftOver = 8,
    /// 9: the target is -2^63.
    TargetIsMinimum = 9,
    /// 10: the head holds -2^63, or its absolute values fall.
    HeadOutOfOrder = 10,
    /// 11: the head's spill count is negative.
    NegativeSpillCount = 11,
    /// 12: a row is neither staged nor in the table.
    RowMissing = 12,
    /// 13: a row has not 512 numbers, or its absolute values fall.
    RowOutOfOrder = 13,
    /// 14: the target was seen, but no copy of the wanted sign.
    NoCopyOfThatSign = 14,
    /// 15: the target was not seen.
    TargetNotSeen = 15,
    /// 16: the staged spills are full.
    StagingFull = 16,
    /// 17: the number to append is negative.
    NegativeNumber = 17,
    /// 18: the spill count is at its limit.
    SpillCountAtLimit = 18,
    /// 19: there is nothing to pop.
    NothingToPop = 19,
    /// 20: the row to pop from has no number of that kind.
    RowWithoutNumbers = 20,
    /// 21: the deleted spills are full.
    DeletedFull = 21,
    /// 22: the segments table has no room for the rows to be flushed.
    TableFull = 22,
    /// 23: a sum or difference leaves 64 signed bits.
    AmountOutOfRange = 23,
    /// 24: a balance would hold a 129th token.
    TooManyTokens = 24,
    /// 25: a count, a capacity, a record or a buffer is not in order.
    Buffers = 25,
    /// 26: an undo entry without a byte.
    UndoEntryEmpty = 26,
    /// 27: an undo entry ends inside its header id.
    UndoEntryIdCut = 27,
    /// 28: an undo entry's tag is neither 00 nor 01.
    UndoEntryTag = 28,
    /// 29: an undo entry ends inside its numbers.
    UndoEntryNumbersCut = 29,
    /// 30: bytes are left over behind an undo entry.
    UndoEntryLeftOver = 30,
    /// 31: a call of the runner is unknown or cut. A batch tells it by its end, [`END_NO_CALL`](crate::END_NO_CALL).
    UnknownCall = 31,
    /// 32: the output is too short.
    OutputTooShort = 32,
    /// 33: a page of more than 64 numbers is asked for.
    PageTooLong = 33,
    /// 34: a coded number longer than one byte ends in 00.
    NumberPadded = 34,
    /// 35: a row of edition 2 says another parent, kind or number than those behind its key, or than those given.
    RowOfAnotherSpill = 35,
    /// 36: a summary has no line for a spill, or a line whose counts are not those of a row.
    SummaryTooShort = 36,
    /// 37: an append to a flat list of 4,096.
    FlatListFull = 37,
    /// 38: a load is asked for from state 0.
    StateIsZero = 38,
    /// 39: a fork deeper than 720 blocks, or than the blocks that stand.
    ForkTooDeep = 39,
    /// 40: more calls stand than there is room for.
    StandingCallsFull = 40,
    /// 41: a token id stands twice in a balance.
    TokenTwice = 41,
}

const ALL: [Refusal; 41] = [
    Refusal::BytesEnd,
    Refusal::NumberTooLarge,
    Refusal::NegativeLength,
    Refusal::ListTooLong,
    Refusal::LengthAboveBytesLeft,
    Refusal::NegativeSpillCountRead,
    Refusal::BadFlag,
    Refusal::BytesLeftOver,
    Refusal::TargetIsMinimum,
    Refusal::HeadOutOfOrder,
    Refusal::NegativeSpillCount,
    Refusal::RowMissing,
    Refusal::RowOutOfOrder,
    Refusal::NoCopyOfThatSign,
    Refusal::TargetNotSeen,
    Refusal::StagingFull,
    Refusal::NegativeNumber,
    Refusal::SpillCountAtLimit,
    Refusal::NothingToPop,
    Refusal::RowWithoutNumbers,
    Refusal::DeletedFull,
    Refusal::TableFull,
    Refusal::AmountOutOfRange,
    Refusal::TooManyTokens,
    Refusal::Buffers,
    Refusal::UndoEntryEmpty,
    Refusal::UndoEntryIdCut,
    Refusal::UndoEntryTag,
    Refusal::UndoEntryNumbersCut,
    Refusal::UndoEntryLeftOver,
    Refusal::UnknownCall,
    Refusal::OutputTooShort,
    Refusal::PageTooLong,
    Refusal::NumberPadded,
    Refusal::RowOfAnotherSpill,
    Refusal::SummaryTooShort,
    Refusal::FlatListFull,
    Refusal::StateIsZero,
    Refusal::ForkTooDeep,
    Refusal::StandingCallsFull,
    Refusal::TokenTwice,
];

impl Refusal {
    /// The number of the refusal.
    pub const fn code(self) -> u8 {
        self as u8
    }

    /// The refusal of a number, if there is one.
    pub fn from_code(code: u8) -> Option<Refusal> {
        ALL.iter().copied().find(|refusal| refusal.code() == code)
    }

    /// What the refusal says, in a few words.
    pub const fn reason(self) -> &'static str {
        match self {
            Refusal::BytesEnd => "the bytes end inside a field",
            Refusal::NumberTooLarge => "a coded number does not fit its width",
            Refusal::NegativeLength => "a list's length is negative",
            Refusal::ListTooLong => "a list has more than 512 numbers",
            Refusal::LengthAboveBytesLeft => "a length is above the bytes that are left",
            Refusal::NegativeSpillCountRead => "a row's spill count is negative",
            Refusal::BadFlag => "an address record's flag is neither 00 nor 01",
            Refusal::BytesLeftOver => "bytes are left over behind a row or record",
            Refusal::TargetIsMinimum => "the target is -2^63",
            Refusal::HeadOutOfOrder => "the head holds -2^63, or its absolute values fall",
            Refusal::NegativeSpillCount => "the head's spill count is negative",
            Refusal::RowMissing => "a row is neither staged nor in the table",
            Refusal::RowOutOfOrder => "a row has not 512 numbers, or its absolute values fall",
            Refusal::NoCopyOfThatSign => "the target was seen, but no copy of the wanted sign",
            Refusal::TargetNotSeen => "the target was not seen",
            Refusal::StagingFull => "the staged spills are full",
            Refusal::NegativeNumber => "the number to append is negative",
            Refusal::SpillCountAtLimit => "the spill count is at its limit",
            Refusal::NothingToPop => "there is nothing to pop",
            Refusal::RowWithoutNumbers => "the row to pop from has no number of that kind",
            Refusal::DeletedFull => "the deleted spills are full",
            Refusal::TableFull => "the segments table has no room for the rows to be flushed",
            Refusal::AmountOutOfRange => "a sum or difference leaves 64 signed bits",
            Refusal::TooManyTokens => "a balance would hold a 129th token",
            Refusal::Buffers => "a count, a capacity, a record or a buffer is not in order",
            Refusal::UndoEntryEmpty => "an undo entry without a byte",
            Refusal::UndoEntryIdCut => "an undo entry ends inside its header id",
            Refusal::UndoEntryTag => "an undo entry's tag is neither 00 nor 01",
            Refusal::UndoEntryNumbersCut => "an undo entry ends inside its numbers",
            Refusal::UndoEntryLeftOver => "bytes are left over behind an undo entry",
            Refusal::UnknownCall => "a call of the runner is unknown or cut",
            Refusal::OutputTooShort => "the output is too short",
            Refusal::PageTooLong => "a page of more than 64 numbers is asked for",
            Refusal::NumberPadded => "a coded number longer than one byte ends in 00",
            Refusal::RowOfAnotherSpill => "a row says another parent, kind or number",
            Refusal::SummaryTooShort => "a summary has too few lines, or a line that does not add up",
            Refusal::FlatListFull => "an append to a flat list of 4,096",
            Refusal::StateIsZero => "a load is asked for from state 0",
            Refusal::ForkTooDeep => "a fork deeper than 720 blocks, or than the blocks that stand",
            Refusal::StandingCallsFull => "more calls stand than there is room for",
            Refusal::TokenTwice => "a token id stands twice in a balance",
        }
    }
}

impl fmt::Display for Refusal {
    fn fmt(&self, f: &mut fmt::Formatter<'_>) -> fmt::Result {
        write!(f, "refusal {}: {}", self.code(), self.reason())
    }
}

impl Error for Refusal {}

/// The code of a call, as a result.
pub(crate) fn accepted(code: u8) -> Result<(), Refusal> {
    if code == 0 {
        return Ok(());
    }
    Err(Refusal::from_code(code).expect("every code other than 0 is the number of a refusal"))
}

#[cfg(test)]
mod tests {
    use super::*;

    #[test]
    fn numbers_and_names_agree() {
        assert!(ALL.iter().map(|refusal| refusal.code()).eq(1..=41));
        for refusal in ALL {
            assert_eq!(Refusal::from_code(refusal.code()), Some(refusal));
        }
        assert_eq!(Refusal::from_code(0), None);
        assert_eq!(Refusal::from_code(42), None);
        assert_eq!(accepted(0), Ok(()));
        assert_eq!(accepted(25), Err(Refusal::Buffers));
    }
}
