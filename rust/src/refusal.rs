//! What a call is refused by.

use core::fmt;

/// The rule that a call's input breaks. Of several, the first in the order of the call's refusals is given.
#[derive(Clone, Copy, Debug, PartialEq, Eq, Hash)]
#[repr(u32)]
pub enum Refusal {
    /// 1: the width m is not from 2 to 16.
    Width = 1,
    /// 2: n, the length of a block or an essence, the number of a ride's steps or a lent buffer's length is not what is
    /// asked for.
    Length = 2,
    /// 3: an element or the offset is 2^m or more.
    Stranger = 3,
    /// 4: a zero in a signature.
    Blank = 4,
    /// 5: the rule for 1/h fails for some i and j.
    Crossed = 5,
    /// 6: two equal entries in a signature.
    Twin = 6,
    /// 7: t is not a power of two from 1 to n/2.
    Rows = 7,
    /// 8: a byte of a word, a message, a step's marks or the list of who waits is neither 0 nor 1.
    Bit = 8,
    /// 9: the inverse of a block whose elements sum to zero.
    DeadBlock = 9,
    /// 10: no code word within t bits.
    TooFar = 10,
    /// 11: a gear or lamp outside the rules.
    NoSuchRow = 11,
    /// 12: fewer than five message bits, when a row is written or read, or a ride is to start.
    Narrow = 12,
    /// 13: a text that is no sheet.
    Sheet = 13,
    /// 14: a selection names a block of n/t or more, or one block twice.
    NoSuchBlock = 14,
    /// 15: a shift of a selection is t or more.
    Shift = 15,
    /// 16: a text outside the rules of block formulas, or a letter in it with no block lent.
    Formula = 16,
    /// 17: some of an essence's values, one or more, sum to zero.
    Dependent = 17,
    /// 18: the number of senders or of a round's repairs is not from 1 to 8, or a sender's number is not below that of
    /// the senders.
    Sender = 18,
    /// 19: a word is offered while that sender has one waiting.
    Waiting = 19,
    /// 20: a mark of which places are hidden is neither 0 nor 1, or hides a check column.
    Hidden = 20,
}

/// Every refusal, with its word on the bench and its meaning.
const TABLE: [(Refusal, &str, &str); 20] = [
    (Refusal::Width, "width", "m outside 2 to 16"),
    (Refusal::Length, "length", "n, a block, an essence, a ride or a lent buffer has another length than is asked for"),
    (Refusal::Stranger, "stranger", "an element or offset of 2^m or more"),
    (Refusal::Blank, "blank", "a zero in a signature"),
    (Refusal::Crossed, "crossed", "the rule for 1/h fails for some i and j"),
    (Refusal::Twin, "twin", "two equal entries in a signature"),
    (Refusal::Rows, "rows", "t is not a power of two from 1 to n/2"),
    (Refusal::Bit, "bit", "a byte of a word, message, step's marks or list of who waits other than 0 or 1"),
    (Refusal::DeadBlock, "dead block", "inverse of a block whose elements sum to zero"),
    (Refusal::TooFar, "too far", "no code word within t bits"),
    (Refusal::NoSuchRow, "no such row", "gear or lamp outside the rules"),
    (Refusal::Narrow, "narrow", "k below 5 when a row is written or read, or a ride is to start"),
    (Refusal::Sheet, "sheet", "text that is no sheet"),
    (Refusal::NoSuchBlock, "no such block", "a block number of n/t or more, or one named twice"),
    (Refusal::Shift, "shift", "a shift of t or more"),
    (Refusal::Formula, "formula", "text outside the rules of formulas, or a letter with no block lent"),
    (Refusal::Dependent, "dependent", "a non-empty choice of an essence's values sums to zero"),
    (Refusal::Sender, "sender", "S, R or a sender's number out of range"),
    (Refusal::Waiting, "waiting", "a word offered while that sender has one"),
    (Refusal::Hidden, "hidden", "a mark of a place other than 0 or 1, or a hidden check column"),
];

impl Refusal {
    /// The refusal with this number, which a function of the library returned.
    pub(crate) fn of(number: u32) -> Refusal {
        TABLE[number as usize - 1].0
    }

    /// Its number, from 1 to 20.
    pub fn number(self) -> u32 {
        self as u32
    }

    /// What it is called on the bench.
    pub fn word(self) -> &'static str {
        TABLE[self as usize - 1].1
    }

    /// What it means.
    pub fn meaning(self) -> &'static str {
        TABLE[self as usize - 1].2
    }
}

impl fmt::Display for Refusal {
    fn fmt(&self, f: &mut fmt::Formatter<'_>) -> fmt::Result {
        write!(f, "{} ({}): {}", self.number(), self.word(), self.meaning())
    }
}

#[cfg(test)]
mod tests {
    use super::*;

    #[test]
    fn the_table_is_in_the_order_of_the_numbers() {
        for (index, entry) in TABLE.iter().enumerate() {
            assert_eq!(entry.0.number() as usize, index + 1);
            assert_eq!(Refusal::of(index as u32 + 1), entry.0);
        }
    }
}
