//! Gear rows: writing one as a code word, and reading one from the word received.

use super::columns::Setting;
use super::repair::Decoder;
use super::words::{self, Code};

/// The fewest sent message columns that hold a row: three bits of gear and two of lamp.
pub const BITS: usize = 5;

/// A gear, 0 being neutral and 7 the high neutral, and a lamp: 0 dark, 1 green, 2 amber.
#[derive(Clone, Copy, Debug, PartialEq)]
pub struct Row {
    pub gear: u32,
    pub lamp: u32,
}

/// The allowed rows: dark and amber with every gear, green in neutral and in the high neutral only.
pub fn rows() -> Vec<Row> {
    let mut rows = vec![Row { gear: 0, lamp: 1 }, Row { gear: 7, lamp: 1 }];
    for gear in 0..=7 {
        rows.extend([Row { gear, lamp: 0 }, Row { gear, lamp: 2 }]);
    }
    rows
}

/// The message of a row among k message columns: gear, lowest bit first, lamp, lowest bit first, then zeros.
pub fn message(row: Row, k: usize) -> Vec<u8> {
    let Row { gear, lamp } = row;
    let bits = [gear & 1, gear >> 1 & 1, gear >> 2 & 1, lamp & 1, lamp >> 1 & 1];
    let mut message: Vec<u8> = bits.iter().map(|&bit| bit as u8).collect();
    message.resize(k, 0);
    message
}

/// 12 for a code that is too narrow for rows.
pub fn judge_narrow(code: &Code) -> Result<(), u32> {
    if code.k() < BITS {
        return Err(12);
    }
    Ok(())
}

/// The word of a row, of a code that has room for rows; 11 for a row that is none.
pub fn write_word(code: &Code, row: Row) -> Result<Vec<u8>, u32> {
    if !rows().contains(&row) {
        return Err(11);
    }
    Ok(code.encode(&message(row, code.k())))
}

/// The word of a row: what the setting refuses, then 12, then 11.
pub fn write(setting: &impl Setting, gear: u32, lamp: u32, word_length: usize) -> Result<Vec<u8>, u32> {
    let code = setting.judge(None)?;
    code.judge_words(&[word_length])?;
    judge_narrow(&code)?;
    write_word(&code, Row { gear, lamp })
}

/// What reading a row gives: the row, the repaired word and the count of repaired bits.
pub type Read = (Row, Vec<u8>, u32);

/// Reads a row from a word of 0 and 1. It is the one allowed row whose message the repaired word carries.
pub fn read_word(decoder: &Decoder, received: &[u8]) -> Result<Read, u32> {
    let code = &decoder.code;
    judge_narrow(code)?;
    let (repaired, count) = decoder.repair(received).ok_or(10_u32)?;
    let carried = code.message(&repaired);
    let row = rows().into_iter().find(|&row| message(row, code.k()) == carried).ok_or(11_u32)?;
    Ok((row, repaired, count))
}

/// Reads a row: what the setting refuses, then 12, then 8, then what repair refuses, then 11.
pub fn read(setting: &impl Setting, received: &[u8], repaired_length: usize) -> Result<Read, u32> {
    let code = setting.judge(None)?;
    code.judge_words(&[received.len(), repaired_length])?;
    judge_narrow(&code)?;
    words::judge_bits(received)?;
    read_word(&Decoder::new(code), received)
}

#[cfg(test)]
mod tests {
    use super::*;
    use crate::bits::ones_at;
    use crate::reference::params::{code_a, code_t, Params};

    #[test]
    fn cases() {
        let first_dark = ones_at(16, &[1, 2, 5, 6, 7, 8]);
        assert_eq!(write(&code_t(), 1, 0, 16), Ok(first_dark.clone()));
        let received = ones_at(16, &[0, 1, 2, 5, 6, 7]);
        assert_eq!(read(&code_t(), &received, 16), Ok((Row { gear: 1, lamp: 0 }, first_dark, 2)));
        assert_eq!(read(&code_t(), &ones_at(16, &[1, 2, 5]), 16), Err(10));
    }

    #[test]
    fn eighteen_rows_are_allowed() {
        assert_eq!(rows().len(), 18);
        for gear in 0..16 {
            for lamp in 0..8 {
                let allowed = gear <= 7 && (lamp == 0 || lamp == 2 || (lamp == 1 && (gear == 0 || gear == 7)));
                assert_eq!(rows().contains(&Row { gear, lamp }), allowed, "gear {gear}, lamp {lamp}");
                assert_eq!(write(&code_t(), gear, lamp, 16).err(), (!allowed).then_some(11));
            }
        }
    }

    #[test]
    fn bits_of_a_message() {
        assert_eq!(message(Row { gear: 6, lamp: 2 }, 7), [0, 1, 1, 0, 1, 0, 0]);
        assert_eq!(message(Row { gear: 0, lamp: 1 }, 5), [0, 0, 0, 1, 0]);
        assert_eq!(message(Row { gear: 7, lamp: 1 }, 6), [1, 1, 1, 1, 0, 0]);
    }

    /// Of code T's 64 messages, 18 are rows.
    #[test]
    fn every_message_of_the_toy_example() {
        let decoder = Decoder::new(Code::new(&code_t()));
        let mut read = 0;
        for number in 0..64_u8 {
            let carried: Vec<u8> = (0..6).map(|place| number >> place & 1).collect();
            let word = decoder.code.encode(&carried);
            let (gear, lamp) = (u32::from(number & 7), u32::from(number >> 3 & 3));
            match read_word(&decoder, &word) {
                Ok(answer) => {
                    assert_eq!(answer, (Row { gear, lamp }, word.clone(), 0));
                    assert_eq!(write(&code_t(), gear, lamp, 16), Ok(word));
                    read += 1;
                }
                Err(number) => assert_eq!(number, 11),
            }
        }
        assert_eq!(read, 18);
    }

    #[test]
    fn refusals() {
        assert_eq!(write(&code_a(), 9, 9, 4), Err(12));
        assert_eq!(read(&code_a(), &[2; 4], 4), Err(12));
        assert_eq!(write(&Params { t: 3, ..code_a() }, 9, 9, 4), Err(7));
        assert_eq!(read(&code_t(), &[2; 16], 16), Err(8));
        assert_eq!(read(&code_t(), &[2; 16], 15), Err(2));
        assert_eq!(write(&code_t(), 8, 0, 16), Err(11));
        assert_eq!(write(&code_t(), 8, 0, 17), Err(2));
        assert_eq!(write(&Params { t: 3, ..code_t() }, 8, 0, 17), Err(7));
        // Of code T's six message columns one can be hidden, and two are too many.
        let (short, narrow) = (code_t().hiding(&[12]), code_t().hiding(&[12, 13]));
        assert_eq!(write(&short, 1, 0, 15), Ok(ones_at(15, &[1, 2, 5, 6, 7, 8])));
        assert_eq!(write(&short, 1, 0, 16), Err(2));
        assert_eq!(write(&narrow, 9, 9, 14), Err(12));
        assert_eq!(write(&narrow, 9, 9, 15), Err(2));
        assert_eq!(read(&code_t().hiding(&[0]), &[2; 16], 15), Err(20));
    }
}
