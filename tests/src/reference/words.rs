//! Words of a code, whole or over a selection of its columns: roles of the columns, syndromes, encoding and taking the
//! message out again.
//!
//! All of it comes from one row reduction of the parity matrix over the bits, from the left: a column is a sum of
//! columns before it exactly if no row gets its first 1 there. Hidden places stay in the matrix. A word that leaves
//! them out is made into one of all places, with 0 at the hidden ones, and what is worked out with that is then cut
//! down to the sent ones.

use super::columns::{Fixed, Setting};
use super::field;
use super::params::{self, Params};
use crate::bits::places_of;
use crate::Elem;

/// An accepted code, or some of its columns, with the parity matrix and the marks.
#[derive(Clone)]
pub struct Code {
    pub params: Params,
    /// For each place L_j, j being the column that the place stands for.
    pub support: Vec<Elem>,
    /// t rows of an element for each place, 1/(z_i + L_j).
    pub parity: Vec<Vec<Elem>>,
    /// For each place 1 if it is a message column's and 0 if it is a check column's.
    pub roles: Vec<u8>,
    /// For each place 1 if it is hidden, which message columns alone may be, and 0 if it is sent.
    pub hidden: Vec<u8>,
    /// The parity matrix over the bits, reduced: for each check column in rising order the row whose first 1 stands
    /// there. No other row has a 1 in that column.
    reduced: Vec<BitRow>,
}

impl Code {
    /// The code of an accepted code, all columns in their order.
    pub fn new(params: &Params) -> Code {
        params.code()
    }

    /// The same for a code that passes 1 to 7; 20 for its marks.
    pub fn whole(params: &Params) -> Result<Code, u32> {
        Code::over(params, (0..params.n as usize).collect(), &params.hidden)
    }

    /// The code over these columns of a code that passes 1 to 7, with a mark for each; 20 for a mark other than 0 or 1,
    /// and for a hidden check column.
    pub fn over(params: &Params, columns: Vec<usize>, hidden: &[u8]) -> Result<Code, u32> {
        let (roots, full) = (params::roots(params), params::support(params));
        let support: Vec<Elem> = columns.into_iter().map(|j| full[j]).collect();
        let row = |z: &Elem| support.iter().map(|l| field::reciprocal(params.m, z ^ l)).collect();
        let parity: Vec<Vec<Elem>> = roots[..params.t as usize].iter().map(row).collect();
        let (check_columns, reduced) = reduce(bit_rows(params.m, &parity), support.len());
        if hidden.iter().any(|&mark| mark > 1) || check_columns.iter().any(|&column| hidden[column] == 1) {
            return Err(20);
        }
        let mut roles = vec![1; support.len()];
        check_columns.into_iter().for_each(|column| roles[column] = 0);
        Ok(Code { params: params.clone(), support, parity, roles, hidden: hidden.to_vec(), reduced })
    }

    /// The number of all places, sent and hidden.
    pub fn places(&self) -> usize {
        self.roles.len()
    }

    /// The length of a word: the number of sent places.
    pub fn length(&self) -> usize {
        places_of(0, &self.hidden).len()
    }

    /// The count of message columns that are sent.
    pub fn k(&self) -> usize {
        self.message_columns().len()
    }

    /// The message columns that are sent, in rising order.
    fn message_columns(&self) -> Vec<usize> {
        places_of(1, &self.roles).into_iter().filter(|&j| self.hidden[j] == 0).collect()
    }

    /// The check columns, in rising order.
    fn check_columns(&self) -> Vec<usize> {
        places_of(0, &self.roles)
    }

    /// A word as one of all places, with 0 at the hidden ones.
    pub fn widened(&self, word: &[u8]) -> Vec<u8> {
        let mut bits = word.iter();
        let byte = |&mark: &u8| if mark == 1 { 0 } else { *bits.next().expect("a byte for each sent place") };
        self.hidden.iter().map(byte).collect()
    }

    /// What a word of all places has at the sent ones.
    pub fn cut_down(&self, wide: &[u8]) -> Vec<u8> {
        places_of(0, &self.hidden).into_iter().map(|place| wide[place]).collect()
    }

    /// For each row of the parity matrix the sum of its entries at the places that hold 1, of a word of all places.
    fn sums(&self, wide: &[u8]) -> Vec<Elem> {
        let sum = |row: &Vec<Elem>| (0..self.places()).filter(|&j| wide[j] == 1).fold(0, |sum, j| sum ^ row[j]);
        self.parity.iter().map(sum).collect()
    }

    /// Whether a word of all places is a code word that is 0 at every hidden place.
    pub fn is_wide_code_word(&self, wide: &[u8]) -> bool {
        let hidden = places_of(1, &self.hidden);
        hidden.into_iter().all(|place| wide[place] == 0) && self.sums(wide).iter().all(|&sum| sum == 0)
    }

    pub fn syndrome(&self, word: &[u8]) -> Vec<Elem> {
        self.sums(&self.widened(word))
    }

    pub fn is_code_word(&self, word: &[u8]) -> bool {
        self.is_wide_code_word(&self.widened(word))
    }

    /// The code word that carries the message. A reduced row says what its check column has to be: the row's sum over
    /// the word of all places is zero, and the check column is the only one of its role in it.
    pub fn encode(&self, message: &[u8]) -> Vec<u8> {
        let mut wide = vec![0; self.places()];
        for (column, &bit) in self.message_columns().into_iter().zip(message) {
            wide[column] = bit;
        }
        let carried = BitRow::new(wide.iter().map(|&bit| bit == 1));
        for (column, row) in self.check_columns().into_iter().zip(&self.reduced) {
            wide[column] = row.sum_within(&carried);
        }
        self.cut_down(&wide)
    }

    /// The bytes at the message columns.
    pub fn message(&self, word: &[u8]) -> Vec<u8> {
        let wide = self.widened(word);
        self.message_columns().into_iter().map(|column| wide[column]).collect()
    }

    /// 2 for a word of another length than the number of sent places.
    pub fn judge_words(&self, lengths: &[usize]) -> Result<(), u32> {
        if lengths.iter().any(|&length| length != self.length()) {
            return Err(2);
        }
        Ok(())
    }
}

/// A bit for each of at most 512 places: that of place j is bit j mod 64 of number j / 64.
#[derive(Clone, Copy, Debug, Default, PartialEq)]
struct BitRow([u64; 8]);

impl BitRow {
    fn new(bits: impl IntoIterator<Item = bool>) -> BitRow {
        let mut row = BitRow::default();
        for (place, bit) in bits.into_iter().enumerate() {
            row.0[place / 64] |= u64::from(bit) << (place % 64);
        }
        row
    }

    fn has(&self, place: usize) -> bool {
        self.0[place / 64] >> (place % 64) & 1 == 1
    }

    fn first_one(&self) -> Option<usize> {
        let number = self.0.iter().position(|&number| number != 0)?;
        Some(64 * number + self.0[number].trailing_zeros() as usize)
    }

    fn add(&mut self, other: &BitRow) {
        self.0.iter_mut().zip(other.0).for_each(|(number, other)| *number ^= other);
    }

    /// The sum of the bits at the places where another row has ones.
    fn sum_within(&self, other: &BitRow) -> u8 {
        let ones = self.0.iter().zip(other.0).map(|(number, other)| (number & other).count_ones());
        (ones.sum::<u32>() % 2) as u8
    }
}

/// The parity matrix over the bits: bit 0 of all rows, then bit 1 of all, and so on.
fn bit_rows(m: u32, parity: &[Vec<Elem>]) -> impl Iterator<Item = BitRow> + '_ {
    let bit_of_row = |bit: u32, row: &Vec<Elem>| BitRow::new(row.iter().map(|entry| entry >> bit & 1 == 1));
    (0..m).flat_map(move |bit| parity.iter().map(move |row| bit_of_row(bit, row)))
}

/// Row reduction from the left, for rows of this length. Gives the columns in which a row has its first 1, and those
/// rows.
fn reduce(rows: impl Iterator<Item = BitRow>, length: usize) -> (Vec<usize>, Vec<BitRow>) {
    let mut by_first_one = vec![None; length];
    for row in rows {
        insert(&mut by_first_one, row);
        if by_first_one.iter().all(Option::is_some) {
            break; // every further row is a sum of these
        }
    }
    let found = by_first_one.into_iter().enumerate().filter_map(|(column, row)| Some((column, row?)));
    let (columns, mut rows): (Vec<usize>, Vec<BitRow>) = found.unzip();
    // From the last row up, so that what is added has the first 1 of no other row.
    for row in (0..rows.len()).rev() {
        for below in row + 1..rows.len() {
            if rows[row].has(columns[below]) {
                let other = rows[below];
                rows[row].add(&other);
            }
        }
    }
    (columns, rows)
}

/// Adds to a row those rows whose first 1 stands where its own does, until its first 1 stands where no other's does, or
/// nothing is left of it.
fn insert(by_first_one: &mut [Option<BitRow>], mut row: BitRow) {
    while let Some(column) = row.first_one() {
        match &by_first_one[column] {
            Some(other) => row.add(other),
            None => {
                by_first_one[column] = Some(row);
                return;
            }
        }
    }
}

/// 8 for a byte other than 0 or 1.
pub fn judge_bits(bytes: &[u8]) -> Result<(), u32> {
    if bytes.iter().any(|&byte| byte > 1) {
        return Err(8);
    }
    Ok(())
}

/// The roles of the columns, sent or hidden, and k.
pub fn roles(setting: &impl Setting, roles_length: usize) -> Result<(Vec<u8>, u32), u32> {
    let code = setting.judge(Some(Fixed::Roles(roles_length)))?;
    let k = code.k() as u32;
    Ok((code.roles, k))
}

/// The t sums of a word.
pub fn syndrome(setting: &impl Setting, word: &[u8], syndrome_length: usize) -> Result<Vec<Elem>, u32> {
    let code = setting.judge(Some(Fixed::Syndrome(syndrome_length)))?;
    code.judge_words(&[word.len()])?;
    judge_bits(word)?;
    Ok(code.syndrome(word))
}

/// The code word of a message.
pub fn encode(setting: &impl Setting, message: &[u8], word_length: usize) -> Result<Vec<u8>, u32> {
    let code = setting.judge(None)?;
    code.judge_words(&[word_length])?;
    if message.len() != code.k() {
        return Err(2);
    }
    judge_bits(message)?;
    Ok(code.encode(message))
}

/// The message of a word, code word or not.
pub fn message(setting: &impl Setting, word: &[u8], message_length: usize) -> Result<Vec<u8>, u32> {
    let code = setting.judge(None)?;
    code.judge_words(&[word.len()])?;
    if message_length != code.k() {
        return Err(2);
    }
    judge_bits(word)?;
    Ok(code.message(word))
}

#[cfg(test)]
mod tests {
    use super::params::{code_a, code_t};
    use super::*;
    use crate::bits::{bits, ones_at};
    use crate::draw;
    use crate::random::Random;
    use std::collections::{HashMap, HashSet};

    #[test]
    fn cases() {
        assert_eq!(roles(&code_a(), 4), Ok((vec![0, 0, 0, 1], 1)));
        assert_eq!(encode(&code_a(), &[1], 4), Ok(vec![1, 0, 1, 1]));
        assert_eq!(message(&code_a(), &[1, 0, 1, 1], 1), Ok(vec![1]));
        assert_eq!(roles(&code_t(), 16), Ok((ones_at(16, &[8, 9, 12, 13, 14, 15]), 6)));
        // Gear 1, dark.
        assert_eq!(encode(&code_t(), &[1, 0, 0, 0, 0, 0], 16), Ok(ones_at(16, &[1, 2, 5, 6, 7, 8])));
    }

    #[test]
    fn no_message_columns() {
        let params = Params::new(2, 1, 0, vec![1, 2]);
        assert_eq!(roles(&params, 2), Ok((vec![0, 0], 0)));
        assert_eq!(encode(&params, &[], 2), Ok(vec![0, 0]));
        assert_eq!(message(&params, &[1, 1], 0), Ok(vec![]));
        assert_eq!(message(&params, &[1, 1], 1), Err(2));
    }

    /// Code T without its message columns 9 and 14: the first message bit still stands at 8, and the last at 15.
    #[test]
    fn short_words() {
        let short = code_t().hiding(&[9, 14]);
        assert_eq!(roles(&short, 16), Ok((ones_at(16, &[8, 9, 12, 13, 14, 15]), 4)));
        let first = ones_at(14, &[1, 2, 5, 6, 7, 8]);
        assert_eq!(encode(&short, &[1, 0, 0, 0], 14), Ok(first.clone()));
        assert_eq!(message(&short, &first, 4), Ok(vec![1, 0, 0, 0]));
        assert_eq!(message(&short, &ones_at(14, &[13]), 4), Ok(vec![0, 0, 0, 1]));
        assert_eq!(syndrome(&short, &ones_at(14, &[9]), 2), syndrome(&code_t(), &ones_at(16, &[10]), 2));
        let code = Code::new(&short);
        assert_eq!(code.widened(&first), ones_at(16, &[1, 2, 5, 6, 7, 8]));
        assert_eq!(code.cut_down(&ones_at(16, &[9, 10, 15])), ones_at(14, &[9, 13]));
        assert!(code.is_wide_code_word(&ones_at(16, &[1, 2, 5, 6, 7, 8])));
        // The same message bit at 9 is a code word, but not of these.
        let hidden = encode(&code_t(), &[0, 1, 0, 0, 0, 0], 16).expect("a message");
        assert!(Code::new(&code_t()).is_wide_code_word(&hidden) && !code.is_wide_code_word(&hidden));
    }

    fn column(code: &Code, j: usize) -> Vec<Elem> {
        code.parity.iter().map(|row| row[j]).collect()
    }

    /// The definition word by word: a message column is a sum of some columns before it.
    #[test]
    fn roles_by_all_choices_of_earlier_columns() {
        let mut random = Random::new(15);
        for code in draw::codes(&mut random, draw::fewer_shapes(), 16) {
            // The sums of all choices among the columns before j.
            let mut sums = HashSet::from([vec![0; code.params.t as usize]]);
            for j in 0..code.places() {
                let column = column(&code, j);
                assert_eq!(code.roles[j], u8::from(sums.contains(&column)), "{:?}, column {j}", code.params);
                let with_j = |sum: &Vec<Elem>| sum.iter().zip(&column).map(|(a, b)| a ^ b).collect::<Vec<Elem>>();
                let more: Vec<Vec<Elem>> = sums.iter().map(with_j).collect();
                sums.extend(more);
            }
        }
    }

    /// For longer codes: a column is a sum of columns before it if it adds nothing to their rank, the rank being that
    /// of columns of m times t bits.
    #[test]
    fn roles_by_the_rank_of_the_columns() {
        let mut random = Random::new(18);
        for code in draw::codes(&mut random, draw::fewer_shapes(), 512) {
            // Columns by their highest bits, which all differ; they have the same sums as the columns so far.
            let mut independent: HashMap<usize, Vec<u8>> = HashMap::new();
            for j in 0..code.places() {
                let entries = column(&code, j);
                let bit_of_column = |bit: u32| entries.iter().map(move |entry| u8::from(entry >> bit & 1 == 1));
                let mut bits: Vec<u8> = (0..code.params.m).flat_map(bit_of_column).collect();
                let highest = |bits: &[u8]| bits.iter().rposition(|&bit| bit == 1);
                while let Some(other) = highest(&bits).and_then(|place| independent.get(&place)) {
                    bits.iter_mut().zip(other).for_each(|(bit, other)| *bit ^= other);
                }
                assert_eq!(code.roles[j], u8::from(highest(&bits).is_none()), "{:?}, column {j}", code.params);
                if let Some(place) = highest(&bits) {
                    independent.insert(place, bits);
                }
            }
        }
    }

    /// Where all words can be looked at, exactly one code word carries each message, and it is the one encoded.
    #[test]
    fn one_code_word_for_each_message() {
        let mut random = Random::new(16);
        for code in draw::codes(&mut random, draw::shapes(), 8) {
            let wide = (0..1 << code.places()).map(|number| bits(number, code.places()));
            let code_words: Vec<Vec<u8>> = wide.filter(|wide| code.is_wide_code_word(wide)).collect();
            assert_eq!(code_words.len(), 1 << code.k(), "{:?}", code.params);
            for wide in code_words {
                let word = code.cut_down(&wide);
                assert_eq!((code.widened(&word), code.is_code_word(&word)), (wide, true), "{:?}", code.params);
                assert_eq!(code.encode(&code.message(&word)), word, "{:?}", code.params);
            }
        }
    }

    #[test]
    fn encoded_messages_are_code_words_that_carry_them() {
        let mut random = Random::new(17);
        for code in draw::codes(&mut random, draw::shapes(), 512) {
            for _ in 0..10 {
                let message = random.bits(code.k());
                let word = code.encode(&message);
                assert!(code.is_code_word(&word), "{:?}", code.params);
                assert_eq!(code.message(&word), message, "{:?}", code.params);
            }
        }
    }

    /// Over the bits the parity matrix has m times t rows; its rank and k make up n.
    #[test]
    fn bits_of_the_parity_matrix() {
        let expected = [[1, 0], [0, 1], [0, 1], [0, 1], [0, 0], [1, 1]].map(|row| BitRow::new(row.map(|bit| bit == 1)));
        assert!(bit_rows(3, &[vec![1, 2], vec![4, 7]]).eq(expected));
        let code = Code::new(&code_t());
        assert_eq!(bit_rows(5, &code.parity).count(), 10);
        assert_eq!(code.reduced.len(), 10);
    }

    /// A reduced row has its first 1 in its check column, a 1 in no other check column, and the sum zero over every
    /// code word.
    #[test]
    fn reduced_rows() {
        let mut random = Random::new(22);
        for code in draw::codes(&mut random, draw::fewer_shapes(), 512) {
            let checks = code.check_columns();
            assert_eq!(code.reduced.len(), checks.len());
            for (row, &check) in code.reduced.iter().zip(&checks) {
                assert_eq!(row.first_one(), Some(check), "{:?}", code.params);
                assert!(checks.iter().all(|&other| row.has(other) == (other == check)), "{:?}", code.params);
            }
            let wide = code.widened(&code.encode(&random.bits(code.k())));
            let wide = BitRow::new(wide.iter().map(|&bit| bit == 1));
            assert!(code.reduced.iter().all(|row| row.sum_within(&wide) == 0), "{:?}", code.params);
        }
    }

    #[test]
    fn rows_of_bits() {
        for places in [&[][..], &[0], &[63], &[64], &[511], &[3, 127, 128, 300, 511]] {
            let row = BitRow::new((0..512).map(|place| places.contains(&place)));
            assert!((0..512).all(|place| row.has(place) == places.contains(&place)), "{places:?}");
            assert_eq!(row.first_one(), places.first().copied());
            assert_eq!(usize::from(row.sum_within(&row)), places.len() % 2);
            let mut sum = row;
            sum.add(&row);
            assert_eq!(sum, BitRow::default());
        }
    }

    #[test]
    fn refusals() {
        let params = code_t();
        assert_eq!(syndrome(&params, &[0; 15], 2), Err(2));
        assert_eq!(syndrome(&params, &[0; 16], 1), Err(2));
        assert_eq!(syndrome(&params, &[2; 16], 2), Err(8));
        assert_eq!(syndrome(&Params { t: 3, ..params.clone() }, &[2; 16], 3), Err(7));
        assert_eq!(syndrome(&Params { t: 3, ..params.clone() }, &[2; 16], 2), Err(2));
        // A wrong length of the word comes after the code, and that of the syndrome before.
        assert_eq!(syndrome(&Params { t: 3, ..params.clone() }, &[2; 15], 3), Err(7));
        assert_eq!(syndrome(&params.hiding(&[0]), &[2; 14], 2), Err(20));
        assert_eq!(syndrome(&params.hiding(&[0]), &[2; 14], 1), Err(2));
        assert_eq!(syndrome(&params.hiding(&[8]), &[2; 16], 2), Err(2));
        assert_eq!(syndrome(&params.hiding(&[8]), &[2; 15], 2), Err(8));
        assert_eq!(roles(&params.hiding(&[0]), 15), Err(2));
        assert_eq!(roles(&params.hiding(&[0]), 16), Err(20));
        assert_eq!(roles(&params.hiding(&[8]), 15), Err(2));
        assert_eq!(encode(&params, &[2; 5], 16), Err(2));
        assert_eq!(encode(&params, &[2; 6], 16), Err(8));
        assert_eq!(encode(&Params { t: 3, ..params.clone() }, &[2; 5], 16), Err(7));
        assert_eq!(message(&params, &[2; 16], 5), Err(2));
        assert_eq!(message(&params, &[2; 16], 6), Err(8));
    }
}
