//! Which columns of a code the places stand for, and which of these are hidden: all columns in their order, with the
//! marks of the code, or those of a selection, with marks of its own.

use super::params::{self, Params};
use super::words::Code;
use crate::bits::ones_at;
use std::fmt::Debug;

/// What a call on words is made on, accepted or not: a whole code, or a selection of its blocks.
pub trait Setting: Clone + Debug {
    /// The parameters of the code.
    fn params(&self) -> &Params;
    fn params_mut(&mut self) -> &mut Params;

    /// The list of blocks and the list of shifts; none for a whole code.
    fn lists(&self) -> Option<(&[u32], &[u32])>;

    /// A mark for each place: 0 sent, 1 hidden.
    fn hidden(&self) -> &[u8];
    fn hidden_mut(&mut self) -> &mut Vec<u8>;

    /// The number of its places, sent and hidden.
    fn places(&self) -> usize;

    /// The code over the columns, or the first number that applies to the setting and to the call's buffer of a length
    /// that does not follow from the marks, if it has one.
    fn judge(&self, fixed: Option<Fixed>) -> Result<Code, u32>;

    /// The code over the columns of an accepted setting.
    fn code(&self) -> Code {
        self.judge(None).expect("only an accepted setting has a code")
    }

    /// The same setting with these places hidden, and no others.
    fn hiding(&self, places: &[usize]) -> Self {
        let mut marked = self.clone();
        *marked.hidden_mut() = ones_at(self.places(), places);
        marked
    }
}

/// A buffer whose length does not follow from the marks, with the length that it has.
#[derive(Clone, Copy, Debug)]
pub enum Fixed {
    /// A byte for each place, sent or hidden.
    Roles(usize),
    /// t elements.
    Syndrome(usize),
}

impl Setting for Params {
    fn params(&self) -> &Params {
        self
    }

    fn params_mut(&mut self) -> &mut Params {
        self
    }

    fn lists(&self) -> Option<(&[u32], &[u32])> {
        None
    }

    fn hidden(&self) -> &[u8] {
        &self.hidden
    }

    fn hidden_mut(&mut self) -> &mut Vec<u8> {
        &mut self.hidden
    }

    fn places(&self) -> usize {
        self.n as usize
    }

    /// 1 to 7 for the code, the number of its marks and the buffer, then 20.
    fn judge(&self, fixed: Option<Fixed>) -> Result<Code, u32> {
        let lent = fixed.map(|fixed| match fixed {
            Fixed::Roles(length) => (length, self.n),
            Fixed::Syndrome(length) => (length, self.t),
        });
        params::judge_marked(self, lent.as_slice())?;
        Code::whole(self)
    }
}

/// The number of an accepted code's blocks.
pub fn block_count(params: &Params) -> usize {
    (params.n / params.t) as usize
}

/// Blocks of a code, of t columns each, and a shift for each of them. It has marks of its own, and those of its code
/// are not looked at.
#[derive(Clone, Debug, PartialEq)]
pub struct Selection {
    pub params: Params,
    pub blocks: Vec<u32>,
    pub shifts: Vec<u32>,
    pub hidden: Vec<u8>,
}

impl Selection {
    /// These blocks with these shifts, and nothing hidden.
    pub fn new(params: &Params, blocks: &[u32], shifts: &[u32]) -> Selection {
        let (params, blocks, shifts) = (params.clone(), blocks.to_vec(), shifts.to_vec());
        let hidden = vec![0; blocks.len() * params.t as usize];
        Selection { params, blocks, shifts, hidden }
    }

    /// All blocks of an accepted code in their order, without shifts, and nothing hidden.
    pub fn all(params: &Params) -> Selection {
        let blocks: Vec<u32> = (0..block_count(params) as u32).collect();
        Selection::new(params, &blocks, &vec![0; blocks.len()])
    }

    /// The columns of an accepted selection: place r of a chosen block takes the block's column r ⊕ s.
    pub fn columns(&self) -> Vec<usize> {
        let all: Vec<usize> = (0..self.params.n as usize).collect();
        let blocks: Vec<&[usize]> = all.chunks(self.params.t as usize).collect();
        let mut columns = Vec::new();
        for (&block, &s) in self.blocks.iter().zip(&self.shifts) {
            let block = blocks[block as usize];
            columns.extend((0..block.len()).map(|r| block[r ^ s as usize]));
        }
        columns
    }
}

impl Setting for Selection {
    fn params(&self) -> &Params {
        &self.params
    }

    fn params_mut(&mut self) -> &mut Params {
        &mut self.params
    }

    fn lists(&self) -> Option<(&[u32], &[u32])> {
        Some((&self.blocks, &self.shifts))
    }

    fn hidden(&self) -> &[u8] {
        &self.hidden
    }

    fn hidden_mut(&mut self) -> &mut Vec<u8> {
        &mut self.hidden
    }

    fn places(&self) -> usize {
        self.blocks.len() * self.params.t as usize
    }

    /// 1 to 7 for the code and the syndrome, then 2 for the lists and the roles, 14, 15, 20.
    fn judge(&self, fixed: Option<Fixed>) -> Result<Code, u32> {
        let Selection { params, blocks, shifts, hidden } = self;
        let (syndrome, roles) = match fixed {
            Some(Fixed::Syndrome(length)) => (Some((length, params.t)), None),
            Some(Fixed::Roles(length)) => (None, Some(length)),
            None => (None, None),
        };
        params::judge(params, syndrome.as_slice())?;
        let count = block_count(params);
        if blocks.is_empty() || blocks.len() > count || shifts.len() != blocks.len() {
            return Err(2);
        }
        if hidden.len() != self.places() || roles.is_some_and(|length| length != self.places()) {
            return Err(2);
        }
        let twice = (0..blocks.len()).any(|b| blocks[..b].contains(&blocks[b]));
        if twice || blocks.iter().any(|&block| block as usize >= count) {
            return Err(14);
        }
        if shifts.iter().any(|&shift| shift >= params.t) {
            return Err(15);
        }
        Code::over(params, self.columns(), hidden)
    }
}

#[cfg(test)]
mod tests {
    use super::params::{code_a, code_t};
    use super::*;
    use crate::reference::words;

    #[test]
    fn cases() {
        // The columns 4, 7 and 3, the last being the sum of the others.
        let three = Selection::new(&code_a(), &[3, 0, 2], &[0, 0, 0]);
        assert_eq!(three.columns(), [3, 0, 2]);
        assert_eq!(three.code().parity, [[4, 7, 3]]);
        assert_eq!(words::roles(&three, 3), Ok((vec![0, 0, 1], 1)));
        assert_eq!(words::encode(&three, &[1], 3), Ok(vec![1, 1, 1]));
        let two = Selection::new(&code_t(), &[5, 0], &[0, 1]);
        assert_eq!(two.columns(), [10, 11, 1, 0]);
        assert_eq!(two.code().parity, [[17, 4, 8, 12], [4, 17, 12, 8]]);
    }

    #[test]
    fn shifts_beyond_one() {
        let params = Params { t: 4, ..code_t() };
        assert_eq!(Selection::new(&params, &[2, 1], &[3, 2]).columns(), [11, 10, 9, 8, 6, 7, 4, 5]);
    }

    #[test]
    fn all_blocks_in_their_order_are_the_whole_code() {
        let (all, whole) = (Selection::all(&code_t()).code(), Code::new(&code_t()));
        assert_eq!((all.parity, all.roles), (whole.parity, whole.roles));
    }

    /// The marks are those of the selection: the last of three columns of code A can be hidden, and then only zero is
    /// left.
    #[test]
    fn short_words() {
        let card = code_a().hiding(&[0]);
        let short = Selection::new(&card, &[3, 0, 2], &[0, 0, 0]).hiding(&[2]);
        assert_eq!(words::roles(&short, 3), Ok((vec![0, 0, 1], 0)));
        assert_eq!(words::encode(&short, &[], 2), Ok(vec![0, 0]));
        assert_eq!(words::syndrome(&short, &[1, 0], 1), Ok(vec![4]));
        assert_eq!(words::roles(&short.hiding(&[1]), 3), Err(20));
    }

    #[test]
    fn refusals() {
        let number = |blocks: &[u32], shifts: &[u32], hidden: &[u8], roles: usize| {
            let selection = Selection { hidden: hidden.to_vec(), ..Selection::new(&code_t(), blocks, shifts) };
            selection.judge(Some(Fixed::Roles(roles))).err()
        };
        assert_eq!(number(&[7, 0], &[1, 0], &[0; 4], 4), None);
        assert_eq!(number(&[7, 0], &[1, 0], &[0; 4], 16), Some(2));
        assert_eq!(number(&[7, 0], &[1, 0], &[0; 16], 4), Some(2));
        assert_eq!(number(&[7, 8], &[1, 2], &[0; 4], 5), Some(2));
        assert_eq!(number(&[7, 8], &[1, 2], &[2; 5], 4), Some(2));
        assert_eq!(number(&[7, 8], &[1], &[0; 4], 4), Some(2));
        assert_eq!(number(&[], &[], &[], 0), Some(2));
        assert_eq!(number(&[0, 1, 2, 3, 4, 5, 6, 7, 8], &[0; 9], &[0; 18], 18), Some(2));
        assert_eq!(number(&[7, 8], &[1, 2], &[2; 4], 4), Some(14));
        assert_eq!(number(&[7, 7], &[1, 2], &[0; 4], 4), Some(14));
        assert_eq!(number(&[7, 0], &[1, 2], &[2; 4], 4), Some(15));
        assert_eq!(number(&[7, 0], &[1, 0], &[0, 0, 0, 2], 4), Some(20));
        assert_eq!(number(&[7, 0], &[1, 0], &[0, 0, 0, 1], 4), Some(20));
        let damaged = Selection::new(&Params { t: 0, ..code_t() }, &[9], &[9, 9]);
        assert_eq!(damaged.judge(Some(Fixed::Syndrome(0))).err(), Some(7));
        assert_eq!(damaged.judge(Some(Fixed::Syndrome(1))).err(), Some(2));
        assert_eq!(damaged.judge(Some(Fixed::Roles(3))).err(), Some(7));
    }
}
