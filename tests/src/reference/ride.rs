//! Rides: every step by itself, as one of three ways in which it can end; the counts are those of the list of ends.

use super::params::{self, Params};
use super::repair::Decoder;
use super::rows::{self, Row};
use super::words::{self, Code};

/// The most steps of a ride.
pub const LONGEST: usize = 1000;

/// The numbers that are counted.
pub const COUNTS: usize = 4;

/// The lists of a ride: gears, lamps, and the marks of all steps in their order.
#[derive(Clone, Debug, Default)]
pub struct Lists {
    pub gears: Vec<u8>,
    pub lamps: Vec<u8>,
    pub turned: Vec<u8>,
}

impl Lists {
    pub fn push(&mut self, gear: u8, lamp: u8, marks: &[u8]) {
        self.gears.push(gear);
        self.lamps.push(lamp);
        self.turned.extend_from_slice(marks);
    }

    /// The steps, each with its row and the marks of a word of this length, of lists whose lengths agree.
    pub fn steps(&self, length: usize) -> Vec<(Row, &[u8])> {
        let rows =
            self.gears.iter().zip(&self.lamps).map(|(&gear, &lamp)| Row { gear: gear.into(), lamp: lamp.into() });
        rows.zip(self.turned.chunks(length)).collect()
    }
}

/// How a step ends.
#[derive(Clone, Copy, Debug, PartialEq)]
pub enum End {
    /// Read as it was sent.
    Right,
    /// Refused on reading.
    Held,
    /// Read, but not as it was sent.
    Wrong,
}

/// How a ride ends: what it answers, and the counts if any are written.
#[derive(Clone, Copy, Debug, PartialEq)]
pub struct Ridden {
    pub answer: Result<(), u32>,
    pub counts: Option<[u32; COUNTS]>,
}

/// Steps, right, held and wrong.
pub fn counts(ends: &[End]) -> [u32; COUNTS] {
    let of = |wanted: End| ends.iter().filter(|&&end| end == wanted).count() as u32;
    [ends.len() as u32, of(End::Right), of(End::Held), of(End::Wrong)]
}

/// The end of a step, or what ends the ride: 8 for a mark that is no bit, then 11 for a row that can't be written.
fn step(decoder: &Decoder, row: Row, marks: &[u8]) -> Result<End, u32> {
    words::judge_bits(marks)?;
    let sent = rows::write_word(&decoder.code, row)?;
    let received: Vec<u8> = sent.iter().zip(marks).map(|(&bit, &mark)| if mark == 1 { 1 - bit } else { bit }).collect();
    Ok(match rows::read_word(decoder, &received) {
        Ok((read, _, _)) if read == row => End::Right,
        Ok(_) => End::Wrong,
        Err(_) => End::Held,
    })
}

/// A ride on a code that has room for rows, with lists whose lengths are right. The step that ends it is not counted.
pub fn ride_steps(decoder: &Decoder, lists: &Lists) -> Ridden {
    let mut ends = Vec::new();
    let mut answer = Ok(());
    for (row, marks) in lists.steps(decoder.code.length()) {
        match step(decoder, row, marks) {
            Ok(end) => ends.push(end),
            Err(number) => {
                answer = Err(number);
                break;
            }
        }
    }
    Ridden { answer, counts: Some(counts(&ends)) }
}

/// The code, with room for rows, or the first number that applies before the ride starts: 1 to 7, then 20, then 2 for
/// the marks of the steps, then 12.
fn judge(params: &Params, lists: &Lists, counts_length: usize) -> Result<Code, u32> {
    let steps = lists.gears.len();
    let lent = [(steps, steps.min(LONGEST) as u32), (lists.lamps.len(), steps as u32), (counts_length, COUNTS as u32)];
    params::judge_marked(params, &lent)?;
    let code = Code::whole(params)?;
    if lists.turned.len() != steps * code.length() {
        return Err(2);
    }
    rows::judge_narrow(&code)?;
    Ok(code)
}

/// A ride. What refuses it before it starts leaves the counts alone.
pub fn ride(params: &Params, lists: &Lists, counts_length: usize) -> Ridden {
    match judge(params, lists, counts_length) {
        Ok(code) => ride_steps(&Decoder::new(code), lists),
        Err(number) => Ridden { answer: Err(number), counts: None },
    }
}

#[cfg(test)]
mod tests {
    use super::*;
    use crate::bits::ones_at;
    use crate::reference::columns::Setting;
    use crate::reference::params::{code_a, code_t};

    /// Rides of first, dark on code T, with these places turned; a gear of 8 is no row.
    fn ridden(steps: &[(u8, &[usize])]) -> Ridden {
        let mut lists = Lists::default();
        steps.iter().for_each(|&(gear, places)| lists.push(gear, 0, &ones_at(16, places)));
        ride(&code_t(), &lists, COUNTS)
    }

    #[test]
    fn cases() {
        let done = |counts| Ridden { answer: Ok(()), counts: Some(counts) };
        assert_eq!(ridden(&[]), done([0, 0, 0, 0]));
        assert_eq!(ridden(&[(1, &[]), (1, &[0, 8]), (1, &[0, 1, 2])]), done([3, 2, 1, 0]));
        // The word of first, dark, all of it turned: neutral, dark is sent as zeros.
        let first_dark = [1, 2, 5, 6, 7, 8];
        assert_eq!(ridden(&[(1, &first_dark), (0, &first_dark), (0, &first_dark[1..])]), done([3, 0, 0, 3]));
        let ended = Ridden { answer: Err(11), counts: Some([1, 1, 0, 0]) };
        assert_eq!(ridden(&[(1, &[]), (8, &[]), (1, &[])]), ended);
    }

    #[test]
    fn refusals() {
        let mut lists = Lists::default();
        lists.push(8, 0, &[2; 16]);
        let number = |params: &Params, lists: &Lists, length: usize| match ride(params, lists, length) {
            Ridden { answer: Err(number), counts } => (number, counts),
            ridden => panic!("{ridden:?} is no refusal"),
        };
        assert_eq!(number(&code_t(), &lists, 4), (8, Some([0; 4])));
        assert_eq!(number(&code_t(), &lists, 3), (2, None));
        assert_eq!(number(&Params { m: 1, ..code_t() }, &lists, 3), (1, None));
        assert_eq!(number(&Params { t: 3, ..code_t() }, &lists, 4), (7, None));
        assert_eq!(number(&Params { n: u32::MAX, ..code_t() }, &lists, 4), (2, None));
        assert_eq!(number(&code_a(), &Lists::default(), 4), (12, None));
        assert_eq!(number(&code_t(), &Lists { lamps: vec![], ..lists.clone() }, 4), (2, None));
        let shorter = Lists { turned: vec![0; 15], ..lists.clone() };
        assert_eq!(number(&code_t(), &shorter, 4), (2, None));
        assert_eq!(number(&Params { t: 3, ..code_t() }, &shorter, 4), (7, None));
        // With a place hidden the marks of a step are fifteen.
        assert_eq!(number(&code_t().hiding(&[8]), &shorter, 4), (11, Some([0; 4])));
        assert_eq!(number(&code_t().hiding(&[8]), &lists, 4), (2, None));
        assert_eq!(number(&code_t().hiding(&[8, 9]), &Lists::default(), 4), (12, None));
        assert_eq!(number(&code_t().hiding(&[0]), &lists, 4), (20, None));
        assert_eq!(number(&code_t().hiding(&[0]), &lists, 3), (2, None));
    }
}
