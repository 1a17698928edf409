//! Repair: the code word within t places of the word received, if there is one.
//!
//! Three methods, each by itself evident. Where a code has few words, all are compared with the word received. For
//! small t, unless the words are long, all choices of at most t places are looked through, in two halves, for one with
//! the syndrome of the word received. Elsewhere the locator's equations are solved, and what they give is checked. The
//! last two work with all places, and hidden ones are to stay 0.

use super::columns::Setting;
use super::field;
use super::params;
use super::words::{self, Code};
use crate::bits::bits;
use crate::Elem;
use std::collections::HashMap;

/// A repaired word and the number of places in which it differs from the word received.
pub type Repaired = Option<(Vec<u8>, u32)>;

/// The number of places where two words differ.
pub fn distance(one: &[u8], other: &[u8]) -> usize {
    one.iter().zip(other).filter(|(a, b)| a != b).count()
}

/// A code, prepared for the repair of many words.
pub struct Decoder {
    pub code: Code,
    method: Method,
}

enum Method {
    /// All code words.
    List(Vec<Vec<u8>>),
    /// All choices of places that make up half of an error.
    Halves(Halves),
    Locator,
}

impl Decoder {
    pub fn new(code: Code) -> Decoder {
        let method = if code.places() <= 8 {
            Method::List(code_words_among_all_words(&code))
        } else if code.k() <= 10 {
            Method::List(code_words_of_all_messages(&code))
        } else if code.params.t <= 2 || code.params.t <= 4 && code.places() <= 128 {
            Method::Halves(Halves::new(&code))
        } else {
            Method::Locator
        };
        Decoder { code, method }
    }

    pub fn repair(&self, received: &[u8]) -> Repaired {
        match &self.method {
            Method::List(code_words) => nearest_of_list(&self.code, code_words, received),
            Method::Halves(halves) => halves.repair(&self.code, received),
            Method::Locator => repair_by_locator(&self.code, received),
        }
    }
}

/// The code words found by looking at every word of all places.
fn code_words_among_all_words(code: &Code) -> Vec<Vec<u8>> {
    let wide = (0..1_usize << code.places()).map(|number| bits(number, code.places()));
    wide.filter(|wide| code.is_wide_code_word(wide)).map(|wide| code.cut_down(&wide)).collect()
}

/// The code words of all messages.
fn code_words_of_all_messages(code: &Code) -> Vec<Vec<u8>> {
    (0..1_usize << code.k()).map(|number| code.encode(&bits(number, code.k()))).collect()
}

/// The code word of the list within t places of the word received. Demand 3 says that there is at most one.
fn nearest_of_list(code: &Code, code_words: &[Vec<u8>], received: &[u8]) -> Repaired {
    let t = code.params.t as usize;
    let mut near = code_words.iter().filter(|word| distance(word, received) <= t);
    let found = near.next()?;
    assert!(near.next().is_none(), "two code words within t places: {:?}, {received:?}", code.params);
    Some((found.clone(), distance(found, received) as u32))
}

/// Choices of sent places by their syndrome. An error of at most t places is one of at most ⌈t/2⌉ and one of at most
/// ⌊t/2⌋.
struct Halves {
    larger: HashMap<u64, Vec<usize>>,
    smaller: Vec<(u64, Vec<usize>)>,
}

impl Halves {
    fn new(code: &Code) -> Halves {
        let t = code.params.t as usize;
        let columns: Vec<u64> = (0..code.places()).map(|j| key(code.parity.iter().map(|row| row[j]))).collect();
        let choices = |most: usize| {
            let sent = |places: &[usize]| places.iter().all(|&place| code.hidden[place] == 0);
            choices(&columns, most).into_iter().filter(move |(_, places)| sent(places))
        };
        Halves { larger: choices(t.div_ceil(2)).collect(), smaller: choices(t / 2).collect() }
    }

    fn repair(&self, code: &Code, received: &[u8]) -> Repaired {
        let wanted = key(code.syndrome(received).into_iter());
        let (one, other) = self.smaller.iter().find_map(|(sum, places)| {
            let rest = self.larger.get(&(wanted ^ sum))?;
            Some((places, rest))
        })?;
        let mut wide = code.widened(received);
        for &place in one.iter().chain(other) {
            wide[place] ^= 1;
        }
        let repaired = code.cut_down(&wide);
        let count = distance(&repaired, received) as u32;
        assert!(code.is_wide_code_word(&wide) && count <= code.params.t, "{:?}, {received:?}", code.params);
        Some((repaired, count))
    }
}

/// At most four elements as one number, so that sums of columns are sums of numbers.
fn key(elements: impl Iterator<Item = Elem>) -> u64 {
    let mut key = 0;
    for (count, element) in elements.enumerate() {
        assert!(count < 4, "the key holds four elements");
        key = key << 16 | u64::from(element);
    }
    key
}

/// All choices of at most `most` columns, with their sums.
fn choices(columns: &[u64], most: usize) -> Vec<(u64, Vec<usize>)> {
    let mut all = vec![(0, Vec::new())];
    let mut last = all.clone();
    for _ in 0..most {
        let mut longer = Vec::new();
        for (sum, places) in &last {
            let start = places.last().map_or(0, |place| place + 1);
            for place in start..columns.len() {
                longer.push((sum ^ columns[place], [places.as_slice(), &[place]].concat()));
            }
        }
        all.extend(longer.iter().cloned());
        last = longer;
    }
    all
}

/// Repair by the locator's equations.
///
/// A binary word is in the code of a Goppa polynomial g without multiple roots exactly if it is in the code of g².
/// The second gives 2t sums, S_l being that of L_j^l / g(L_j)² over the places that hold 1. If w places are in error,
/// w at most t, the polynomial with exactly their L_j as roots, x^w plus lower terms, takes any w + 1 neighbouring
/// sums to zero, and no other such polynomial of degree w or below does. So the lowest degree for which the equations
/// can be solved is tried, its roots among the L_j are turned, and the result is checked. There is one code word of all
/// places that near, if any: where it is not 0 at a hidden place, none is that is.
pub fn repair_by_locator(code: &Code, received: &[u8]) -> Repaired {
    let (m, t) = (code.params.m, code.params.t as usize);
    let roots = &params::roots(&code.params)[..t];
    let (mut wide, mut sums) = (code.widened(received), vec![0; 2 * t]);
    for (&place, _) in code.support.iter().zip(&wide).filter(|(_, &bit)| bit == 1) {
        let goppa = roots.iter().fold(1, |product, root| field::times(m, product, place ^ root));
        let mut term = field::reciprocal(m, field::times(m, goppa, goppa));
        for sum in &mut sums {
            *sum ^= term;
            term = field::times(m, term, place);
        }
    }
    // For each l: the lower coefficients times S_l, S_(l+1), ... make up S_(l+w).
    let locator = (0..=t).find_map(|w| {
        let equations = (0..2 * t - w).map(|l| sums[l..=l + w].to_vec());
        solve(m, w, equations)
    })?;
    for (bit, &place) in wide.iter_mut().zip(&code.support) {
        let value = locator.iter().rev().fold(1, |value, &coefficient| field::times(m, value, place) ^ coefficient);
        *bit ^= u8::from(value == 0);
    }
    let repaired = code.cut_down(&wide);
    let count = distance(&repaired, received);
    (count <= t && code.is_wide_code_word(&wide)).then_some((repaired, count as u32))
}

/// One solution of linear equations in `unknowns` unknowns, if there is any. An equation is its coefficients and then
/// what they make up.
fn solve(m: u32, unknowns: usize, equations: impl Iterator<Item = Vec<Elem>>) -> Option<Vec<Elem>> {
    // Each with an unknown of its own, whose coefficient is 1 in it and 0 in those behind it.
    let mut solved: Vec<(usize, Vec<Elem>)> = Vec::new();
    for mut equation in equations {
        for (unknown, other) in &solved {
            let multiple = field::multiplier(m, equation[*unknown]);
            equation.iter_mut().zip(other).for_each(|(entry, &other)| *entry ^= multiple(other));
        }
        match equation[..unknowns].iter().position(|&coefficient| coefficient != 0) {
            Some(unknown) => {
                let scale = field::multiplier(m, field::reciprocal(m, equation[unknown]));
                equation.iter_mut().for_each(|entry| *entry = scale(*entry));
                solved.push((unknown, equation));
            }
            None if equation[unknowns] != 0 => return None,
            None => {}
        }
    }
    // From the last equation up; an unknown without an equation of its own is zero.
    let mut solution = vec![0; unknowns];
    for (unknown, equation) in solved.iter().rev() {
        let terms = equation.iter().zip(&solution).map(|(&coefficient, &value)| field::times(m, coefficient, value));
        solution[*unknown] = terms.fold(equation[unknowns], |sum, term| sum ^ term);
    }
    Some(solution)
}

/// The repaired word with its count, or 10.
pub fn repair(setting: &impl Setting, received: &[u8], repaired_length: usize) -> Result<(Vec<u8>, u32), u32> {
    let code = setting.judge(None)?;
    code.judge_words(&[received.len(), repaired_length])?;
    words::judge_bits(received)?;
    Decoder::new(code).repair(received).ok_or(10)
}

#[cfg(test)]
mod tests {
    use super::params::{code_a, code_t, Params};
    use super::*;
    use crate::bits::{ones_at, turned};
    use crate::draw;
    use crate::random::Random;

    #[test]
    fn cases() {
        assert_eq!(repair(&code_a(), &[1, 0, 1, 0], 4), Ok((vec![1, 0, 1, 1], 1)));
        assert_eq!(repair(&code_a(), &[1, 1, 0, 0], 4), Err(10));
        let first_dark = ones_at(16, &[1, 2, 5, 6, 7, 8]);
        assert_eq!(repair(&code_t(), &turned(&first_dark, &[0, 8]), 16), Ok((first_dark, 2)));
        assert_eq!(repair(&code_t(), &ones_at(16, &[1, 2, 5]), 16), Err(10));
    }

    /// With its one message column hidden, code A has the zero word alone. The word that a place at the hidden column
    /// would repair is too far then.
    #[test]
    fn short_words() {
        let short = code_a().hiding(&[3]);
        assert_eq!(repair(&short, &[0, 1, 0], 3), Ok((vec![0; 3], 1)));
        assert_eq!(repair(&code_a(), &[1, 0, 1, 0], 4), Ok((vec![1, 0, 1, 1], 1)));
        assert_eq!(repair(&short, &[1, 0, 1], 3), Err(10));
        // Code T without place 9: first, dark is the same word but for it.
        let first_dark = ones_at(15, &[1, 2, 5, 6, 7, 8]);
        assert_eq!(repair(&code_t().hiding(&[9]), &turned(&first_dark, &[0, 14]), 15), Ok((first_dark, 2)));
    }

    #[test]
    fn refusals() {
        assert_eq!(repair(&code_t(), &[2; 15], 16), Err(2));
        assert_eq!(repair(&code_t(), &[2; 16], 15), Err(2));
        assert_eq!(repair(&code_t(), &[2; 16], 16), Err(8));
        assert_eq!(repair(&Params { t: 3, ..code_t() }, &[2; 16], 16), Err(7));
    }

    /// Every method that a code allows gives one answer, for words of every distance from a code word.
    #[test]
    fn the_methods_agree() {
        let mut random = Random::new(19);
        let mut too_far = 0;
        for code in draw::codes(&mut random, draw::fewer_shapes(), 512) {
            let (length, t) = (code.length(), code.params.t as usize);
            let all_words = (code.places() <= 8).then(|| code_words_among_all_words(&code));
            let all_messages = (code.k() <= 12).then(|| code_words_of_all_messages(&code));
            let halves = (t <= 4).then(|| Halves::new(&code));
            // The more rows, the longer the equations take.
            let weights = match (code.params.m, length, t) {
                (0..=8, ..) | (_, 0..=128, 0..=32) => (0..=length).collect(),
                (_, _, 0..=64) => vec![0, 1, t - 1, t, t + 1, t + 2, length / 2],
                _ => vec![],
            };
            for weight in weights.into_iter().filter(|&weight| weight <= length) {
                let sent = code.encode(&random.bits(code.k()));
                let received = turned(&sent, &random.places(length, weight));
                let answer = repair_by_locator(&code, &received);
                if weight <= t {
                    assert_eq!(answer, Some((sent, weight as u32)), "{:?}", code.params);
                }
                for list in all_words.iter().chain(&all_messages) {
                    assert_eq!(nearest_of_list(&code, list, &received), answer, "{:?}, {received:?}", code.params);
                }
                if let Some(halves) = &halves {
                    assert_eq!(halves.repair(&code, &received), answer, "{:?}, {received:?}", code.params);
                }
                too_far += usize::from(answer.is_none());
            }
        }
        assert!(too_far > 100, "words that are too far were among them");
    }

    /// Over all words of small codes, and many codes.
    #[test]
    fn the_methods_agree_on_all_words() {
        let mut random = Random::new(20);
        for _ in 0..10 {
            for code in draw::codes(&mut random, draw::shapes(), 8) {
                let list = code_words_among_all_words(&code);
                for number in 0..1_usize << code.length() {
                    let received = bits(number, code.length());
                    let nearest = nearest_of_list(&code, &list, &received);
                    assert_eq!(repair_by_locator(&code, &received), nearest, "{:?}, {received:?}", code.params);
                }
            }
        }
    }

    /// Any two code words differ in more than 2t places, so that demand 3's code word is the only one.
    #[test]
    fn code_words_lie_far_apart() {
        let mut random = Random::new(21);
        for code in draw::codes(&mut random, draw::fewer_shapes(), 512).into_iter().filter(|code| code.k() <= 12) {
            // Sums of code words are code words: what a word weighs is a distance.
            for word in code_words_of_all_messages(&code) {
                let weight = word.iter().filter(|&&bit| bit == 1).count();
                assert!(weight == 0 || weight > 2 * code.params.t as usize, "{:?}, {word:?}", code.params);
            }
        }
    }

    #[test]
    fn linear_equations() {
        let solve = |unknowns: usize, equations: Vec<Vec<Elem>>| solve(3, unknowns, equations.into_iter());
        // 2x = 6 and x + y = 1.
        assert_eq!(solve(2, vec![vec![2, 0, 6], vec![1, 1, 1]]), Some(vec![3, 2]));
        assert_eq!(solve(2, vec![vec![1, 1, 1], vec![2, 0, 6]]), Some(vec![3, 2]));
        assert_eq!(solve(2, vec![vec![1, 1, 1], vec![2, 2, 1]]), None);
        assert_eq!(solve(2, vec![vec![0, 3, 3], vec![0, 1, 1]]), Some(vec![0, 1]));
        assert_eq!(solve(1, vec![vec![0, 0], vec![3, 3]]), Some(vec![1]));
        assert_eq!(solve(0, vec![vec![0], vec![0]]), Some(vec![]));
        assert_eq!(solve(0, vec![vec![0], vec![5]]), None);
    }
}
