//! The essence of a signature, both ways. Whether its values are independent is found by elimination.

use super::field;
use super::params::{judge_signature, LENGTHS};
use crate::Elem;

/// Whether an element is a sum of some of `values`, or of none of them.
pub fn is_sum(values: &[Elem], element: Elem) -> bool {
    // Each value is first freed of the highest bits of those before it; then so is the element of all of them.
    let free = |freed: &[Elem], element: Elem| freed.iter().fold(element, |left, value| left.min(left ^ value));
    let mut freed = Vec::new();
    values.iter().for_each(|&value| freed.push(free(&freed, value)));
    free(&freed, element) == 0
}

/// 1 for the width; 2 unless a signature of n entries has an essence of `count` values; 3 for an entry of q or more in
/// the list that is converted.
fn judge(m: u32, list: &[Elem], n: usize, count: usize) -> Result<(), u32> {
    if field::word(m).is_none() {
        return Err(1);
    }
    if !LENGTHS.into_iter().any(|length| (length as usize, length.ilog2() as usize + 1) == (n, count)) {
        return Err(2);
    }
    if list.iter().any(|&entry| u32::from(entry) >= field::size(m)) {
        return Err(3);
    }
    Ok(())
}

/// The essence of a signature: 1/h at 2^s plus 1/h_0 for each s, and then 1/h_0.
pub fn essence(m: u32, h: &[Elem], essence_length: usize) -> Result<Vec<Elem>, u32> {
    judge(m, h, h.len(), essence_length)?;
    judge_signature(m, h)?;
    let over = |i: usize| field::reciprocal(m, h[i]);
    let steps = (0..h.len().ilog2()).map(|s| over(1 << s) ^ over(0));
    Ok(steps.chain([over(0)]).collect())
}

/// The signature of an essence; 17 if some of its values sum to zero, so that one of them is a sum of those before it.
pub fn signature(m: u32, values: &[Elem], signature_length: usize) -> Result<Vec<Elem>, u32> {
    judge(m, values, signature_length, values.len())?;
    if (0..values.len()).any(|place| is_sum(&values[..place], values[place])) {
        return Err(17);
    }
    let (&first, steps) = values.split_last().expect("two values or more");
    let mut over = vec![first];
    for step in steps {
        // The indices with one bit more have the step more.
        let further: Vec<Elem> = over.iter().map(|entry| entry ^ step).collect();
        over.extend(further);
    }
    Ok(over.into_iter().map(|entry| field::reciprocal(m, entry)).collect())
}

#[cfg(test)]
mod tests {
    use super::super::params::{code_a, code_t};
    use super::*;
    use crate::draw;
    use crate::random::Random;

    #[test]
    fn cases() {
        assert_eq!(essence(5, &code_t().h, 5), Ok(vec![17, 30, 18, 1, 7]));
        assert_eq!(signature(5, &[17, 30, 18, 1, 7], 16), Ok(code_t().h));
        assert_eq!(essence(3, &code_a().h, 3), Ok(vec![1, 2, 4]));
        assert_eq!(signature(3, &[1, 2, 4], 4), Ok(code_a().h));
        assert_eq!(essence(3, &[7, 2, 3, 5], 3), Err(5));
        assert_eq!(essence(2, &[1, 1, 1, 1], 3), Err(6));
        assert_eq!(essence(2, &[1, 0], 2), Err(4));
        assert_eq!(signature(3, &[1, 2, 3], 4), Err(17));
        assert_eq!(signature(3, &[0, 2], 2), Err(17));
        assert_eq!(signature(3, &[5, 5], 2), Err(17));
    }

    #[test]
    fn limits() {
        assert_eq!(essence(1, &[4, 0, 0], 2), Err(1));
        assert_eq!(signature(17, &[4], 2), Err(1));
        assert_eq!(essence(2, &[4, 0, 0], 2), Err(2));
        assert_eq!(essence(2, &[4, 0], 3), Err(2));
        assert_eq!(essence(2, &[4, 0], 2), Err(3));
        assert_eq!(signature(2, &[4, 0], 4), Err(2));
        assert_eq!(signature(2, &[4, 0], 2), Err(3));
        let powers: Vec<Elem> = (0..11).map(|place| 1 << place).collect();
        for count in 0..=11 {
            let answer = signature(16, &powers[..count], (1 << count) / 2);
            assert_eq!(answer.err(), (!(2..=10).contains(&count)).then_some(2), "{count} values");
        }
    }

    #[test]
    fn sums_of_some_values() {
        let mut random = Random::new(23);
        for _ in 0..200 {
            let values = draw::block(&mut random, 5, 3);
            let sums: Vec<Elem> = (0..8).map(|choice| draw::chosen(&values, choice)).collect();
            assert!((0..32).all(|element| is_sum(&values, element) == sums.contains(&element)), "{values:?}");
        }
    }

    /// Over the smallest fields, every list of values: it converts exactly if no choice of them sums to zero, into a
    /// signature that is accepted and has it for its essence.
    #[test]
    fn an_essence_converts_exactly_if_no_choice_sums_to_zero() {
        for (m, count) in [(2, 2), (2, 3), (3, 2), (3, 3), (3, 4), (4, 2), (4, 3), (4, 4), (5, 3)] {
            let mut accepted = 0;
            for values in draw::every_list(m, count) {
                let independent = (1..1 << count).all(|choice| draw::chosen(&values, choice) != 0);
                let answer = signature(m, &values, 1 << (count - 1));
                assert_eq!(answer.as_ref().err(), (!independent).then_some(&17), "width {m}, {values:?}");
                if let Ok(h) = answer {
                    assert_eq!(judge_signature(m, &h), Ok(()), "width {m}, {values:?}");
                    assert_eq!(essence(m, &h, count), Ok(values), "width {m}");
                    accepted += 1;
                }
            }
            // As many as theorem 3 of document 004 counts signatures: the product of q - 2^i.
            let counted: u32 = (0..count).map(|i| field::size(m).saturating_sub(1 << i)).product();
            assert_eq!(accepted, counted, "width {m}, {count} values");
        }
    }

    /// Over the smallest fields every accepted signature, and drawn ones of every length and width.
    #[test]
    fn signatures_come_back_from_their_essences() {
        let comes_back = |m: u32, h: &[Elem]| {
            let values = essence(m, h, h.len().ilog2() as usize + 1).expect("accepted");
            assert_eq!(signature(m, &values, h.len()).as_deref(), Ok(h), "width {m}, {values:?}");
        };
        for (m, n) in [(2, 2), (3, 2), (3, 4), (4, 2), (4, 4)] {
            let accepted = draw::every_list(m, n).filter(|h| judge_signature(m, h).is_ok());
            accepted.for_each(|h| comes_back(m, &h));
        }
        let mut random = Random::new(24);
        for (m, n) in draw::signature_shapes() {
            comes_back(m, &draw::signature(&mut random, m, n));
        }
    }
}
