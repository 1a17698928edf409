//! The field: sums, products and inverses of elements.
//!
//! An element is a polynomial in u over the bits, bit i being the coefficient of u^i. Products are defined by
//! carry-less multiplication and long division. The powers of u run through all elements but zero, so that a product
//! is worked by the sum of two exponents and an inverse by the exponent's negative.

use crate::Elem;
use std::sync::OnceLock;

/// Each width with its reduction word.
pub const WORDS: [(u32, u32); 15] = [
    (2, 0x7),
    (3, 0xB),
    (4, 0x13),
    (5, 0x25),
    (6, 0x43),
    (7, 0x83),
    (8, 0x11D),
    (9, 0x211),
    (10, 0x409),
    (11, 0x805),
    (12, 0x1053),
    (13, 0x201B),
    (14, 0x4443),
    (15, 0x8003),
    (16, 0x1100B),
];

/// The reduction word of a width; none for a width that the table does not name.
pub fn word(m: u32) -> Option<u32> {
    WORDS.iter().find(|entry| entry.0 == m).map(|entry| entry.1)
}

/// q = 2^m, the number of elements.
pub fn size(m: u32) -> u32 {
    assert!(word(m).is_some(), "no field of width {m}");
    1 << m
}

/// The product of two polynomials over the bits.
fn carryless_product(a: u64, b: u64) -> u64 {
    (0..Elem::BITS).filter(|i| b >> i & 1 == 1).fold(0, |sum, i| sum ^ a << i)
}

/// The remainder of a polynomial over the bits, by long division.
fn remainder(mut dividend: u64, divisor: u64) -> u64 {
    // Both have their highest bit at the same place once the divisor is moved up by the difference.
    while dividend != 0 && dividend.leading_zeros() <= divisor.leading_zeros() {
        dividend ^= divisor << (divisor.leading_zeros() - dividend.leading_zeros());
    }
    dividend
}

/// The product of two elements as it is defined.
fn defined_product(m: u32, a: Elem, b: Elem) -> Elem {
    let word = word(m).expect("a width of the table");
    remainder(carryless_product(a.into(), b.into()), word.into()) as Elem
}

/// What a width gives, worked out once.
struct Tables {
    /// The power u^i at i, for every sum of two exponents.
    powers: Vec<Elem>,
    /// For each element but zero the exponent below q − 1 whose power it is.
    exponents: Vec<u16>,
}

impl Tables {
    fn new(m: u32) -> Tables {
        let order = size(m) as usize - 1;
        let mut powers: Vec<Elem> = vec![1];
        for i in 1..order {
            powers.push(defined_product(m, powers[i - 1], 2));
        }
        let mut exponents = vec![0; order + 1];
        let mut met = vec![false; order + 1];
        for (i, &power) in powers.iter().enumerate() {
            exponents[usize::from(power)] = i as u16;
            met[usize::from(power)] = true;
        }
        assert!(!met[0] && met[1..].iter().all(|&met| met), "the powers of u are not all elements of width {m}");
        powers.extend_from_within(..);
        Tables { powers, exponents }
    }
}

fn tables(m: u32) -> &'static Tables {
    static TABLES: [OnceLock<Tables>; 17] = [const { OnceLock::new() }; 17];
    TABLES[m as usize].get_or_init(|| Tables::new(m))
}

/// Multiplication by a fixed element of the field of width m.
pub fn multiplier(m: u32, factor: Elem) -> impl Fn(Elem) -> Elem {
    let Tables { powers, exponents } = tables(m);
    let exponent = |element: Elem| usize::from(exponents[usize::from(element)]);
    let of_factor = exponent(factor);
    move |other| match (factor, other) {
        (0, _) | (_, 0) => 0,
        _ => powers[of_factor + exponent(other)],
    }
}

/// The product of two elements of the field of width m.
pub fn times(m: u32, a: Elem, b: Elem) -> Elem {
    multiplier(m, a)(b)
}

/// 1/a for a nonzero element: the one element whose product with a is 1.
pub fn reciprocal(m: u32, a: Elem) -> Elem {
    assert!(a != 0, "no product with zero is one");
    let Tables { powers, exponents } = tables(m);
    powers[size(m) as usize - 1 - usize::from(exponents[usize::from(a)])]
}

/// 1 for a width outside the table, then 3 for an element of q or more.
fn judge(m: u32, elements: &[u32]) -> Result<(), u32> {
    if word(m).is_none() {
        return Err(1);
    }
    if elements.iter().any(|&element| element >= size(m)) {
        return Err(3);
    }
    Ok(())
}

pub fn sum(m: u32, a: u32, b: u32) -> Result<u32, u32> {
    judge(m, &[a, b])?;
    Ok(a ^ b)
}

pub fn product(m: u32, a: u32, b: u32) -> Result<u32, u32> {
    judge(m, &[a, b])?;
    Ok(times(m, a as Elem, b as Elem).into())
}

/// 1/a, and 0 for 0.
pub fn inverse(m: u32, a: u32) -> Result<u32, u32> {
    judge(m, &[a])?;
    if a == 0 {
        return Ok(0);
    }
    Ok(reciprocal(m, a as Elem).into())
}

#[cfg(test)]
mod tests {
    use super::*;
    use crate::draw;
    use crate::random::Random;

    #[test]
    fn cases() {
        assert_eq!(product(5, 2, 16), Ok(5));
        assert_eq!(inverse(5, 12), Ok(7));
        assert_eq!(product(1, 0, 0), Err(1));
        assert_eq!(product(17, 0, 0), Err(1));
        assert_eq!(product(2, 2, 2), Ok(3));
        assert_eq!(product(8, 2, 128), Ok(0x1D));
        assert_eq!(product(9, 2, 256), Ok(0x11));
        assert_eq!(product(16, 2, 0x8000), Ok(0x100B));
        assert_eq!(sum(16, 65535, 65535), Ok(0));
        assert_eq!(sum(4, 16, 0), Err(3));
        assert_eq!(sum(16, 65536, 0), Err(3));
        assert_eq!(inverse(4, 0), Ok(0));
    }

    /// Multiplying by u is a shift, with the word taken off where the shift runs over; that says the product again.
    fn product_by_shifts(m: u32, a: Elem, b: Elem) -> Elem {
        let mut shifted = u32::from(a);
        let mut total = 0;
        for i in 0..m {
            if b >> i & 1 == 1 {
                total ^= shifted;
            }
            shifted <<= 1;
            if shifted >= size(m) {
                shifted ^= word(m).expect("a width of the table");
            }
        }
        total as Elem
    }

    #[track_caller]
    fn assert_product(m: u32, a: Elem, b: Elem) {
        let product = defined_product(m, a, b);
        assert_eq!(times(m, a, b), product, "width {m}: {a} times {b}");
        assert_eq!(product_by_shifts(m, a, b), product, "width {m}: {a} times {b}, by shifts");
    }

    /// Of all pairs up to width 8; of every element and every u^i beyond, which says all of a product by linearity, and
    /// of random pairs.
    #[test]
    fn products_are_as_defined() {
        let mut random = Random::new(10);
        for (m, _) in WORDS {
            let elements = || (0..size(m)).map(|element| element as Elem);
            for a in elements() {
                if m <= 8 {
                    elements().for_each(|b| assert_product(m, a, b));
                } else {
                    (0..m).for_each(|i| assert_product(m, a, 1 << i));
                }
            }
            for _ in 0..20_000 {
                assert_product(m, draw::element(&mut random, m), draw::element(&mut random, m));
            }
        }
    }

    #[test]
    fn reciprocals_of_all_elements() {
        for (m, _) in WORDS {
            for a in (1..size(m)).map(|a| a as Elem) {
                assert_eq!(defined_product(m, a, reciprocal(m, a)), 1, "width {m}, element {a}");
            }
        }
    }

    #[test]
    fn every_nonzero_element_has_exactly_one_inverse() {
        for (m, _) in WORDS.into_iter().filter(|entry| entry.0 <= 8) {
            for a in 0..size(m) {
                let inverses = (0..size(m)).filter(|&b| times(m, a as Elem, b as Elem) == 1).count();
                assert_eq!(inverses, usize::from(a != 0), "width {m}, element {a}");
            }
        }
    }
}
