//! The field of 2^m elements, m from 2 to 16. An element is a number below 2^m.

use crate::c::{self, answer};
use crate::Refusal;

/// The sum of two elements. Refused by 1, 3.
pub fn sum(m: u32, a: u32, b: u32) -> Result<u32, Refusal> {
    // SAFETY: numbers only; every number may come.
    answer(unsafe { c::zov_field_sum(m, a, b) })
}

/// The product of two elements. Refused by 1, 3. All products of a width take the same number of instructions, whatever
/// the elements are; this is counted, for many pairs, and not proved.
///
/// The number 2 is the element u, and the product by it is a shift, cut back by the width's reduction word where a bit
/// runs over:
///
/// ```
/// use zovunelith::field::product;
///
/// assert_eq!(product(5, 2, 0b01001), Ok(0b10010));
/// assert_eq!(product(5, 2, 0b10001), Ok(0b100010 ^ 0x25));
/// ```
pub fn product(m: u32, a: u32, b: u32) -> Result<u32, Refusal> {
    // SAFETY: numbers only; every number may come.
    answer(unsafe { c::zov_field_product(m, a, b) })
}

/// The element whose product with a is 1; for 0, which has none, it is 0. Refused by 1, 3.
///
/// ```
/// use zovunelith::field::inverse;
///
/// assert_eq!(inverse(5, 12), Ok(7));
/// assert_eq!(inverse(5, 0), Ok(0));
/// ```
pub fn inverse(m: u32, a: u32) -> Result<u32, Refusal> {
    // SAFETY: numbers only; every number may come.
    answer(unsafe { c::zov_field_inverse(m, a) })
}
