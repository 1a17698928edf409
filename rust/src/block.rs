//! Dyadic blocks: signatures of s elements, s a power of two from 1 to 512, whose matrix has the entry at i ⊕ j in row
//! i and column j. The result goes into `out`, which has s elements too.

use crate::c::{self, done};
use crate::{Elem, Refusal};

/// The signature of the sum of the matrices. Refused by 1, 2, 3.
pub fn sum(m: u32, a: &[Elem], b: &[Elem], out: &mut [Elem]) -> Result<(), Refusal> {
    // SAFETY: each pointer goes with the length of its slice; only slices that are read can overlap.
    done(unsafe { c::zov_block_sum(m, a.as_ptr(), a.len(), b.as_ptr(), b.len(), out.as_mut_ptr(), out.len()) })
}

/// The signature of the product of the matrices. Refused by 1, 2, 3. All products of a width and a length take the same
/// number of instructions; this is counted, for many pairs of length 16, and not proved.
pub fn product(m: u32, a: &[Elem], b: &[Elem], out: &mut [Elem]) -> Result<(), Refusal> {
    // SAFETY: each pointer goes with the length of its slice; only slices that are read can overlap.
    done(unsafe { c::zov_block_product(m, a.as_ptr(), a.len(), b.as_ptr(), b.len(), out.as_mut_ptr(), out.len()) })
}

/// The signature of the inverse matrix. Refused by 1, 2, 3, 9.
pub fn inverse(m: u32, a: &[Elem], out: &mut [Elem]) -> Result<(), Refusal> {
    // SAFETY: each pointer goes with the length of its slice, and the slices do not overlap.
    done(unsafe { c::zov_block_inverse(m, a.as_ptr(), a.len(), out.as_mut_ptr(), out.len()) })
}

/// The signature that a formula such as `A+B*C'` stands for, A to D being the blocks in their order. An empty slice is a
/// block that is not lent.
///
/// A mark `'` after a term is the term's inverse, and may be repeated. Then come `*` and `/`, then `+`, each from left to
/// right; X/Y is X times the inverse of Y. Round brackets hold a whole formula again and nest at most eight deep. A text
/// has 1 to 128 bytes and no blanks.
///
/// Refused by 1, 2, 3 (what is lent, named in the text or not), 16 (a text outside these rules, or a letter with no block
/// lent), 9 (an inverse that the text asks for does not exist).
///
/// ```
/// use zovunelith::{block, Refusal};
///
/// let (a, b, c) = ([1, 2, 3, 4], [5, 6, 7, 1], [2, 2, 4, 1]);
/// let mut out = [0; 4];
/// block::formula(3, b"A+B*C'", [&a, &b, &c, &[]], &mut out)?;
///
/// let (mut inverse, mut product, mut sum) = ([0; 4], [0; 4], [0; 4]);
/// block::inverse(3, &c, &mut inverse)?;
/// block::product(3, &b, &inverse, &mut product)?;
/// block::sum(3, &a, &product, &mut sum)?;
/// assert_eq!(out, sum);
///
/// assert_eq!(block::formula(3, b"A+B*D'", [&a, &b, &c, &[]], &mut out), Err(Refusal::Formula));
/// assert_eq!(block::formula(3, b"A+B*(C+C)'", [&a, &b, &c, &[]], &mut out), Err(Refusal::DeadBlock));
/// assert_eq!(out, sum);
/// # Ok::<(), Refusal>(())
/// ```
pub fn formula(m: u32, text: &[u8], blocks: [&[Elem]; 4], out: &mut [Elem]) -> Result<(), Refusal> {
    let [a, b, c, d] = blocks;
    // SAFETY: each pointer goes with the length of its slice; only slices that are read can overlap.
    done(unsafe {
        c::zov_formula(
            m,
            text.as_ptr(),
            text.len(),
            a.as_ptr(),
            a.len(),
            b.as_ptr(),
            b.len(),
            c.as_ptr(),
            c.len(),
            d.as_ptr(),
            d.len(),
            out.as_mut_ptr(),
            out.len(),
        )
    })
}
