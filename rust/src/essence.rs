//! The short form of a signature.

use crate::c::{self, done};
use crate::{Elem, Refusal};

/// The essence of a signature: its short form, from which [`signature`] brings it back. That of 2^e elements has e + 1
/// values: 1/h at 2^s plus 1/h_0, for each s below e, and then 1/h_0.
///
/// Refused by 1, 2 (a length of `h` other than a power of two from 2 to 512, or of `out` other than e + 1), 3, and then
/// as a code's signature is, by 4, 5, 6.
///
/// ```
/// use zovunelith::{essence, signature, Refusal};
///
/// let h = [12, 8, 10, 22, 26, 9, 16, 21, 14, 5, 17, 4, 30, 23, 25, 31];
/// let mut short = [0; 5];
/// essence(5, &h, &mut short)?;
/// assert_eq!(short, [17, 30, 18, 1, 7]);
///
/// let mut back = [0; 16];
/// signature(5, &short, &mut back)?;
/// assert_eq!(back, h);
/// # Ok::<(), Refusal>(())
/// ```
pub fn essence(m: u32, h: &[Elem], out: &mut [Elem]) -> Result<(), Refusal> {
    // SAFETY: each pointer goes with the length of its slice, and the slices do not overlap.
    done(unsafe { c::zov_essence(m, h.as_ptr(), h.len(), out.as_mut_ptr(), out.len()) })
}

/// The signature of an essence, which is accepted as a code's.
///
/// Refused by 1, 2 (a length of `essence`, e + 1, other than 2 to 10, or of `out` other than 2^e), 3, 17 (some of the
/// values, one or more, sum to zero).
///
/// ```
/// use zovunelith::{nothing_hidden, signature, Code, Refusal};
///
/// let mut h = [0; 8];
/// signature(4, &[1, 2, 4, 8], &mut h)?;
/// let code = Code { m: 4, n: 8, t: 2, omega: 0, h: &h, hidden: nothing_hidden(8) };
/// assert_eq!(code.check(&mut [0; 8], &mut [0; 8]), Ok(()));
///
/// // 3 is 1 plus 2
/// assert_eq!(signature(4, &[1, 2, 4, 3], &mut [0; 8]), Err(Refusal::Dependent));
/// # Ok::<(), Refusal>(())
/// ```
pub fn signature(m: u32, essence: &[Elem], out: &mut [Elem]) -> Result<(), Refusal> {
    // SAFETY: each pointer goes with the length of its slice, and the slices do not overlap.
    done(unsafe { c::zov_signature(m, essence.as_ptr(), essence.len(), out.as_mut_ptr(), out.len()) })
}
