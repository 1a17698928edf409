//! The bench sheet: a code as two lines of text, and the listing of what it gives.

use crate::c::{self, answer};
use crate::code::LONGEST;
use crate::Refusal;

/// The length of the longest listing: a line of six numbers and 512 lines of four, each number in six columns.
pub const LONGEST_LISTING: usize = (6 * 6 + 1) + LONGEST * (4 * 6 + 1);

/// Writes the listing of the code on a sheet, which hides nothing, to the front of `out` and gives its length. Refused
/// by 13 (no sheet), 1 to 7 (its code), 2 (the listing has no room).
pub fn listing(text: &[u8], out: &mut [u8]) -> Result<usize, Refusal> {
    // SAFETY: each pointer goes with the length of its slice, and the slices do not overlap.
    let length = answer(unsafe { c::zov_sheet(text.as_ptr(), text.len(), out.as_mut_ptr(), out.len()) })?;
    Ok(length as usize)
}
