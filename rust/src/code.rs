//! A code's parameters, and the calls on its words.

use crate::c::{self, answer, call, done};
use crate::words::calls_on_words;
use crate::{Elem, Reading, Refusal, Row};

/// The greatest n.
pub(crate) const LONGEST: usize = 512;

/// A code's parameters: a card. Any values may stand here; a call refuses those that break a rule by 1 to 7, and then
/// the marks by 20.
///
/// A sender with fewer bits than n hides some message columns: they always hold 0 and are not transmitted. Words then
/// have a byte for each sent place, messages one for each sent message column, and everything else is as before, up to
/// the t bits that are repaired. This is the shortened code.
///
/// ```
/// use zovunelith::{nothing_hidden, Code, Refusal};
///
/// let h = [12, 8, 10, 22, 26, 9, 16, 21, 14, 5, 17, 4, 30, 23, 25, 31];
/// let whole = Code { m: 5, n: 16, t: 2, omega: 24, h: &h, hidden: nothing_hidden(16) };
/// let mut roles = [0; 16];
/// assert_eq!(whole.roles(&mut roles)?, 6);
/// assert_eq!(roles, [0, 0, 0, 0, 0, 0, 0, 0, 1, 1, 0, 0, 1, 1, 1, 1]);
///
/// // Of the message columns, the one at place 9 is hidden: words of 15 bits that carry 5.
/// let short = Code { hidden: &[0, 0, 0, 0, 0, 0, 0, 0, 0, 1, 0, 0, 0, 0, 0, 0], ..whole };
/// assert_eq!((short.roles(&mut roles)?, short.sent()), (5, 15));
///
/// // The word is the whole code's with 0 at that place, and without it.
/// let (mut word, mut longer) = ([0; 15], [0; 16]);
/// short.encode(&[1, 0, 1, 1, 0], &mut word)?;
/// whole.encode(&[1, 0, 0, 1, 1, 0], &mut longer)?;
/// assert_eq!((&word[..9], &word[9..]), (&longer[..9], &longer[10..]));
///
/// let mut received = word;
/// received[0] ^= 1;
/// received[14] ^= 1;
/// let mut repaired = [0; 15];
/// assert_eq!(short.repair(&received, &mut repaired)?, 2);
/// assert_eq!(repaired, word);
///
/// // Other marks make another card, and a check column can't be hidden.
/// assert_eq!(whole.same(&short), Ok(false));
/// let refused = Code { hidden: &[1, 0, 0, 0, 0, 0, 0, 0, 0, 0, 0, 0, 0, 0, 0, 0], ..whole };
/// assert_eq!(refused.check(&mut [0; 16], &mut [0; 16]), Err(Refusal::Hidden));
/// # Ok::<(), Refusal>(())
/// ```
#[derive(Clone, Copy, Debug, PartialEq, Eq)]
pub struct Code<'a> {
    /// The width of the field, 2 to 16.
    pub m: u32,
    /// The number of places of a word, a power of two from 2 to 512.
    pub n: u32,
    /// The number of roots, a power of two from 1 to n/2: so many turned bits are repaired.
    pub t: u32,
    /// The offset of roots and support, below 2^m.
    pub omega: u32,
    /// The signature, n elements.
    pub h: &'a [Elem],
    /// A mark for each place: 0 sent, 1 hidden. A hidden place must be a message column. For a code that sends them all
    /// there is [`nothing_hidden`].
    pub hidden: &'a [u8],
}

/// The marks of a code with n places that hides none of them: n zeros. For an n above 512, which no code has, there are
/// 512; such a code is refused by 2, whatever its marks are.
///
/// ```
/// use zovunelith::{nothing_hidden, Code};
///
/// assert_eq!(nothing_hidden(4), [0, 0, 0, 0]);
/// const CODE: Code = Code { m: 3, n: 4, t: 1, omega: 0, h: &[7, 2, 3, 4], hidden: nothing_hidden(4) };
/// assert_eq!(CODE.sent(), 4);
/// assert_eq!(CODE.check(&mut [0; 4], &mut [0; 4]), Ok(()));
/// ```
pub const fn nothing_hidden(n: u32) -> &'static [u8] {
    const MARKS: &[u8] = &[0; LONGEST];
    if n as usize > LONGEST {
        return MARKS;
    }
    MARKS.split_at(n as usize).0
}

impl Code<'_> {
    /// Whether the code is accepted; then its roots and its support are in the buffers, n elements each, whatever is
    /// hidden. Refused by 1 to 7, 20.
    pub fn check(&self, roots: &mut [Elem], support: &mut [Elem]) -> Result<(), Refusal> {
        done(call!(self, zov_check, roots.as_mut_ptr(), roots.len(), support.as_mut_ptr(), support.len()))
    }

    /// Whether two codes are the same: whether m, n, t, ω, h and the marks agree. Refused by the lower number of both
    /// codes, each of which has its own of 1 to 7, 20.
    ///
    /// Two accepted codes that differ in ω alone are not the same, since their supports differ. But they answer every
    /// call on words alike:
    ///
    /// ```
    /// use zovunelith::{nothing_hidden, Code};
    ///
    /// let code = Code { m: 3, n: 4, t: 1, omega: 0, h: &[7, 2, 3, 4], hidden: nothing_hidden(4) };
    /// let moved = Code { omega: 5, ..code };
    /// assert_eq!(code.same(&code), Ok(true));
    /// assert_eq!(code.same(&moved), Ok(false));
    ///
    /// let (mut word, mut moved_word) = ([0; 4], [0; 4]);
    /// assert_eq!(code.encode(&[1], &mut word), Ok(()));
    /// assert_eq!(moved.encode(&[1], &mut moved_word), Ok(()));
    /// assert_eq!(word, moved_word);
    /// ```
    pub fn same(&self, other: &Code<'_>) -> Result<bool, Refusal> {
        let Code { m, n, t, omega, h, hidden } = *other;
        let (marks, length) = (hidden.as_ptr(), hidden.len());
        let same = answer(call!(self, zov_same, m, n, t, omega, h.as_ptr(), h.len(), marks, length))?;
        Ok(same == 1)
    }
}

calls_on_words! {
    Code, "1 to 7, 20", call,
    zov_roles, zov_syndrome, zov_encode, zov_message, zov_repair, zov_write_row, zov_read_row
}
