//! Turns for several senders: their words wait, and each round hands out and repairs those that are due.

use crate::c::{self, answer, call, done};
use crate::{Code, Refusal};
use core::slice;

/// How many senders a dash listens to at most, and how many words a round repairs at most.
pub const MOST_SENDERS: usize = 8;

/// What stands in a list of answers for a sender whose word did not leave (`ZOV_NONE`).
pub const NONE: i32 = i32::MIN;

/// The senders that one dash listens to, numbered from 0, all on one card, and their words that wait. A sender has at
/// most one of these.
///
/// A round hands out every waiting word that is a code word, and repairs the first R of the others in turn, or all of
/// them if fewer wait. Turns go up by number and round again; they begin after the sender last tried, and at 0 the
/// first time. Handing out a code word doesn't move the turn. A word that was handed out, repaired or refused by 10 has
/// left, and what its sender gets is the answer of [`Code::repair`].
///
/// With S senders a word leaves within ⌈S/R⌉ rounds, the one after its arrival being the first, whatever the others
/// send. That holds in every state that offers and rounds make from the start, and no other can stand here: the buffers
/// are lent for as long as this value lives.
///
/// ```
/// use zovunelith::{nothing_hidden, Code, Lamp, Refusal, Row, Senders};
///
/// let h = [12, 8, 10, 22, 26, 9, 16, 21, 14, 5, 17, 4, 30, 23, 25, 31];
/// let code = Code { m: 5, n: 16, t: 2, omega: 24, h: &h, hidden: nothing_hidden(16) };
/// let mut word = [0; 16];
/// code.write_row(Row { gear: 1, lamp: Lamp::Dark }, &mut word)?;
/// let mut turned = word;
/// turned[0] ^= 1;
///
/// let (mut waiting, mut words, mut handed) = ([0; 3], [0; 3 * 16], [0; 3 * 16]);
/// let mut senders = Senders::start(code, 3, 1, &mut waiting, &mut words)?;
/// senders.offer(0, &turned)?;
/// senders.offer(1, &word)?;
/// senders.offer(2, &turned)?;
///
/// // Sender 0 has the turn, and 1 needs none. Offering again at once doesn't take 2's turn away.
/// assert!(senders.round(&mut handed)?.iter().eq([(0, Ok(1)), (1, Ok(0))]));
/// senders.offer(0, &turned)?;
/// assert!(senders.round(&mut handed)?.iter().eq([(2, Ok(1))]));
/// assert!(senders.round(&mut handed)?.iter().eq([(0, Ok(1))]));
/// # Ok::<(), Refusal>(())
/// ```
#[derive(Debug)]
pub struct Senders<'a> {
    code: Code<'a>,
    senders: u32,
    repairs: u32,
    /// 1 for each sender whose word waits, and 0 for another.
    waiting: &'a mut [u8],
    /// A word for each sender, which means something only where it waits.
    words: &'a mut [u8],
    /// The sender whose turn it is.
    next: u32,
}

impl<'a> Senders<'a> {
    /// So many senders, and so many repairs in each round: both stay, and so does the code. No word waits, and the turn
    /// is that of sender 0. For each sender `waiting` has a byte, and `words` a byte for each sent place; what stands
    /// in them doesn't matter.
    ///
    /// Refused by 1 to 7, with 2 for another length of `waiting`; then by 20 and 18 (senders or repairs not from 1 to
    /// [`MOST_SENDERS`]). Another length of `words` is not found here: it is refused by 2 in the first offer or round.
    ///
    /// ```
    /// use zovunelith::{nothing_hidden, Code, Refusal, Senders};
    ///
    /// let h = [12, 8, 10, 22, 26, 9, 16, 21, 14, 5, 17, 4, 30, 23, 25, 31];
    /// let code = Code { m: 5, n: 16, t: 2, omega: 24, h: &h, hidden: nothing_hidden(16) };
    /// let (mut waiting, mut words) = ([1; 3], [0; 3 * 16]);
    ///
    /// assert_eq!(Senders::start(code, 3, 9, &mut waiting, &mut words).err(), Some(Refusal::Sender));
    /// assert_eq!(Senders::start(code, 4, 2, &mut waiting, &mut words).err(), Some(Refusal::Length));
    /// assert_eq!(waiting, [1; 3]);
    ///
    /// let senders = Senders::start(code, 3, 2, &mut waiting, &mut words)?;
    /// assert!(!senders.waits(0) && !senders.waits(1) && !senders.waits(2));
    /// # Ok::<(), Refusal>(())
    /// ```
    pub fn start(
        code: Code<'a>,
        senders: u32,
        repairs: u32,
        waiting: &'a mut [u8],
        words: &'a mut [u8],
    ) -> Result<Senders<'a>, Refusal> {
        let mut next = 0;
        code.senders_start(senders, repairs, waiting, slice::from_mut(&mut next))?;
        Ok(Senders { code, senders, repairs, waiting, words, next })
    }

    /// Has a sender's word wait, a byte for each sent place.
    ///
    /// Refused by 2 (the length of the word, or of the lent `words`), 18 (no such sender), 19 (a word of that sender
    /// waits already), 8. The code is as it was accepted at the start, so that nothing refuses it here.
    ///
    /// ```
    /// use zovunelith::{nothing_hidden, Code, Lamp, Refusal, Row, Senders};
    ///
    /// let h = [12, 8, 10, 22, 26, 9, 16, 21, 14, 5, 17, 4, 30, 23, 25, 31];
    /// let code = Code { m: 5, n: 16, t: 2, omega: 24, h: &h, hidden: nothing_hidden(16) };
    /// let mut word = [0; 16];
    /// code.write_row(Row { gear: 1, lamp: Lamp::Dark }, &mut word)?;
    ///
    /// let (mut waiting, mut words) = ([0; 3], [0; 3 * 16]);
    /// let mut senders = Senders::start(code, 3, 1, &mut waiting, &mut words)?;
    /// senders.offer(2, &word)?;
    /// assert!(senders.waits(2));
    /// assert_eq!(senders.offer(2, &word), Err(Refusal::Waiting));
    /// assert_eq!(senders.offer(3, &word), Err(Refusal::Sender));
    /// # Ok::<(), Refusal>(())
    /// ```
    pub fn offer(&mut self, sender: u32, word: &[u8]) -> Result<(), Refusal> {
        self.code.senders_offer(self.senders, self.repairs, sender, word, self.waiting, self.words)
    }

    /// Hands out and repairs what is due. `handed` has room for a word of each sender: where a word left and is not too
    /// far, the code word stands in its sender's part, and every other part is left alone.
    ///
    /// Refused by 2 (the length of `handed`, or of the lent `words`) and by nothing else; then every word still waits.
    ///
    /// ```
    /// use zovunelith::{nothing_hidden, Code, Lamp, Refusal, Row, Senders};
    ///
    /// let h = [12, 8, 10, 22, 26, 9, 16, 21, 14, 5, 17, 4, 30, 23, 25, 31];
    /// let code = Code { m: 5, n: 16, t: 2, omega: 24, h: &h, hidden: nothing_hidden(16) };
    /// let mut word = [0; 16];
    /// code.write_row(Row { gear: 1, lamp: Lamp::Dark }, &mut word)?;
    /// let (mut two, mut three) = (word, word);
    /// two[..2].iter_mut().for_each(|bit| *bit ^= 1);
    /// three[..3].iter_mut().for_each(|bit| *bit ^= 1);
    ///
    /// let (mut waiting, mut words, mut handed) = ([0; 3], [0; 3 * 16], [7; 3 * 16]);
    /// let mut senders = Senders::start(code, 3, 1, &mut waiting, &mut words)?;
    /// senders.offer(0, &three)?;
    /// senders.offer(2, &two)?;
    ///
    /// let answers = senders.round(&mut handed)?;
    /// assert_eq!(answers.of(0), Some(Err(Refusal::TooFar)));
    /// assert_eq!((answers.of(1), answers.of(2)), (None, None));
    /// assert_eq!(handed, [7; 3 * 16]);
    ///
    /// let answers = senders.round(&mut handed)?;
    /// assert_eq!((answers.of(0), answers.of(1), answers.of(2)), (None, None, Some(Ok(2))));
    /// assert_eq!((&handed[..32], &handed[32..]), (&[7; 32][..], &word[..]));
    /// # Ok::<(), Refusal>(())
    /// ```
    pub fn round(&mut self, handed: &mut [u8]) -> Result<Answers, Refusal> {
        let mut answers = Answers([NONE; MOST_SENDERS]);
        let next = slice::from_mut(&mut self.next);
        // The start has let no more senders than this through.
        let list = &mut answers.0[..self.senders as usize];
        self.code.senders_round(self.senders, self.repairs, self.waiting, self.words, next, list, handed)?;
        Ok(answers)
    }

    /// Whether a word of this sender waits: then another is refused by 19.
    pub fn waits(&self, sender: u32) -> bool {
        self.waiting.get(sender as usize) == Some(&1)
    }
}

/// What the senders got in a round.
#[derive(Clone, Copy, Debug, PartialEq, Eq)]
pub struct Answers([i32; MOST_SENDERS]);

impl Answers {
    /// What [`Code::repair`] gives for this sender's word: the number of places repaired, 0 for a code word, or the
    /// refusal by 10. None where no word of this sender left.
    pub fn of(&self, sender: usize) -> Option<Result<u32, Refusal>> {
        let &returned = self.0.get(sender)?;
        (returned != NONE).then(|| answer(returned))
    }

    /// The senders whose words left, by number, each with its answer.
    pub fn iter(&self) -> impl Iterator<Item = (usize, Result<u32, Refusal>)> + '_ {
        (0..MOST_SENDERS).filter_map(|sender| Some((sender, self.of(sender)?)))
    }
}

/// Turns for several senders with a state that is laid out by the caller, who may put anything there. With S senders
/// `waiting` has S bytes, 1 for each sender whose word waits and 0 for another; `words` has S words, one after the
/// other, with a byte for each sent place; `next` has one number, the sender whose turn it is. Other lengths are
/// refused by 2: those of words after 20, and the others after 1.
impl Code<'_> {
    /// [`Senders::start`]: has no word wait and gives sender 0 the turn. Refused by 1 to 7, 20, 18.
    pub fn senders_start(
        &self,
        senders: u32,
        repairs: u32,
        waiting: &mut [u8],
        next: &mut [u32],
    ) -> Result<(), Refusal> {
        let (list, length) = (waiting.as_mut_ptr(), waiting.len());
        done(call!(self, zov_senders_start, senders, repairs, list, length, next.as_mut_ptr(), next.len()))
    }

    /// [`Senders::offer`]: puts the word into its sender's part of `words`. Refused by 1 to 7, 20, 2 (the word and
    /// `words`), 18, 19 (the sender's byte in `waiting` is not 0), 8 (a byte of the word is neither 0 nor 1).
    pub fn senders_offer(
        &self,
        senders: u32,
        repairs: u32,
        sender: u32,
        word: &[u8],
        waiting: &mut [u8],
        words: &mut [u8],
    ) -> Result<(), Refusal> {
        done(call!(
            self,
            zov_senders_offer,
            senders,
            repairs,
            sender,
            word.as_ptr(),
            word.len(),
            waiting.as_mut_ptr(),
            waiting.len(),
            words.as_mut_ptr(),
            words.len()
        ))
    }

    /// [`Senders::round`]: `answers` has a number for each sender, a count, or −10 for a word that is too far, or
    /// [`NONE`] where no word left; `handed` has room for a word of each. Refused by 1 to 7, 20, 2 (`words` and
    /// `handed`), 18 (the number in `next` too), 8 (a byte of `waiting`, or of a word that waits, is neither 0 nor 1).
    // These are the lists of the call in C, each to be lent in any length.
    #[allow(clippy::too_many_arguments)]
    pub fn senders_round(
        &self,
        senders: u32,
        repairs: u32,
        waiting: &mut [u8],
        words: &[u8],
        next: &mut [u32],
        answers: &mut [i32],
        handed: &mut [u8],
    ) -> Result<(), Refusal> {
        done(call!(
            self,
            zov_senders_round,
            senders,
            repairs,
            waiting.as_mut_ptr(),
            waiting.len(),
            words.as_ptr(),
            words.len(),
            next.as_mut_ptr(),
            next.len(),
            answers.as_mut_ptr(),
            answers.len(),
            handed.as_mut_ptr(),
            handed.len()
        ))
    }
}
