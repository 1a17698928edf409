//! Turns for several senders: each may have one word waiting, and a round hands out the words that are code words and
//! repairs some of the others in turn.
//!
//! What a dash lends is read as a list of words, with none where no word waits, and the sender that was tried last. The
//! turn is the list of all senders, cut behind that one, with the second piece put first.

use super::params::{self, Params};
use super::repair::{Decoder, Repaired};
use super::words::{self, Code};

/// The most senders, and the most repairs of a round.
pub const MOST: u32 = 8;

/// The answer for a sender whose word did not leave.
pub const NONE: i32 = i32::MIN;

/// The answer for a word that no code word is near.
pub const TOO_FAR: i32 = -10;

/// What is given at the start and stays: the card, S and R.
#[derive(Clone, Debug)]
pub struct Given {
    pub params: Params,
    pub senders: u32,
    pub repairs: u32,
}

/// What a dash lends: its state, which is the first three, and room for what a round tells.
#[derive(Clone, Debug, PartialEq)]
pub struct Dash {
    pub waiting: Vec<u8>,
    pub words: Vec<u8>,
    pub next: Vec<u32>,
    pub answers: Vec<i32>,
    pub handed: Vec<u8>,
}

/// A call on a dash.
#[derive(Clone, Debug)]
pub enum Call {
    Start,
    Offer { sender: u32, word: Vec<u8> },
    Round,
}

/// For each buffer of the call whose length does not follow from the marks, the length it has and the length it should
/// have.
fn lent(given: &Given, call: &Call, dash: &Dash) -> Vec<(usize, u32)> {
    let senders = given.senders;
    let (waiting, next) = ((dash.waiting.len(), senders), (dash.next.len(), 1));
    match call {
        Call::Start => vec![waiting, next],
        Call::Offer { .. } => vec![waiting],
        Call::Round => vec![waiting, next, (dash.answers.len(), senders)],
    }
}

/// The same for those that hold words of this length. A list of S words is one that such words fill without a rest, S
/// of them: the product of S and their length could be too large for its type.
fn lent_for_words(length: usize, given: &Given, call: &Call, dash: &Dash) -> Vec<(usize, u32)> {
    let filled = |list: &[u8]| [(list.len() / length, given.senders), (list.len() % length, 0)];
    match call {
        Call::Start => vec![],
        Call::Offer { word, .. } => [&[(word.len(), length as u32)][..], &filled(&dash.words)].concat(),
        Call::Round => [filled(&dash.words), filled(&dash.handed)].concat(),
    }
}

/// For each sender the word that waits, of this length. The lengths are right.
fn waiting(length: usize, dash: &Dash) -> Vec<Option<&[u8]>> {
    let words = dash.words.chunks(length);
    dash.waiting.iter().zip(words).map(|(&byte, word)| (byte == 1).then_some(word)).collect()
}

/// The first number that applies to a call once its card and the lengths that do not follow from the marks are right:
/// 2, then 18, then 19, then 8.
fn judge(code: &Code, given: &Given, call: &Call, dash: &Dash) -> Result<(), u32> {
    params::judge_lengths(&lent_for_words(code.length(), given, call, dash))?;
    let named = match call {
        Call::Start => None,
        Call::Offer { sender, .. } => Some(*sender),
        Call::Round => Some(dash.next[0]),
    };
    let counted = |number: u32| (1..=MOST).contains(&number);
    if !counted(given.senders) || !counted(given.repairs) || named.is_some_and(|sender| sender >= given.senders) {
        return Err(18);
    }
    match call {
        Call::Start => Ok(()),
        Call::Offer { sender, .. } if dash.waiting[*sender as usize] != 0 => Err(19),
        Call::Offer { word, .. } => words::judge_bits(word),
        Call::Round => {
            words::judge_bits(&dash.waiting)?;
            waiting(code.length(), dash).into_iter().flatten().try_for_each(words::judge_bits)
        }
    }
}

/// What the buffers hold after a call that is not refused.
fn after(decoder: &Decoder, repairs: u32, call: &Call, dash: &Dash) -> Dash {
    match call {
        Call::Start => Dash { waiting: vec![0; dash.waiting.len()], next: vec![0], ..dash.clone() },
        Call::Offer { sender, word } => {
            let (place, mut dash) = (*sender as usize, dash.clone());
            dash.waiting[place] = 1;
            dash.words.splice(place * word.len()..(place + 1) * word.len(), word.iter().copied());
            dash
        }
        Call::Round => after_round(decoder, repairs, dash),
    }
}

fn after_round(decoder: &Decoder, repairs: u32, dash: &Dash) -> Dash {
    let (code, senders) = (&decoder.code, dash.waiting.len());
    // A turn that begins at 0 comes after no sender, or after the last one, which leaves it the same.
    let last_tried = (dash.next[0] as usize).checked_sub(1);
    let (first, second): (Vec<usize>, Vec<usize>) = (0..senders).partition(|&sender| Some(sender) > last_tried);
    let words = waiting(code.length(), dash);
    let turn = [first, second].concat().into_iter().filter_map(|sender| Some((sender, words[sender]?)));
    let (handed_out, others): (Vec<_>, Vec<_>) = turn.partition(|(_, word)| code.is_code_word(word));
    let tried = &others[..others.len().min(repairs as usize)];
    let last_tried = tried.last().map(|(sender, _)| *sender).or(last_tried);

    // For each sender whose word left, what it gets.
    let mut left: Vec<Option<Repaired>> = vec![None; senders];
    handed_out.iter().for_each(|&(sender, word)| left[sender] = Some(Some((word.to_vec(), 0))));
    tried.iter().for_each(|&(sender, word)| left[sender] = Some(decoder.repair(word)));
    let answer = |left: &Option<Repaired>| match left {
        None => NONE,
        Some(None) => TOO_FAR,
        Some(Some((_, count))) => *count as i32,
    };
    let part = |(part, left): (&[u8], &Option<Repaired>)| match left {
        Some(Some((word, _))) => word.clone(),
        _ => part.to_vec(),
    };
    Dash {
        waiting: dash.waiting.iter().zip(&left).map(|(&byte, left)| if left.is_some() { 0 } else { byte }).collect(),
        words: dash.words.clone(),
        next: vec![last_tried.map_or(0, |sender| (sender + 1) % senders) as u32],
        answers: left.iter().map(answer).collect(),
        handed: dash.handed.chunks(code.length()).zip(&left).flat_map(part).collect(),
    }
}

/// What the buffers hold after a call, or the number that refuses it: 1 to 7 for the card and the lengths that do not
/// follow from its marks, then 20, then what is left.
pub fn made(given: &Given, call: &Call, dash: &Dash) -> Result<Dash, u32> {
    params::judge_marked(&given.params, &lent(given, call, dash))?;
    let code = Code::whole(&given.params)?;
    judge(&code, given, call, dash)?;
    Ok(after(&Decoder::new(code), given.repairs, call, dash))
}

/// The same on a card that is accepted and prepared.
pub fn made_on(decoder: &Decoder, given: &Given, call: &Call, dash: &Dash) -> Result<Dash, u32> {
    params::judge_lengths(&lent(given, call, dash))?;
    judge(&decoder.code, given, call, dash)?;
    Ok(after(decoder, given.repairs, call, dash))
}

#[cfg(test)]
mod tests {
    use super::*;
    use crate::reference::columns::Setting;
    use crate::reference::params::{code_a, code_t};

    /// Code A: its code words are 0000 and 1011.
    const RIGHT: [u8; 4] = [1, 0, 1, 1];
    const NEAR: [u8; 4] = [1, 0, 1, 0];
    const FAR: [u8; 4] = [1, 1, 0, 0];

    fn given(senders: u32, repairs: u32) -> Given {
        Given { params: code_a(), senders, repairs }
    }

    /// Three senders of code A, whose words wait where there is one.
    fn dash(words: [Option<[u8; 4]>; 3], next: u32) -> Dash {
        Dash {
            waiting: words.iter().map(|word| word.is_some().into()).collect(),
            words: words.iter().flat_map(|word| word.unwrap_or([7; 4])).collect(),
            next: vec![next],
            answers: vec![5; 3],
            handed: vec![9; 12],
        }
    }

    /// A round: who still waits, the turn, the answers and the words.
    fn round(repairs: u32, before: &Dash) -> (Vec<u8>, u32, Vec<i32>, Vec<u8>) {
        let after = made(&given(3, repairs), &Call::Round, before).expect("a round");
        assert_eq!(after.words, before.words);
        (after.waiting, after.next[0], after.answers, after.handed)
    }

    #[test]
    fn cases() {
        let all_near = dash([Some(NEAR); 3], 1);
        let handed = [[9; 4], RIGHT, [9; 4]].concat();
        assert_eq!(round(1, &all_near), (vec![1, 0, 1], 2, vec![NONE, 1, NONE], handed));
        let handed = [[9; 4], RIGHT, RIGHT].concat();
        assert_eq!(round(2, &all_near), (vec![1, 0, 0], 0, vec![NONE, 1, 1], handed));
        assert_eq!(round(8, &all_near), (vec![0; 3], 1, vec![1; 3], [RIGHT; 3].concat()));
        let mixed = dash([Some(FAR), Some(RIGHT), Some(NEAR)], 0);
        let handed = [[9; 4], RIGHT, [9; 4]].concat();
        assert_eq!(round(1, &mixed), (vec![0, 0, 1], 1, vec![TOO_FAR, 0, NONE], handed));
        let handed = [[9; 4], RIGHT, RIGHT].concat();
        assert_eq!(round(2, &mixed), (vec![0; 3], 0, vec![TOO_FAR, 0, 1], handed));
        let handed_out = dash([Some(RIGHT), None, Some([0; 4])], 2);
        let handed = [RIGHT, [9; 4], [0; 4]].concat();
        assert_eq!(round(1, &handed_out), (vec![0; 3], 2, vec![0, NONE, 0], handed));
        assert_eq!(round(1, &dash([None; 3], 1)), (vec![0; 3], 1, vec![NONE; 3], vec![9; 12]));
    }

    #[test]
    fn starting_and_offering() {
        let before = Dash { waiting: vec![1, 7, 0], next: vec![u32::MAX], ..dash([None; 3], 0) };
        assert_eq!(made(&given(3, 1), &Call::Start, &before), Ok(dash([None; 3], 0)));
        let offer = |sender: u32| Call::Offer { sender, word: NEAR.to_vec() };
        let after = Dash { waiting: vec![1, 7, 1], words: [[7; 4], [7; 4], NEAR].concat(), ..before.clone() };
        assert_eq!(made(&given(3, 1), &offer(2), &before), Ok(after));
        assert_eq!(made(&given(3, 1), &offer(1), &before), Err(19));
        assert_eq!(made(&given(3, 1), &offer(3), &before), Err(18));
    }

    #[test]
    fn refusals() {
        let right = dash([Some(NEAR), None, None], 0);
        let number = |given: &Given, dash: &Dash| made(given, &Call::Round, dash).err();
        assert_eq!(number(&given(3, 1), &right), None);
        assert_eq!(number(&given(3, 0), &right), Some(18));
        assert_eq!(number(&given(3, 9), &right), Some(18));
        assert_eq!(number(&given(2, 1), &right), Some(2));
        assert_eq!(number(&given(3, 1), &Dash { next: vec![3], ..right.clone() }), Some(18));
        assert_eq!(number(&given(3, 1), &Dash { next: vec![], ..right.clone() }), Some(2));
        assert_eq!(number(&given(3, 1), &Dash { waiting: vec![0, 2, 0], ..right.clone() }), Some(8));
        assert_eq!(number(&given(3, 1), &Dash { waiting: vec![0, 1, 0], ..right.clone() }), Some(8));
        assert_eq!(number(&given(3, 1), &Dash { words: vec![0; 13], ..right.clone() }), Some(2));
        assert_eq!(number(&Given { params: code_t(), ..given(3, 1) }, &right), Some(2));
        let none = Dash { waiting: vec![], words: vec![], next: vec![0], answers: vec![], handed: vec![] };
        assert_eq!(number(&given(0, 1), &none), Some(18));
        assert_eq!(number(&Given { params: Params { n: 0, ..code_a() }, ..given(0, 1) }, &none), Some(2));
        assert_eq!(number(&Given { params: Params { t: 3, ..code_a() }, ..given(0, 1) }, &none), Some(7));
        // With the message column hidden, the words have three bytes.
        let marked = |place: usize| Given { params: code_a().hiding(&[place]), ..given(3, 1) };
        let shorter = Dash { words: vec![0; 9], handed: vec![0; 9], ..right.clone() };
        assert_eq!(number(&marked(3), &shorter), None);
        assert_eq!(number(&marked(3), &right), Some(2));
        assert_eq!(number(&Given { repairs: 0, ..marked(3) }, &right), Some(2));
        assert_eq!(number(&marked(0), &right), Some(20));
        assert_eq!(number(&Given { repairs: 0, ..marked(0) }, &shorter), Some(20));
        assert_eq!(number(&marked(0), &Dash { next: vec![], ..right }), Some(2));
    }
}
