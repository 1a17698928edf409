//! The calls on words, of a whole code or of a selection, rides, and the calls for several senders, held against what
//! is expected of them: each is made with canaries around every buffer, and its answer and its buffers are to be those
//! of `expected`.

use crate::bits::turned;
use crate::canary::Lent;
use crate::library::{repair, ride, rows, senders, words};
use crate::reference::columns::Setting;
use crate::reference::params::Params;
use crate::reference::ride::{Lists, Ridden};
use crate::reference::rows::Read;
use crate::reference::senders::{Call, Dash, Given};
use crate::Elem;

/// A list to be written, or a number.
pub type Written<T> = Result<Vec<T>, u32>;

/// A list to be written and the number to be answered, or the number of a refusal.
pub type Counted = Result<(Vec<u8>, u32), u32>;

#[track_caller]
pub fn roles_give(setting: &impl Setting, roles_length: usize, expected: &Counted) {
    let mut roles = Lent::marked(roles_length);
    let answer = words::roles(setting, roles.slice_mut());
    assert_eq!(answer, told(expected, |roles| roles.1), "{setting:?}");
    roles.assert_holds(expected.as_ref().ok().map(|roles| roles.0.as_slice()));
}

#[track_caller]
pub fn syndrome_gives(setting: &impl Setting, word: &[u8], syndrome_length: usize, expected: &Written<Elem>) {
    let word = Lent::holding(word);
    let mut syndrome = Lent::marked(syndrome_length);
    let answer = words::syndrome(setting, word.slice(), syndrome.slice_mut());
    assert_eq!(answer, told(expected, |_| ()), "{setting:?}, word {:?}", word.slice());
    word.assert_unchanged();
    syndrome.assert_holds(expected.as_deref().ok());
}

#[track_caller]
pub fn encoding_gives(setting: &impl Setting, message: &[u8], word_length: usize, expected: &Written<u8>) {
    let message = Lent::holding(message);
    let mut word = Lent::marked(word_length);
    let answer = words::encode(setting, message.slice(), word.slice_mut());
    assert_eq!(answer, told(expected, |_| ()), "{setting:?}, message {:?}", message.slice());
    message.assert_unchanged();
    word.assert_holds(expected.as_deref().ok());
}

#[track_caller]
pub fn message_gives(setting: &impl Setting, word: &[u8], message_length: usize, expected: &Written<u8>) {
    let word = Lent::holding(word);
    let mut message = Lent::marked(message_length);
    let answer = words::message(setting, word.slice(), message.slice_mut());
    assert_eq!(answer, told(expected, |_| ()), "{setting:?}, word {:?}", word.slice());
    word.assert_unchanged();
    message.assert_holds(expected.as_deref().ok());
}

#[track_caller]
pub fn repair_gives(setting: &impl Setting, received: &[u8], mut repaired: Lent<u8>, expected: &Counted) {
    let received = Lent::holding(received);
    let answer = repair::repair(setting, received.slice(), repaired.slice_mut());
    assert_eq!(answer, told(expected, |repaired| repaired.1), "{setting:?}, received {:?}", received.slice());
    received.assert_unchanged();
    repaired.assert_holds(expected.as_ref().ok().map(|repaired| repaired.0.as_slice()));
}

/// The same for a code word with these places turned, of which there are at most t: the code word is to come back, with
/// their count.
#[track_caller]
pub fn comes_back(setting: &impl Setting, sent: &[u8], places: &[usize]) {
    let expected = Ok((sent.to_vec(), places.len() as u32));
    repair_gives(setting, &turned(sent, places), Lent::marked(sent.len()), &expected);
}

#[track_caller]
pub fn writing_gives(setting: &impl Setting, gear: u32, lamp: u32, word_length: usize, expected: &Written<u8>) {
    let mut word = Lent::marked(word_length);
    let answer = rows::write(setting, gear, lamp, word.slice_mut());
    assert_eq!(answer, told(expected, |_| ()), "gear {gear}, lamp {lamp}, {setting:?}");
    word.assert_holds(expected.as_deref().ok());
}

#[track_caller]
pub fn reading_gives(setting: &impl Setting, received: &[u8], mut repaired: Lent<u8>, expected: &Result<Read, u32>) {
    let received = Lent::holding(received);
    let answer = rows::read(setting, received.slice(), repaired.slice_mut());
    let expected_answer = told(expected, |(row, _, count)| (row.gear, row.lamp, *count));
    assert_eq!(answer, expected_answer, "{setting:?}, received {:?}", received.slice());
    received.assert_unchanged();
    repaired.assert_holds(expected.as_ref().ok().map(|read| read.1.as_slice()));
}

#[track_caller]
pub fn ride_gives(params: &Params, lists: &Lists, mut counts: Lent<u32>, expected: &Ridden) {
    let lent = [&lists.gears, &lists.lamps, &lists.turned].map(|list| Lent::holding(list));
    let answer = ride::lists(params, lent.each_ref().map(Lent::slice), counts.slice_mut());
    // Rides can be long: their beginning is enough to tell which it is.
    assert_eq!(answer, expected.answer, "{params:?}, {:.6000}", format!("{lists:?}"));
    lent.iter().for_each(Lent::assert_unchanged);
    counts.assert_holds(expected.counts.as_ref().map(|counts| counts.as_slice()));
}

/// Makes a call on a dash that holds this. What it is to hold afterwards is expected, or the number of a refusal, which
/// leaves it alone.
#[track_caller]
pub fn dash_gives(given: &Given, call: &Call, dash: &Dash, expected: &Result<Dash, u32>) {
    let [mut waiting, mut words, mut handed] =
        [&dash.waiting, &dash.words, &dash.handed].map(|list| Lent::holding(list));
    let (mut next, mut answers) = (Lent::holding(&dash.next), Lent::holding(&dash.answers));
    let answer = match call {
        Call::Start => senders::start(given, waiting.slice_mut(), next.slice_mut()),
        Call::Offer { sender, word } => {
            let word = Lent::holding(word);
            let answer = senders::offer(given, *sender, word.slice(), waiting.slice_mut(), words.slice_mut());
            word.assert_unchanged();
            answer
        }
        Call::Round => {
            let (waiting, next) = (waiting.slice_mut(), next.slice_mut());
            senders::round(given, waiting, words.slice(), next, answers.slice_mut(), handed.slice_mut())
        }
    };
    // The words of many senders can be long: their beginning is enough to tell which they are.
    assert_eq!(answer, told(expected, |_| ()), "{given:?}, {:.6000}", format!("{call:?} on {dash:?}"));
    let after = expected.as_ref().ok();
    waiting.assert_holds(after.map(|after| after.waiting.as_slice()));
    words.assert_holds(after.map(|after| after.words.as_slice()));
    next.assert_holds(after.map(|after| after.next.as_slice()));
    answers.assert_holds(after.map(|after| after.answers.as_slice()));
    handed.assert_holds(after.map(|after| after.handed.as_slice()));
}

/// What the call is to answer, of all that is expected.
fn told<T, A>(expected: &Result<T, u32>, answer: impl Fn(&T) -> A) -> Result<A, u32> {
    expected.as_ref().map(answer).map_err(|&number| number)
}
