//! The seven calls on words, of a whole code or of a selection, and what each of them is told and lent; and all of them
//! compared with the second implementation.

use crate::bits::turned;
use crate::canary::{Entry, Lent};
use crate::expect::{
    comes_back, encoding_gives, message_gives, reading_gives, repair_gives, roles_give, syndrome_gives, writing_gives,
    Counted,
};
use crate::library;
use crate::random::Random;
use crate::reference::columns::Setting;
use crate::reference::repair::{self, Decoder};
use crate::reference::rows::{self, Row};
use crate::reference::words;
use crate::Elem;

#[derive(Clone, Copy, Debug, PartialEq)]
pub enum Call {
    Roles,
    Syndrome,
    Encode,
    Message,
    Repair,
    WriteRow,
    ReadRow,
}

pub const CALLS: [Call; 7] =
    [Call::Roles, Call::Syndrome, Call::Encode, Call::Message, Call::Repair, Call::WriteRow, Call::ReadRow];

/// What the calls are told and lent beside a setting. Each takes its part.
#[derive(Clone, Debug)]
pub struct Input {
    pub roles_length: usize,
    /// The word, or the word received. Where a call writes a word, it is lent as many bytes.
    pub word: Vec<u8>,
    pub repaired_length: usize,
    /// The message. Where a call writes one, it is lent as many bytes.
    pub message: Vec<u8>,
    pub syndrome_length: usize,
    pub row: Row,
}

/// What a call answered, as a list of numbers or as a refusal's number, and what it left in its buffer.
#[derive(Debug, PartialEq)]
pub struct Ended {
    pub answer: Result<Vec<u32>, u32>,
    pub buffer: Vec<u32>,
}

impl Input {
    /// Faultless input, but for rows where there are fewer than five message columns.
    pub fn new(random: &mut Random, decoder: &Decoder) -> Input {
        let (code, row) = (&decoder.code, random.pick(&rows::rows()));
        let (length, k, t) = (code.length(), code.k(), code.params.t as usize);
        let carried = if k < rows::BITS { random.bits(k) } else { rows::message(row, k) };
        let word = turned(&code.encode(&carried), &random.places(length, t));
        let roles_length = code.places();
        Input { roles_length, word, repaired_length: length, message: random.bits(k), syndrome_length: t, row }
    }

    /// Gives all words this length, and the roles.
    pub fn resize(&mut self, length: usize) {
        self.roles_length = length;
        self.word.resize(length, 0);
        self.repaired_length = length;
    }

    /// The number that refuses a call, by the second implementation.
    pub fn number(&self, call: Call, setting: &impl Setting) -> Option<u32> {
        let Input { word, message, row, .. } = self;
        match call {
            Call::Roles => words::roles(setting, self.roles_length).err(),
            Call::Syndrome => words::syndrome(setting, word, self.syndrome_length).err(),
            Call::Encode => words::encode(setting, message, word.len()).err(),
            Call::Message => words::message(setting, word, message.len()).err(),
            Call::Repair => repair::repair(setting, word, self.repaired_length).err(),
            Call::WriteRow => rows::write(setting, row.gear, row.lamp, word.len()).err(),
            Call::ReadRow => rows::read(setting, word, self.repaired_length).err(),
        }
    }

    /// Makes a call, which is to be refused by this number.
    #[track_caller]
    pub fn is_refused(&self, call: Call, setting: &impl Setting, number: u32) {
        let Input { word, message, row, .. } = self;
        match call {
            Call::Roles => roles_give(setting, self.roles_length, &Err(number)),
            Call::Syndrome => syndrome_gives(setting, word, self.syndrome_length, &Err(number)),
            Call::Encode => encoding_gives(setting, message, word.len(), &Err(number)),
            Call::Message => message_gives(setting, word, message.len(), &Err(number)),
            Call::Repair => repair_gives(setting, word, Lent::marked(self.repaired_length), &Err(number)),
            Call::WriteRow => writing_gives(setting, row.gear, row.lamp, word.len(), &Err(number)),
            Call::ReadRow => reading_gives(setting, word, Lent::marked(self.repaired_length), &Err(number)),
        }
    }

    /// Makes every call, each of which is to be refused by this number, as one of them is by the second implementation.
    #[track_caller]
    pub fn is_refused_by_all(&self, setting: &impl Setting, number: u32) {
        assert_eq!(self.number(Call::Encode, setting), Some(number), "{setting:?}");
        CALLS.into_iter().for_each(|call| self.is_refused(call, setting, number));
    }

    /// Makes a call. What its buffer holds when it is lent is always the same.
    #[track_caller]
    pub fn made(&self, call: Call, setting: &impl Setting) -> Ended {
        use library::{repair, rows, words};
        let Input { word, message, row, repaired_length, .. } = self;
        let nothing = |()| Vec::new();
        match call {
            Call::Roles => lending::<u8>(self.roles_length, |out| words::roles(setting, out).map(|k| vec![k])),
            Call::Syndrome => {
                lending::<Elem>(self.syndrome_length, |out| words::syndrome(setting, word, out).map(nothing))
            }
            Call::Encode => lending::<u8>(word.len(), |out| words::encode(setting, message, out).map(nothing)),
            Call::Message => lending::<u8>(message.len(), |out| words::message(setting, word, out).map(nothing)),
            Call::Repair => {
                lending::<u8>(*repaired_length, |out| repair::repair(setting, word, out).map(|count| vec![count]))
            }
            Call::WriteRow => {
                lending::<u8>(word.len(), |out| rows::write(setting, row.gear, row.lamp, out).map(nothing))
            }
            Call::ReadRow => lending::<u8>(*repaired_length, |out| {
                rows::read(setting, word, out).map(|(gear, lamp, count)| vec![gear, lamp, count])
            }),
        }
    }
}

/// Lends a buffer of this length, with canaries around it.
#[track_caller]
fn lending<T: Entry + Into<u32>>(length: usize, call: impl FnOnce(&mut [T]) -> Result<Vec<u32>, u32>) -> Ended {
    let mut lent = Lent::marked(length);
    let answer = call(lent.slice_mut());
    assert!(lent.guards_hold(), "a guard was written");
    Ended { answer, buffer: lent.slice().iter().map(|&entry| entry.into()).collect() }
}

/// Compares the repair of a word, and reading a row from it, with the second implementation.
#[track_caller]
pub fn compare_received(setting: &impl Setting, decoder: &Decoder, received: &[u8]) -> Counted {
    let expected = decoder.repair(received).ok_or(10);
    repair_gives(setting, received, Lent::marked(received.len()), &expected);
    reading_gives(setting, received, Lent::marked(received.len()), &rows::read_word(decoder, received));
    expected
}

/// Compares every call with the second implementation, on random messages and words. Words are received with few, with
/// t, with one more and with any number of places turned.
#[track_caller]
pub fn compare_all(random: &mut Random, setting: &impl Setting, decoder: &Decoder) {
    let code = &decoder.code;
    let (length, k, t) = (code.length(), code.k(), code.params.t as usize);
    roles_give(setting, code.places(), &Ok((code.roles.clone(), k as u32)));
    let message = random.bits(k);
    let sent = code.encode(&message);
    encoding_gives(setting, &message, length, &Ok(sent.clone()));
    for word in [&sent, &random.bits(length)] {
        syndrome_gives(setting, word, t, &Ok(code.syndrome(word)));
        message_gives(setting, word, k, &Ok(code.message(word)));
    }

    let few = random.below(t + 1);
    for weight in [0, few, t] {
        comes_back(setting, &sent, &random.places(length, weight));
    }
    for weight in [few, t, (t + 1).min(length), random.below(length + 1)] {
        let received = turned(&sent, &random.places(length, weight));
        compare_received(setting, decoder, &received).ok();
    }

    let row = random.pick(&rows::rows());
    if k < rows::BITS {
        writing_gives(setting, row.gear, row.lamp, length, &Err(12));
        return;
    }
    let sent = code.encode(&rows::message(row, k));
    writing_gives(setting, row.gear, row.lamp, length, &Ok(sent.clone()));
    let received = turned(&sent, &random.places(length, few));
    reading_gives(setting, &received, Lent::marked(length), &Ok((row, sent, few as u32)));
}
