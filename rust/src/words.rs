//! The calls on words, which a whole code and a selection of its blocks have alike.

/// The number of marks that are 0.
pub(crate) const fn sent_places(hidden: &[u8]) -> usize {
    let (mut sent, mut place) = (0, 0);
    while place < hidden.len() {
        if hidden[place] == 0 {
            sent += 1;
        }
        place += 1;
    }
    sent
}

/// Gives a type the calls on words: by the numbers that refuse a value of the type, the macro that calls a function of
/// the library for one, and these functions.
macro_rules! calls_on_words {
    (
        $type:ident, $refused:literal, $call:ident,
        $roles:ident, $syndrome:ident, $encode:ident, $message:ident, $repair:ident, $write_row:ident, $read_row:ident
    ) => {
        impl $type<'_> {
            /// The number of sent places, for the sizes of buffers: a word has as many bytes. It is counted from the
            /// marks, be they refused or not.
            pub const fn sent(&self) -> usize {
                $crate::words::sent_places(self.hidden)
            }

            /// 1 for each message column and 0 for each check column, a byte for each place, sent or hidden; gives k,
            /// the number of message columns that are sent.
            #[doc = concat!("Refused by ", $refused, ".")]
            pub fn roles(&self, roles: &mut [u8]) -> Result<u32, Refusal> {
                answer($call!(self, $roles, roles.as_mut_ptr(), roles.len()))
            }

            /// The syndrome of a word, t elements.
            #[doc = concat!("Refused by ", $refused, ", 2 (the word's length), 8.")]
            pub fn syndrome(&self, word: &[u8], out: &mut [Elem]) -> Result<(), Refusal> {
                done($call!(self, $syndrome, word.as_ptr(), word.len(), out.as_mut_ptr(), out.len()))
            }

            /// The code word that carries a message of k bytes.
            #[doc = concat!("Refused by ", $refused, ", 2 (the word's length and the message's), 8.")]
            pub fn encode(&self, message: &[u8], word: &mut [u8]) -> Result<(), Refusal> {
                done($call!(self, $encode, message.as_ptr(), message.len(), word.as_mut_ptr(), word.len()))
            }

            /// The k bytes of a word at the message columns.
            #[doc = concat!("Refused by ", $refused, ", 2 (the word's length and the message's), 8.")]
            pub fn message(&self, word: &[u8], message: &mut [u8]) -> Result<(), Refusal> {
                done($call!(self, $message, word.as_ptr(), word.len(), message.as_mut_ptr(), message.len()))
            }

            /// The code word that differs from the word received in at most t places, and the number of those places.
            #[doc = concat!("Refused by ", $refused, ", 2 (the length of either word), 8,")]
            /// and by 10 exactly if there is no such code word.
            pub fn repair(&self, received: &[u8], repaired: &mut [u8]) -> Result<u32, Refusal> {
                let (word, length) = (received.as_ptr(), received.len());
                answer($call!(self, $repair, word, length, repaired.as_mut_ptr(), repaired.len()))
            }

            /// The word of a row.
            #[doc = concat!("Refused by ", $refused, ", 2 (the word's length), 12, 11.")]
            pub fn write_row(&self, row: Row, word: &mut [u8]) -> Result<(), Refusal> {
                self.write_numbers(row.gear, row.lamp as u32, word)
            }

            /// The same for a gear and a lamp as numbers: 0 is dark, 1 green, 2 amber, and any other refused by 11.
            pub fn write_numbers(&self, gear: u32, lamp: u32, word: &mut [u8]) -> Result<(), Refusal> {
                done($call!(self, $write_row, gear, lamp, word.as_mut_ptr(), word.len()))
            }

            /// The row that the word received carries once it is repaired, into `repaired`.
            #[doc = concat!("Refused by ", $refused, ", 2 (the length of either word), 12, 8, 10, 11.")]
            pub fn read_row(&self, received: &[u8], repaired: &mut [u8]) -> Result<Reading, Refusal> {
                let (word, length) = (received.as_ptr(), received.len());
                let value = answer($call!(self, $read_row, word, length, repaired.as_mut_ptr(), repaired.len()))?;
                Ok(Reading::of(value))
            }
        }
    };
}

pub(crate) use calls_on_words;
