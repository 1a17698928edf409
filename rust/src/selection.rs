//! A selection of a code's blocks, and the calls on its words.

use crate::c::{self, answer, call_without_marks, done};
use crate::words::calls_on_words;
use crate::{Code, Elem, Reading, Refusal, Row};

/// A selection: some blocks of a code, each being t columns in a row. Any values may stand here; a call refuses those
/// of the code by 1 to 7, then lists of a wrong length by 2, blocks by 14, shifts by 15 and marks by 20.
///
/// Place b × t + r is column `blocks[b]` × t + (r ⊕ `shifts[b]`) of the code, so that there are t places for each
/// block. A word has a byte for each place that is sent. Which columns are message columns, and how many, is worked out
/// anew from the chosen ones, in the order of the places.
///
/// ```
/// use zovunelith::{nothing_hidden, Code, Refusal, Selection};
///
/// let h = [12, 8, 10, 22, 26, 9, 16, 21, 14, 5, 17, 4, 30, 23, 25, 31];
/// let code = Code { m: 5, n: 16, t: 2, omega: 24, h: &h, hidden: nothing_hidden(16) };
/// // Seven of its eight blocks: words of 14 bits that carry 4.
/// let (blocks, shifts) = ([6, 0, 3, 5, 1, 7, 2], [1, 0, 0, 1, 0, 1, 0]);
/// let loom = Selection { code, blocks: &blocks, shifts: &shifts, hidden: nothing_hidden(14) };
///
/// let mut word = [0; 14];
/// loom.encode(&[1, 0, 1, 1], &mut word)?;
/// assert_eq!(word, [0, 1, 0, 0, 1, 1, 1, 0, 1, 0, 1, 1, 1, 1]);
///
/// let mut received = word;
/// received[0] ^= 1;
/// received[9] ^= 1;
/// let mut repaired = [0; 14];
/// assert_eq!(loom.repair(&received, &mut repaired)?, 2);
/// assert_eq!(repaired, word);
///
/// let (mut syndrome, mut message) = ([0; 2], [0; 4]);
/// loom.syndrome(&repaired, &mut syndrome)?;
/// loom.message(&repaired, &mut message)?;
/// assert_eq!((syndrome, message), ([0, 0], [1, 0, 1, 1]));
///
/// // For a sender of 13 bits place 9, a message column, is hidden. With it the message loses the bit that was 0.
/// let short = Selection { hidden: &[0, 0, 0, 0, 0, 0, 0, 0, 0, 1, 0, 0, 0, 0], ..loom };
/// let mut word = [0; 13];
/// short.encode(&[1, 1, 1], &mut word)?;
/// assert_eq!(word, [0, 1, 0, 0, 1, 1, 1, 0, 1, 1, 1, 1, 1]);
///
/// let mut received = word;
/// received[0] ^= 1;
/// received[9] ^= 1;
/// let mut repaired = [0; 13];
/// assert_eq!(short.repair(&received, &mut repaired)?, 2);
/// assert_eq!(repaired, word);
///
/// // Place 0 is a check column.
/// let refused = Selection { hidden: &[1, 0, 0, 0, 0, 0, 0, 0, 0, 0, 0, 0, 0, 0], ..loom };
/// assert_eq!(refused.roles(&mut [0; 14]), Err(Refusal::Hidden));
/// # Ok::<(), Refusal>(())
/// ```
///
/// Rows need five message bits, which this code has with all its blocks only, in whatever order:
///
/// ```
/// # use zovunelith::{nothing_hidden, Code, Lamp, Refusal, Row, Selection};
/// # let h = [12, 8, 10, 22, 26, 9, 16, 21, 14, 5, 17, 4, 30, 23, 25, 31];
/// # let code = Code { m: 5, n: 16, t: 2, omega: 24, h: &h, hidden: nothing_hidden(16) };
/// let (blocks, shifts) = ([6, 0, 3, 5, 1, 7, 2, 4], [1, 0, 0, 1, 0, 1, 0, 1]);
/// let loom = Selection { code, blocks: &blocks, shifts: &shifts, hidden: nothing_hidden(16) };
/// assert_eq!(loom.roles(&mut [0; 16])?, 6);
///
/// let (mut word, mut repaired) = ([0; 16], [0; 16]);
/// loom.write_row(Row { gear: 1, lamp: Lamp::Dark }, &mut word)?;
/// word[4] ^= 1;
/// let reading = loom.read_row(&word, &mut repaired)?;
/// assert_eq!((reading.row, reading.count), (Row { gear: 1, lamp: Lamp::Dark }, 1));
///
/// let twice = Selection { code, blocks: &[6, 6], shifts: &[0, 1], hidden: nothing_hidden(4) };
/// assert_eq!(twice.roles(&mut [0; 4]), Err(Refusal::NoSuchBlock));
/// # Ok::<(), Refusal>(())
/// ```
#[derive(Clone, Copy, Debug, PartialEq, Eq)]
pub struct Selection<'a> {
    /// The code whose blocks they are. Its own marks are not looked at.
    pub code: Code<'a>,
    /// The chosen blocks, 1 to n/t of them in any order: numbers below n/t, each at most once.
    pub blocks: &'a [u32],
    /// For each chosen block a number below t.
    pub shifts: &'a [u32],
    /// A mark for each place of the selection, instead of the code's: 0 sent, 1 hidden. A hidden place must be a
    /// message column of the selection. [`nothing_hidden`](crate::nothing_hidden) has marks of which all are 0.
    pub hidden: &'a [u8],
}

/// Calls a function of the library for a selection.
macro_rules! call_selected {
    ($selection:expr, $function:ident $(, $argument:expr)*) => {{
        let Selection { code, blocks, shifts, hidden } = $selection;
        call_without_marks!(
            code,
            $function,
            blocks.as_ptr(),
            blocks.len(),
            shifts.as_ptr(),
            shifts.len(),
            hidden.as_ptr(),
            hidden.len()
            $(, $argument)*
        )
    }};
}

calls_on_words! {
    Selection, "1 to 7, 2, 14, 15, 20", call_selected,
    zov_selection_roles, zov_selection_syndrome, zov_selection_encode, zov_selection_message, zov_selection_repair,
    zov_selection_write_row, zov_selection_read_row
}
