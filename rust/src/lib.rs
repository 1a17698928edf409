//! Coded gear rows: a binary Goppa code in dyadic form for each motorcycle, and repair of what the spark turns.
//!
//! The work is done by the proved functions of the static library; this crate gives them safe types. It allocates
//! nothing and needs no standard library, so that firmware can use it.
//!
//! A [`Code`] is a card: any values may stand in it, and each call refuses by a [`Refusal`] what breaks a rule. Buffers
//! are lent by the caller and are left alone by a call that is refused, with one exception: a ride that ends by 8 or 11
//! writes the counts up to there ([`Code::ride`], which also takes room to work in). For senders with fewer bits a card
//! marks message columns as hidden ([`Code`] has an example); with [`nothing_hidden`] it sends all. A [`Selection`] has
//! the calls on words for some blocks of a code. [`Senders`] take turns at one dash. A signature has a short form, its
//! [`essence`].
//!
//! ```
//! use zovunelith::{nothing_hidden, Code, Lamp, Refusal, Row};
//!
//! let h = [12, 8, 10, 22, 26, 9, 16, 21, 14, 5, 17, 4, 30, 23, 25, 31];
//! let code = Code { m: 5, n: 16, t: 2, omega: 24, h: &h, hidden: nothing_hidden(16) };
//!
//! let mut word = [0; 16];
//! code.write_row(Row { gear: 1, lamp: Lamp::Dark }, &mut word)?;
//! word[0] ^= 1;
//! word[8] ^= 1;
//!
//! let mut repaired = [0; 16];
//! let reading = code.read_row(&word, &mut repaired)?;
//! assert_eq!(reading.row, Row { gear: 1, lamp: Lamp::Dark });
//! assert_eq!(reading.count, 2);
//! # Ok::<(), Refusal>(())
//! ```

#![no_std]
#![warn(missing_docs)]

pub mod block;
mod c;
mod code;
mod essence;
pub mod field;
mod refusal;
mod ride;
mod row;
mod selection;
mod senders;
pub mod sheet;
mod words;

pub use code::{nothing_hidden, Code};
pub use essence::{essence, signature};
pub use refusal::Refusal;
pub use ride::{Counts, Step, LONGEST_RIDE};
pub use row::{Lamp, Reading, Row};
pub use selection::Selection;
pub use senders::{Answers, Senders, MOST_SENDERS, NONE};

/// An element of a field (`zov_elem`).
pub type Elem = u16;
