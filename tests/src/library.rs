//! The product, through its Rust crate, with a refusal as its number.

use crate::canary::Lent;
use crate::reference::columns::Setting;
use crate::reference::params::Params;
use zovunelith::{Code, Elem, Refusal, Selection};

/// The numbers of a code with a signature and marks that are lent apart.
fn lent_code<'a>(&Params { m, n, t, omega, .. }: &Params, h: &'a [Elem], hidden: &'a [u8]) -> Code<'a> {
    Code { m, n, t, omega, h, hidden }
}

/// A code as the crate takes it.
pub fn code(params: &Params) -> Code<'_> {
    lent_code(params, &params.h, &params.hidden)
}

fn numbered<T>(answer: Result<T, Refusal>) -> Result<T, u32> {
    answer.map_err(Refusal::number)
}

/// Sum, product and inverse of elements.
pub mod field {
    use super::numbered;
    use zovunelith::field;

    pub fn sum(m: u32, a: u32, b: u32) -> Result<u32, u32> {
        numbered(field::sum(m, a, b))
    }

    pub fn product(m: u32, a: u32, b: u32) -> Result<u32, u32> {
        numbered(field::product(m, a, b))
    }

    pub fn inverse(m: u32, a: u32) -> Result<u32, u32> {
        numbered(field::inverse(m, a))
    }
}

/// Sum, product and inverse of dyadic blocks, and formulas of them.
pub mod block {
    use super::numbered;
    use zovunelith::{block, Elem};

    pub fn sum(m: u32, a: &[Elem], b: &[Elem], out: &mut [Elem]) -> Result<(), u32> {
        numbered(block::sum(m, a, b, out))
    }

    pub fn product(m: u32, a: &[Elem], b: &[Elem], out: &mut [Elem]) -> Result<(), u32> {
        numbered(block::product(m, a, b, out))
    }

    pub fn inverse(m: u32, a: &[Elem], out: &mut [Elem]) -> Result<(), u32> {
        numbered(block::inverse(m, a, out))
    }

    pub fn formula(m: u32, text: &[u8], blocks: [&[Elem]; 4], out: &mut [Elem]) -> Result<(), u32> {
        numbered(block::formula(m, text, blocks, out))
    }
}

/// The essence of a signature, and the signature of an essence.
pub mod essence {
    use super::numbered;
    use zovunelith::Elem;

    pub fn essence(m: u32, h: &[Elem], out: &mut [Elem]) -> Result<(), u32> {
        numbered(zovunelith::essence(m, h, out))
    }

    pub fn signature(m: u32, essence: &[Elem], out: &mut [Elem]) -> Result<(), u32> {
        numbered(zovunelith::signature(m, essence, out))
    }
}

/// Makes a call on a whole code, and sees that it leaves the signature and the marks alone.
macro_rules! call_on_code {
    ($params:expr, $code:ident => $call:expr) => {{
        let params = $params;
        let (h, hidden) = (Lent::holding(&params.h), Lent::holding(&params.hidden));
        let $code = lent_code(params, h.slice(), hidden.slice());
        let answer = $call;
        h.assert_unchanged();
        hidden.assert_unchanged();
        numbered(answer)
    }};
}

/// Makes a call on words, of a whole code or of a selection, and sees that it leaves the lists that it is lent alone.
macro_rules! call {
    ($setting:expr, $method:ident($($argument:expr),*)) => {
        call_on_code!($setting.params(), code => match $setting.lists() {
            None => code.$method($($argument),*),
            Some((blocks, shifts)) => {
                let (blocks, shifts) = (Lent::holding(blocks), Lent::holding(shifts));
                let hidden = Lent::holding($setting.hidden());
                let selection =
                    Selection { code, blocks: blocks.slice(), shifts: shifts.slice(), hidden: hidden.slice() };
                let answer = selection.$method($($argument),*);
                blocks.assert_unchanged();
                shifts.assert_unchanged();
                hidden.assert_unchanged();
                answer
            }
        })
    };
}

/// Checking a code and comparing two.
pub mod params {
    use super::*;

    #[track_caller]
    pub fn check(params: &Params, roots: &mut [Elem], support: &mut [Elem]) -> Result<(), u32> {
        call_on_code!(params, code => code.check(roots, support))
    }

    #[track_caller]
    pub fn same(one: &Params, other: &Params) -> Result<bool, u32> {
        call_on_code!(one, code => {
            let (h, hidden) = (Lent::holding(&other.h), Lent::holding(&other.hidden));
            let answer = code.same(&lent_code(other, h.slice(), hidden.slice()));
            h.assert_unchanged();
            hidden.assert_unchanged();
            answer
        })
    }
}

/// Roles, syndrome, encoding and taking the message out.
pub mod words {
    use super::*;

    #[track_caller]
    pub fn roles(setting: &impl Setting, roles: &mut [u8]) -> Result<u32, u32> {
        call!(setting, roles(roles))
    }

    #[track_caller]
    pub fn syndrome(setting: &impl Setting, word: &[u8], out: &mut [Elem]) -> Result<(), u32> {
        call!(setting, syndrome(word, out))
    }

    #[track_caller]
    pub fn encode(setting: &impl Setting, message: &[u8], word: &mut [u8]) -> Result<(), u32> {
        call!(setting, encode(message, word))
    }

    #[track_caller]
    pub fn message(setting: &impl Setting, word: &[u8], message: &mut [u8]) -> Result<(), u32> {
        call!(setting, message(word, message))
    }
}

/// Repair.
pub mod repair {
    use super::*;

    #[track_caller]
    pub fn repair(setting: &impl Setting, received: &[u8], repaired: &mut [u8]) -> Result<u32, u32> {
        call!(setting, repair(received, repaired))
    }
}

/// Writing and reading gear rows.
pub mod rows {
    use super::*;

    #[track_caller]
    pub fn write(setting: &impl Setting, gear: u32, lamp: u32, word: &mut [u8]) -> Result<(), u32> {
        call!(setting, write_numbers(gear, lamp, word))
    }

    /// A row that was read: gear, lamp and count of repaired bits.
    #[track_caller]
    pub fn read(setting: &impl Setting, received: &[u8], repaired: &mut [u8]) -> Result<(u32, u32, u32), u32> {
        let reading = call!(setting, read_row(received, repaired))?;
        Ok((reading.row.gear, reading.row.lamp as u32, reading.count))
    }
}

/// Rides.
pub mod ride {
    use super::*;
    use zovunelith::{Counts, Step};

    /// The most steps of a ride.
    pub const LONGEST: usize = zovunelith::LONGEST_RIDE;

    /// By gears, lamps and marks as they are lent.
    #[track_caller]
    pub fn lists(params: &Params, [gears, lamps, turned]: [&[u8]; 3], counts: &mut [u32]) -> Result<(), u32> {
        call_on_code!(params, code => code.ride_lists(gears, lamps, turned, counts))
    }

    /// By steps, which are laid out in a room.
    #[track_caller]
    pub fn steps(params: &Params, steps: &[Step], room: &mut [u8], counts: &mut Counts) -> Result<(), u32> {
        call_on_code!(params, code => code.ride(steps, room, counts))
    }

    /// The room that steps need.
    pub fn room(params: &Params, steps: usize) -> usize {
        code(params).ride_room(steps)
    }
}

/// Turns for several senders, by the buffers as they are lent.
pub mod senders {
    use super::*;
    use crate::reference::senders::Given;

    #[track_caller]
    pub fn start(given: &Given, waiting: &mut [u8], next: &mut [u32]) -> Result<(), u32> {
        let Given { params, senders, repairs } = given;
        call_on_code!(params, code => code.senders_start(*senders, *repairs, waiting, next))
    }

    #[track_caller]
    pub fn offer(given: &Given, sender: u32, word: &[u8], waiting: &mut [u8], words: &mut [u8]) -> Result<(), u32> {
        let Given { params, senders, repairs } = given;
        call_on_code!(params, code => code.senders_offer(*senders, *repairs, sender, word, waiting, words))
    }

    #[track_caller]
    pub fn round(
        given: &Given,
        waiting: &mut [u8],
        words: &[u8],
        next: &mut [u32],
        answers: &mut [i32],
        handed: &mut [u8],
    ) -> Result<(), u32> {
        let Given { params, senders, repairs } = given;
        call_on_code!(params, code => {
            code.senders_round(*senders, *repairs, waiting, words, next, answers, handed)
        })
    }
}

/// The bench sheet.
pub mod sheet {
    use super::numbered;
    use zovunelith::sheet;

    /// The length of the longest listing.
    pub const LONGEST: usize = sheet::LONGEST_LISTING;

    /// The number for a buffer in which the listing has no room.
    pub const NO_ROOM: u32 = 2;

    pub fn listing(text: &[u8], out: &mut [u8]) -> Result<usize, u32> {
        numbered(sheet::listing(text, out))
    }
}
