//! Rides to compare: their steps, the ways in which they end, and the same steps made by hand.

use crate::bits::{ones_at, turned, BAD_BYTES};
use crate::canary::Lent;
use crate::expect::ride_gives;
use crate::library::{ride as library, rows as library_rows};
use crate::random::Random;
use crate::reference::params::Params;
use crate::reference::repair::Decoder;
use crate::reference::ride::{self as reference, counts, End, Lists, Ridden, COUNTS};
use crate::reference::rows::{self, message, Row};
use crate::reference::words::Code;
use zovunelith::{Counts, Lamp, Step};

/// Gears and lamps that are no row, among them ones that a cut to fewer bits would bring back in.
pub const NO_ROWS: [(u8, u8); 12] = [
    (1, 1),
    (6, 1),
    (8, 0),
    (8 + 1, 0),
    (16, 2),
    (128 + 7, 1),
    (255, 2),
    (0, 3),
    (1, 4),
    (7, 8 + 1),
    (2, 128),
    (255, 255),
];

/// A ride that is refused before it starts.
pub fn refused(number: u32) -> Ridden {
    Ridden { answer: Err(number), counts: None }
}

/// A ride whose steps end so, of which none is left out.
pub fn done(ends: &[End]) -> Ridden {
    Ridden { answer: Ok(()), counts: Some(counts(ends)) }
}

/// Makes a ride and compares with the second implementation.
#[track_caller]
pub fn compare(params: &Params, lists: &Lists, counts_length: usize) -> Ridden {
    let expected = reference::ride(params, lists, counts_length);
    ride_gives(params, lists, Lent::marked(counts_length), &expected);
    expected
}

/// The same on a code that has room for rows, with lists whose lengths are right; and the same steps made by hand.
#[track_caller]
pub fn compare_steps(decoder: &Decoder, lists: &Lists) -> (Result<(), u32>, [u32; COUNTS]) {
    let params = &decoder.code.params;
    let expected = reference::ride_steps(decoder, lists);
    ride_gives(params, lists, Lent::marked(COUNTS), &expected);
    assert_eq!(by_hand(&decoder.code, lists), expected, "{params:?}, by hand");
    (expected.answer, expected.counts.expect("the ride has started"))
}

/// The ride by the library's calls for rows.
#[track_caller]
fn by_hand(code: &Code, lists: &Lists) -> Ridden {
    let (params, length) = (&code.params, code.length());
    let (mut ends, mut word, mut repaired) = (Vec::new(), vec![0; length], vec![0; length]);
    let ended = |ends: &[End], number: u32| Ridden { answer: Err(number), counts: Some(counts(ends)) };
    for (row, marks) in lists.steps(length) {
        if marks.iter().any(|&mark| mark > 1) {
            return ended(&ends, 8);
        }
        if let Err(number) = library_rows::write(params, row.gear, row.lamp, &mut word) {
            return ended(&ends, number);
        }
        word.iter_mut().zip(marks).for_each(|(bit, mark)| *bit ^= mark);
        ends.push(match library_rows::read(params, &word, &mut repaired) {
            Ok((gear, lamp, _)) if (gear, lamp) == (row.gear, row.lamp) => End::Right,
            Ok(_) => End::Wrong,
            Err(10 | 11) => End::Held,
            Err(number) => panic!("a word is refused by {number}"),
        });
    }
    done(&ends)
}

/// Marks that turn the word of a row into the word of a message, but for these places.
pub fn marks_towards(code: &Code, row: Row, carried: &[u8], places: &[usize]) -> Vec<u8> {
    let (sent, received) = (code.encode(&message(row, code.k())), turned(&code.encode(carried), places));
    sent.iter().zip(received).map(|(sent, received)| sent ^ received).collect()
}

/// Marks for a step: at most t, any number, towards a row, or towards any message.
fn any_marks(random: &mut Random, code: &Code, row: Row) -> Vec<u8> {
    let (length, k) = (code.length(), code.k());
    let (few, any) = (random.below(code.params.t as usize + 1), random.below(length + 1));
    let places = random.places(length, few);
    match random.below(4) {
        0 => ones_at(length, &places),
        1 => ones_at(length, &random.places(length, any)),
        2 => marks_towards(code, row, &message(random.pick(&rows::rows()), k), &places),
        _ => marks_towards(code, row, &random.bits(k), &places),
    }
}

pub fn push(lists: &mut Lists, row: Row, marks: &[u8]) {
    lists.push(row.gear as u8, row.lamp as u8, marks);
}

/// A ride of so many steps without a fault, on a code that has room for rows.
pub fn any_ride(random: &mut Random, code: &Code, steps: usize) -> Lists {
    let mut lists = Lists::default();
    for _ in 0..steps {
        let row = random.pick(&rows::rows());
        push(&mut lists, row, &any_marks(random, code, row));
    }
    lists
}

/// Steps of a code with words of this length, with room for rows or not.
pub fn any_lists(random: &mut Random, length: usize, steps: usize) -> Lists {
    let mut lists = Lists::default();
    for _ in 0..steps {
        push(&mut lists, random.pick(&rows::rows()), &random.bits(length));
    }
    lists
}

/// Puts a byte that is no bit among the marks of a step, of which there are so many.
pub fn spoil_mark(random: &mut Random, lists: &mut Lists, length: usize, step: usize) {
    lists.turned[step * length + random.below(length)] = random.pick(&BAD_BYTES);
}

/// Makes the row of a step one that is none.
pub fn spoil_row(random: &mut Random, lists: &mut Lists, step: usize) {
    (lists.gears[step], lists.lamps[step]) = random.pick(&NO_ROWS);
}

/// The steps of a ride as the Rust crate takes them, with so many marks each. Its lamps are the three.
pub fn steps_of(lists: &Lists, length: usize) -> Vec<Step<'_>> {
    let lamps = [Lamp::Dark, Lamp::Green, Lamp::Amber];
    let row = |row: Row| zovunelith::Row { gear: row.gear, lamp: lamps[row.lamp as usize] };
    lists.steps(length).into_iter().map(|(sent, turned)| Step { row: row(sent), turned }).collect()
}

/// The counts that a caller of the Rust crate had before.
const EARLIER: Counts = Counts { steps: 161, right: 162, held: 163, wrong: 164 };

/// Makes a ride of steps, with canaries around their room.
#[track_caller]
pub fn steps_give(params: &Params, steps: &[Step], room_length: usize, expected: &Ridden) {
    let (mut room, mut counts) = (Lent::marked(room_length), EARLIER);
    let answer = library::steps(params, steps, room.slice_mut(), &mut counts);
    assert_eq!(answer, expected.answer, "{params:?}, {} steps in a room of {room_length}", steps.len());
    assert!(room.guards_hold(), "a guard was written");
    let written = expected.counts.map(|[steps, right, held, wrong]| Counts { steps, right, held, wrong });
    assert_eq!(counts, written.unwrap_or(EARLIER));
}
