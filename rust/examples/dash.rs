//! A dash: takes words from the wire, repairs them and shows the row. A word that is refused leaves the last row on the
//! dash. The wire is played here: rows that a sender writes, and the places that the spark turns.
//!
//!     cargo run --offline --manifest-path rust/Cargo.toml --example dash

use zovunelith::{nothing_hidden, Code, Elem, Lamp, Refusal, Row};

/// The card of this motorcycle.
const H: [Elem; 16] = [12, 8, 10, 22, 26, 9, 16, 21, 14, 5, 17, 4, 30, 23, 25, 31];
const CODE: Code = Code { m: 5, n: 16, t: 2, omega: 24, h: &H, hidden: nothing_hidden(16) };

/// What is sent, and the places that the spark turns.
const RIDE: [(Row, &[usize]); 7] = [
    (Row { gear: 0, lamp: Lamp::Green }, &[]),
    (Row { gear: 1, lamp: Lamp::Dark }, &[0, 8]),
    (Row { gear: 1, lamp: Lamp::Dark }, &[6, 7, 8]),
    (Row { gear: 2, lamp: Lamp::Dark }, &[3]),
    (Row { gear: 3, lamp: Lamp::Amber }, &[0, 15]),
    (Row { gear: 6, lamp: Lamp::Dark }, &[]),
    (Row { gear: 7, lamp: Lamp::Green }, &[4, 9]),
];

fn main() -> Result<(), Refusal> {
    let mut shown: Option<Row> = None;
    for (row, turned) in RIDE {
        let mut word = [0; 16];
        CODE.write_row(row, &mut word)?;
        for &place in turned {
            word[place] ^= 1;
        }

        let reading = CODE.read_row(&word, &mut [0; 16]);
        if let Ok(reading) = reading {
            shown = Some(reading.row);
        }
        match shown {
            Some(row) => print!("dash: {row}"),
            None => print!("dash: nothing yet"),
        }
        match reading {
            Ok(reading) => println!(" (repaired bits: {})", reading.count),
            Err(refusal) => println!(" (held, the word is refused by {})", refusal.number()),
        }
    }
    Ok(())
}
