//! What the examples that take a card's sheet share: the card on it, whether it carries rows, and the allowed rows. A
//! sheet that is not there or is refused ends the program with a plain message.

use std::fs;
use std::process::exit;
use zovunelith::sheet::{self, LONGEST_LISTING};
use zovunelith::{nothing_hidden, Code, Counts, Elem, Lamp, Row};

/// The text of the sheet in a file.
pub fn sheet(path: &str) -> Vec<u8> {
    fs::read(path).unwrap_or_else(|error| {
        eprintln!("{path}: {error}");
        exit(1);
    })
}

/// A card that is accepted.
pub struct Card {
    /// m, n, t, the offset, rank and k; then column, h, support and role of each column.
    pub listing: String,
    /// The signature.
    h: Vec<Elem>,
}

impl Card {
    /// The card on a sheet.
    pub fn of(text: &[u8]) -> Card {
        let mut listing = vec![0; LONGEST_LISTING];
        let length = sheet::listing(text, &mut listing).unwrap_or_else(|refusal| {
            eprintln!("the sheet is refused by {refusal}");
            exit(1);
        });
        let listing = String::from_utf8_lossy(&listing[..length]).into_owned();
        let h = numbers(&listing)[6..].chunks(4).map(|column| column[1] as Elem).collect();
        Card { listing, h }
    }

    pub fn code(&self) -> Code<'_> {
        let numbers = numbers(&self.listing);
        let [m, n, t, omega] = [0, 1, 2, 3].map(|place| numbers[place]);
        Code { m, n, t, omega, h: &self.h, hidden: nothing_hidden(n) }
    }

    /// Whether the card has room for rows; if not, that is said.
    pub fn carries_rows(&self) -> bool {
        // The room is looked for before a ride starts, be it a ride of no steps.
        match self.code().ride(&[], &mut [], &mut Counts::default()) {
            Ok(()) => true,
            Err(refusal) => {
                println!("This card carries no rows: {refusal}.");
                false
            }
        }
    }
}

/// The numbers of a listing.
fn numbers(listing: &str) -> Vec<u32> {
    listing.split_whitespace().map(|number| number.parse().expect("a number")).collect()
}

/// The allowed rows: dark and amber with every gear, green in neutral and in the high neutral only.
pub fn rows() -> Vec<Row> {
    let lamps = [Lamp::Dark, Lamp::Green, Lamp::Amber];
    let rows = (0..=7).flat_map(|gear| lamps.map(|lamp| Row { gear, lamp }));
    rows.filter(|row| row.lamp != Lamp::Green || row.gear == 0 || row.gear == 7).collect()
}
