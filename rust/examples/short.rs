//! A sender with fewer wires than its code has places: the fitter hides message columns, which always hold 0 then and
//! are not transmitted. The program shows what the fitter is told about the card, a row that the sender's words carry,
//! a slip that is refused, and that other marks make another card.
//!
//!     cargo run --offline --manifest-path rust/Cargo.toml --example short

use zovunelith::{nothing_hidden, Code, Elem, Lamp, Refusal, Row};

/// The card of this motorcycle, while nothing is hidden.
const H: [Elem; 32] = [
    39, 49, 32, 13, 20, 40, 17, 2, 47, 3, 43, 51, 63, 60, 46, 34, 61, 44, 55, 5, 15, 22, 29, 27, 48, 16, 31, 54, 21,
    10, 25, 23,
];
const CARD: Code = Code { m: 6, n: 32, t: 2, omega: 5, h: &H, hidden: nothing_hidden(32) };

/// The same with the fitter's marks: of the twenty message columns six are sent, beside all check columns.
const SHORT: Code = Code {
    hidden: &[0, 0, 0, 0, 0, 0, 0, 0, 0, 0, 0, 0, 0, 1, 1, 0, 1, 1, 0, 1, 1, 0, 1, 1, 0, 1, 1, 0, 1, 1, 1, 1],
    ..CARD
};
const WIRES: usize = SHORT.sent();

fn show(what: &str, bits: &[u8]) {
    println!("  {what:<9}{}", bits.iter().map(|&bit| if bit == 1 { '1' } else { '0' }).collect::<String>());
}

fn main() -> Result<(), Refusal> {
    let (mut roles, mut word, mut repaired) = ([0; 32], [0; WIRES], [0; WIRES]);
    let k = CARD.roles(&mut roles)?;
    println!("a card of {} places, message bits: {k}; a place of role 1 may be hidden", CARD.n);
    show("roles", &roles);

    let k = SHORT.roles(&mut roles)?;
    println!("for a sender of {WIRES} wires, message bits: {k}");
    show("hidden", SHORT.hidden);

    let row = Row { gear: 2, lamp: Lamp::Amber };
    SHORT.write_row(row, &mut word)?;
    println!("{row}, with the bits of wires 4 and 13 turned");
    show("sent", &word);
    word[4] ^= 1;
    word[13] ^= 1;
    show("received", &word);
    let reading = SHORT.read_row(&word, &mut repaired)?;
    println!("  read     {} (repaired bits: {})", reading.row, reading.count);

    let mut hidden = [0; 32];
    hidden[0] = 1;
    let number = Code { hidden: &hidden, ..CARD }.roles(&mut roles).map_or_else(Refusal::number, |_| 0);
    println!("place 0 hidden, a check column: refused by {number}");
    let same = SHORT.same(&CARD)?;
    println!("with these marks and with nothing hidden: {}", if same { "one card" } else { "two cards" });
    Ok(())
}
