//! A loom with fewer wires than its code is long: a selection of nine of the code's sixteen blocks, each with a shift.
//! The program shows what the fitter is told about the loom, a row that it carries, and two slips that are refused.
//!
//!     cargo run --offline --manifest-path rust/Cargo.toml --example loom

use zovunelith::{nothing_hidden, Code, Elem, Lamp, Refusal, Row, Selection};

/// The card of this motorcycle.
const H: [Elem; 32] = [
    39, 49, 32, 13, 20, 40, 17, 2, 47, 3, 43, 51, 63, 60, 46, 34, 61, 44, 55, 5, 15, 22, 29, 27, 48, 16, 31, 54, 21,
    10, 25, 23,
];
const CODE: Code = Code { m: 6, n: 32, t: 2, omega: 5, h: &H, hidden: nothing_hidden(32) };

/// The blocks that the loom has wires for, in the order of its plug, and the shift of each.
const LOOM: Selection = Selection {
    code: CODE,
    blocks: &[12, 3, 0, 7, 15, 9, 4, 1, 10],
    shifts: &[0, 1, 1, 0, 0, 1, 0, 0, 1],
    hidden: nothing_hidden(18),
};
const WIRES: usize = LOOM.sent();

fn show(what: &str, bits: &[u8; WIRES]) {
    println!("  {what:<9}{}", bits.map(|bit| if bit == 1 { '1' } else { '0' }).iter().collect::<String>());
}

fn refusal(blocks: &[u32], shifts: &[u32]) -> u32 {
    let slip = Selection { code: CODE, blocks, shifts, hidden: nothing_hidden(4) };
    slip.roles(&mut [0; 4]).map_or_else(Refusal::number, |_| 0)
}

fn main() -> Result<(), Refusal> {
    let (mut roles, mut word, mut repaired) = ([0; WIRES], [0; WIRES], [0; WIRES]);
    let k = LOOM.roles(&mut roles)?;
    println!("a loom of {WIRES} wires, message bits: {k}");
    show("roles", &roles);

    let row = Row { gear: 2, lamp: Lamp::Amber };
    LOOM.write_row(row, &mut word)?;
    println!("{row}, with the bits of wires 4 and 11 turned");
    show("sent", &word);
    word[4] ^= 1;
    word[11] ^= 1;
    show("received", &word);
    let reading = LOOM.read_row(&word, &mut repaired)?;
    println!("  read     {} (repaired bits: {})", reading.row, reading.count);

    println!("block 12 named twice: refused by {}", refusal(&[12, 12], &[0, 1]));
    println!("a shift of 2: refused by {}", refusal(&[12, 3], &[0, 2]));
    Ok(())
}
