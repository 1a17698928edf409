//! What the proved library does for a card: its sheet and its essence, a row sent and repaired, a word that is too far,
//! and every row with every one bit turned and, unless the words are long, every two.
//!
//!     bash demo              card T, the toy example
//!     bash demo SHEET        the card on a sheet

mod card;

use card::{rows, Card};
use std::env;
use zovunelith::{Code, Lamp, Refusal, Row};

/// The sheet of card T.
const TOY: &str = include_str!("../../examples/card-t.sheet");

const FIRST_DARK: Row = Row { gear: 1, lamp: Lamp::Dark };

fn turned(word: &[u8], places: &[usize]) -> Vec<u8> {
    let mut word = word.to_vec();
    places.iter().for_each(|&place| word[place] ^= 1);
    word
}

fn bits(word: &[u8]) -> String {
    word.iter().map(|bit| bit.to_string()).collect()
}

/// "0 and 8", "3".
fn named(places: &[usize]) -> String {
    let names: Vec<String> = places.iter().map(usize::to_string).collect();
    match names.split_last() {
        Some((last, [])) => last.clone(),
        Some((last, first)) => format!("{} and {last}", first.join(", ")),
        None => "none".to_string(),
    }
}

/// The short form of the signature, from which it comes back.
fn show_essence(code: &Code) {
    let mut essence = vec![0; code.n.ilog2() as usize + 1];
    zovunelith::essence(code.m, code.h, &mut essence).expect("an accepted signature");
    println!("Its essence: 1/h at 1, 2, 4, .. plus 1/h_0, then 1/h_0.");
    println!("{}", essence.iter().map(|value| format!("{value:>6}")).collect::<String>());
}

/// Writes a row, which the card has room for.
fn written(code: &Code, row: Row) -> Vec<u8> {
    let mut word = vec![0; code.h.len()];
    code.write_row(row, &mut word).expect("an allowed row");
    word
}

fn show_reading(code: &Code, received: &[u8]) {
    match code.read_row(received, &mut vec![0; received.len()]) {
        Ok(reading) => println!("  read      {}, repaired bits: {}", reading.row, reading.count),
        Err(refusal) => println!("  refused   {refusal}"),
    }
}

/// A row is sent, at most t bits are turned, and it is read.
fn show_repair(code: &Code) {
    let word = written(code, FIRST_DARK);
    let places = &[0, word.len() / 2][..if code.t < 2 { 1 } else { 2 }];
    println!("{FIRST_DARK}, with bits {} turned:", named(places));
    println!("  sent      {}", bits(&word));
    let received = turned(&word, places);
    println!("  received  {}", bits(&received));
    show_reading(code, &received);
}

/// The same with a run of t + 1 turned bits that leaves no code word near.
fn show_too_far(code: &Code) {
    let word = written(code, FIRST_DARK);
    let count = code.t as usize + 1;
    for start in 0..word.len() - code.t as usize {
        let places: Vec<usize> = (start..start + count).collect();
        let received = turned(&word, &places);
        if code.repair(&received, &mut vec![0; word.len()]) == Err(Refusal::TooFar) {
            println!("{FIRST_DARK}, with bits {} turned:", named(&places));
            println!("  received  {}", bits(&received));
            return show_reading(code, &received);
        }
    }
    println!("No run of {count} turned bits is too far.");
}

/// The longest words of which every two bits are turned: longer ones have so many pairs that the demo would take minutes.
const LONGEST_FOR_PAIRS: usize = 128;

/// Every row with every one and, where t allows it and the words are not too long, every two bits turned.
fn show_all(code: &Code) {
    let n = code.h.len();
    let doubles = code.t >= 2 && n <= LONGEST_FOR_PAIRS;
    println!("Every row with every one{} turned:", if doubles { " and every two bits" } else { " bit" });
    let (mut all, mut all_right) = (0, 0);
    for row in rows() {
        let word = written(code, row);
        let (mut words, mut right) = (0, 0);
        let mut read = |places: &[usize]| {
            let reading = code.read_row(&turned(&word, places), &mut vec![0; n]);
            words += 1;
            right +=
                u32::from(reading.is_ok_and(|reading| reading.row == row && reading.count as usize == places.len()));
        };
        for first in 0..n {
            read(&[first]);
            (first + 1..n).filter(|_| doubles).for_each(|second| read(&[first, second]));
        }
        println!("  {:<21}{right} of {words} read as sent", row.to_string());
        all += words;
        all_right += right;
    }
    println!("  {:<21}{all_right} of {all} read as sent", "together");
}

fn main() {
    let text = env::args().nth(1).map_or(TOY.as_bytes().to_vec(), |path| card::sheet(&path));
    let card = Card::of(&text);
    println!("The sheet: m, n, t, offset; then the signature h.");
    print!("{}", String::from_utf8_lossy(&text));
    println!("Its listing: m, n, t, offset, rank, k; then column, h, support, and 1 for a message column.");
    print!("{}", card.listing);
    show_essence(&card.code());
    println!();

    if !card.carries_rows() {
        return;
    }
    let code = card.code();
    show_repair(&code);
    println!();
    show_too_far(&code);
    println!();
    show_all(&code);
}
