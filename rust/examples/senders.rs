//! A dash that listens to three senders on one card and repairs one word a round. Code words are handed out at once and
//! the others are repaired in turn, so that a word leaves within three rounds, whatever the others send. The wire is
//! played here: what the senders offer before each round, and the places that the spark turns.
//!
//!     cargo run --offline --manifest-path rust/Cargo.toml --example senders

use zovunelith::{nothing_hidden, Code, Elem, Lamp, Refusal, Row, Senders};

/// The card of this motorcycle.
const H: [Elem; 16] = [12, 8, 10, 22, 26, 9, 16, 21, 14, 5, 17, 4, 30, 23, 25, 31];
const CODE: Code = Code { m: 5, n: 16, t: 2, omega: 24, h: &H, hidden: nothing_hidden(16) };

/// Who sends, by number, and how many words a round repairs.
const NAMES: [&str; 3] = ["gear box", "handlebar", "side stand"];
const REPAIRS: u32 = 1;

/// What is offered before each round, by whom, and the places that the spark turns.
const ROUNDS: [&[(usize, Row, &[usize])]; 6] = [
    &[
        (0, Row { gear: 0, lamp: Lamp::Green }, &[]),
        (1, Row { gear: 1, lamp: Lamp::Dark }, &[0, 8]),
        (2, Row { gear: 0, lamp: Lamp::Amber }, &[3]),
    ],
    &[
        (0, Row { gear: 1, lamp: Lamp::Dark }, &[6, 7, 8]),
        (1, Row { gear: 2, lamp: Lamp::Dark }, &[3]),
        (2, Row { gear: 0, lamp: Lamp::Dark }, &[]),
    ],
    &[(2, Row { gear: 0, lamp: Lamp::Dark }, &[0, 15])],
    &[(0, Row { gear: 1, lamp: Lamp::Dark }, &[])],
    &[(0, Row { gear: 3, lamp: Lamp::Amber }, &[4, 9])],
    &[],
];

fn main() -> Result<(), Refusal> {
    let (mut waiting, mut words, mut handed) = ([0; 3], [0; 3 * 16], [0; 3 * 16]);
    let count = NAMES.len() as u32;
    let mut senders = Senders::start(CODE, count, REPAIRS, &mut waiting, &mut words)?;
    let within = count.div_ceil(REPAIRS);
    println!("senders: {count}, repairs in a round: {REPAIRS}, so that a word leaves within {within} rounds");
    // The first round after the arrival of each sender's word, and the most rounds that a word took.
    let (mut first, mut longest) = ([0; 3], 0);
    for (round, offers) in (1..).zip(ROUNDS) {
        for &(sender, row, turned) in offers {
            let mut word = [0; 16];
            CODE.write_row(row, &mut word)?;
            for &place in turned {
                word[place] ^= 1;
            }
            match senders.offer(sender as u32, &word) {
                Ok(()) => first[sender] = round,
                Err(refusal) => println!("{} offers {row}: refused by {}", NAMES[sender], refusal.number()),
            }
        }

        let answers = senders.round(&mut handed)?;
        println!("round {round}");
        for (sender, word) in handed.chunks(16).enumerate() {
            print!("  {:<12}", NAMES[sender]);
            match answers.of(sender) {
                None => {
                    println!("nothing");
                    continue;
                }
                Some(Err(refusal)) => print!("{} ({})", refusal.word(), refusal.number()),
                Some(Ok(count)) => {
                    print!("{} (repaired bits: {count})", CODE.read_row(word, &mut [0; 16])?.row);
                }
            }
            let rounds = round - first[sender] + 1;
            println!(", rounds: {rounds}");
            longest = longest.max(rounds);
        }
    }
    println!("the longest wait: {longest} rounds");
    Ok(())
}
