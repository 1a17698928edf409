//! Rides for the fitter's bench, before t is chosen: a card is ridden with each number of turned bits from 0 to 2t.
//! Every step sends one of the allowed rows and turns that many bits of its word. Rows and bits are drawn, and the same
//! seed draws the same ones.
//!
//!     bash ride SHEET STEPS SEED

mod card;

use card::{rows, Card};
use std::env;
use std::process::exit;
use std::str::FromStr;
use zovunelith::{Counts, Step, LONGEST_RIDE};

/// Numbers that look random, the same for the same seed (splitmix64).
struct Random(u64);

impl Random {
    fn below(&mut self, bound: usize) -> usize {
        self.0 = self.0.wrapping_add(0x9E37_79B9_7F4A_7C15);
        let mut bits = self.0;
        bits = (bits ^ (bits >> 30)).wrapping_mul(0xBF58_476D_1CE4_E5B9);
        bits = (bits ^ (bits >> 27)).wrapping_mul(0x94D0_49BB_1331_11EB);
        ((bits ^ (bits >> 31)) % bound as u64) as usize
    }

    /// Marks for a word of n bits, `count` of which are turned.
    fn marks(&mut self, n: usize, count: usize) -> Vec<u8> {
        let mut places: Vec<usize> = (0..n).collect();
        let mut marks = vec![0; n];
        for taken in 0..count {
            places.swap(taken, taken + self.below(n - taken));
            marks[places[taken]] = 1;
        }
        marks
    }
}

fn stop(message: &str) -> ! {
    eprintln!("{message}");
    exit(1);
}

fn number<T: FromStr>(name: &str, text: &str) -> T {
    text.parse().unwrap_or_else(|_| stop(&format!("{name} is to be a number, not '{text}'")))
}

fn main() {
    let arguments: Vec<String> = env::args().skip(1).collect();
    let [path, steps, seed] = arguments.as_slice() else { stop("usage: bash ride SHEET STEPS SEED") };
    let (steps, mut random) = (number::<usize>("STEPS", steps), Random(number("SEED", seed)));
    if steps > LONGEST_RIDE {
        stop(&format!("a ride has at most {LONGEST_RIDE} steps"));
    }
    let card = Card::of(&card::sheet(path));
    if !card.carries_rows() {
        return;
    }
    let code = card.code();
    let (n, t, rows) = (code.n as usize, code.t as usize, rows());
    let (mut room, mut counts) = (vec![0; code.ride_room(steps)], Counts::default());
    println!("{:>6}{:>7}{:>7}{:>7}{:>7}", "turned", "steps", "right", "held", "wrong");
    for turned in 0..=2 * t {
        let drawn: Vec<_> = (0..steps).map(|_| (rows[random.below(rows.len())], random.marks(n, turned))).collect();
        let steps: Vec<Step> = drawn.iter().map(|(row, turned)| Step { row: *row, turned }).collect();
        code.ride(&steps, &mut room, &mut counts).expect("allowed rows, with marks of 0 and 1");
        let Counts { steps, right, held, wrong } = counts;
        println!("{turned:>6}{steps:>7}{right:>7}{held:>7}{wrong:>7}");
    }
}
