//! The time of each public call, and of a rival that is not proved, in one run.
//!
//!     cargo run --release --offline --manifest-path bench/Cargo.toml                    times, as ratios
//!     cargo run --release --offline --manifest-path bench/Cargo.toml instructions       instruction counts (needs valgrind)
//!     cargo run --release --offline --manifest-path bench/Cargo.toml growth             how these grow with n and t
//!     cargo run --release --offline --manifest-path bench/Cargo.toml steps              whether products differ in theirs
//!     cargo run --release --offline --manifest-path bench/Cargo.toml halves             products of elements in one of blocks

mod rival;
mod steps;

use std::hint::black_box;
use std::process::{self, exit, Command};
use std::time::Instant;
use std::{env, fs};
use zovunelith::{block, field, nothing_hidden, sheet, Code, Elem, Lamp, Row, Selection, LONGEST_RIDE, MOST_SENDERS};

/// m, n and t.
type Shape = (u32, u32, u32);

const SHAPES: [Shape; 7] =
    [(5, 16, 2), (8, 64, 4), (8, 128, 8), (8, 128, 64), (11, 512, 32), (16, 512, 8), (16, 512, 256)];

const CALLS: [&str; 32] = [
    "field sum",
    "field product",
    "field inverse",
    "block sum",
    "block product",
    "block inverse",
    "formula",
    "check",
    "same",
    "essence",
    "signature",
    "roles",
    "syndrome",
    "encode",
    "message",
    "repair",
    "write row",
    "read row",
    "short encode",
    "short repair",
    "step of a ride",
    "senders start",
    "senders offer",
    "senders round",
    "selection roles",
    "selection syndrome",
    "selection encode",
    "selection message",
    "selection repair",
    "selection write row",
    "selection read row",
    "sheet",
];

/// How often a call does what its line shows. Of a ride this is a step; the longest ride is made, so that what is done
/// once before it starts hardly counts.
fn times_in_a_call(call: &str) -> usize {
    match call {
        "step of a ride" => LONGEST_RIDE,
        _ => 1,
    }
}

/// At one width, n grows and then t.
const GROWTH: [Shape; 9] = [
    (11, 64, 8),
    (11, 128, 8),
    (11, 256, 8),
    (11, 512, 8),
    (11, 512, 16),
    (11, 512, 32),
    (11, 512, 64),
    (11, 512, 128),
    (11, 512, 256),
];

/// The calls whose growth is shown.
const GROWING: [&str; 4] = ["check", "roles", "syndrome", "repair"];

const FIRST_DARK: Row = Row { gear: 1, lamp: Lamp::Dark };

/// The senders of a dash, and the repairs in a round: as many as there may be, so that a round repairs a word of each.
const SENDERS: u32 = MOST_SENDERS as u32;

/// Has every operation, with the signature for each of the letters.
const FORMULA: &[u8] = b"(A+B*C')/D";

/// Numbers that look random, the same in each run.
struct Random(u64);

impl Random {
    fn below(&mut self, bound: usize) -> usize {
        self.0 = self.0.wrapping_mul(6364136223846793005).wrapping_add(1442695040888963407);
        (self.0 >> 33) as usize % bound
    }

    /// `count` different numbers below `length`.
    fn choice(&mut self, length: usize, count: usize) -> Vec<usize> {
        let mut all: Vec<usize> = (0..length).collect();
        (0..count).for_each(|taken| all.swap(taken, taken + self.below(length - taken)));
        all.truncate(count);
        all
    }
}

/// A signature that is accepted: 1/h_i is i's image under a linear map of full rank, plus an element outside of it.
fn signature(random: &mut Random, m: u32, n: u32) -> Vec<Elem> {
    let mut span = vec![0_u32];
    let outside = |random: &mut Random, span: &[u32]| loop {
        let element = random.below(1 << m) as u32;
        if !span.contains(&element) {
            return element;
        }
    };
    while span.len() < n as usize {
        let element = outside(random, &span);
        let shifted: Vec<u32> = span.iter().map(|&other| other ^ element).collect();
        span.extend(shifted);
    }
    let offset = outside(random, &span);
    span.iter().map(|&element| field::inverse(m, element ^ offset).expect("an element") as Elem).collect()
}

/// Has the value computed.
fn keep<T>(value: T) {
    black_box(value);
}

/// What the calls on words are given: a message, its word, and the word with t places turned.
struct Words {
    length: usize,
    t: usize,
    k: usize,
    message: Vec<u8>,
    word: Vec<u8>,
    received: Vec<u8>,
    /// 1 for each place that is turned.
    marks: Vec<u8>,
    /// A row's word with t places turned, where there is room for rows.
    row_received: Option<Vec<u8>>,
}

impl Words {
    fn new(random: &mut Random, selection: Selection) -> Words {
        let (t, length) = (selection.code.t as usize, selection.sent());
        let k = selection.roles(&mut vec![0; selection.hidden.len()]).expect("an accepted selection") as usize;
        let message: Vec<u8> = (0..k).map(|_| random.below(2) as u8).collect();
        let mut word = vec![0; length];
        selection.encode(&message, &mut word).expect("a message");
        let mut marks = vec![0; length];
        random.choice(length, t).into_iter().for_each(|place| marks[place] = 1);
        let turned = |word: &[u8]| word.iter().zip(&marks).map(|(bit, mark)| bit ^ mark).collect();
        let mut row = vec![0; length];
        let row_received = selection.write_row(FIRST_DARK, &mut row).ok().map(|()| turned(&row));
        let received = turned(&word);
        Words { length, t, k, message, word, received, marks, row_received }
    }
}

/// Blocks and shifts of a selection of half the code's blocks. With so few, k is small and often 0: of these draws the
/// first that has room for rows is taken, or the last.
fn half_of_the_blocks(random: &mut Random, code: Code, draws: usize) -> (Vec<u32>, Vec<u32>) {
    let (count, t) = ((code.n / code.t) as usize, code.t as usize);
    let half = count / 2;
    let mut draw = || -> (Vec<u32>, Vec<u32>) {
        let blocks = random.choice(count, half).into_iter().map(|block| block as u32).collect();
        (blocks, (0..half).map(|_| random.below(t) as u32).collect())
    };
    let carries_rows = |(blocks, shifts): &(Vec<u32>, Vec<u32>)| {
        let hidden = nothing_hidden((half * t) as u32);
        Selection { code, blocks, shifts, hidden }.write_row(FIRST_DARK, &mut vec![0; half * t]).is_ok()
    };
    let mut drawn = draw();
    for _ in 1..draws {
        if carries_rows(&drawn) {
            break;
        }
        drawn = draw();
    }
    drawn
}

/// Marks that hide half of a code's message columns.
fn half_of_the_message_columns(random: &mut Random, code: Code) -> Vec<u8> {
    let mut roles = vec![0; code.n as usize];
    code.roles(&mut roles).expect("an accepted code");
    let columns: Vec<usize> = (0..roles.len()).filter(|&place| roles[place] == 1).collect();
    let mut hidden = vec![0; roles.len()];
    random.choice(columns.len(), columns.len() / 2).into_iter().for_each(|index| hidden[columns[index]] = 1);
    hidden
}

/// What the calls are given at a shape: a code, a selection of half its blocks, and marks that hide half of its message
/// columns. Code and selection hide nothing.
struct Inputs {
    m: u32,
    n: usize,
    t: usize,
    omega: u32,
    h: Vec<Elem>,
    /// That of the signature.
    essence: Vec<Elem>,
    blocks: Vec<u32>,
    shifts: Vec<u32>,
    hidden: Vec<u8>,
    whole: Words,
    selected: Words,
    short: Words,
    text: Vec<u8>,
    field: rival::Field,
}

/// The product's call on words, of a code or of a selection, to be made again and again; none where there is no room
/// for rows.
macro_rules! product_word_call {
    ($of:expr, $words:expr, $call:expr) => {{
        let (of, words) = ($of, $words);
        let (mut out, mut syndrome) = (vec![0; words.length], vec![0; words.t]);
        let made: Box<dyn FnMut() + '_> = match $call {
            "roles" => Box::new(move || keep(of.roles(&mut out).expect("accepted"))),
            "syndrome" => Box::new(move || of.syndrome(&words.received, &mut syndrome).expect("a word")),
            "encode" => Box::new(move || of.encode(&words.message, &mut out).expect("a message")),
            "message" => Box::new(move || of.message(&words.word, &mut out[..words.k]).expect("a word")),
            "repair" => Box::new(move || keep(of.repair(&words.received, &mut out).expect("t places"))),
            "write row" => {
                words.row_received.as_deref()?;
                Box::new(move || of.write_row(FIRST_DARK, &mut out).expect("a row"))
            }
            "read row" => {
                let received = words.row_received.as_deref()?;
                Box::new(move || keep(of.read_row(received, &mut out).expect("t places")))
            }
            call => unreachable!("{call} is no call"),
        };
        Some(made)
    }};
}

/// The rival's call for the same. Each time, `begin` makes the tests of the code and of the columns anew; it writes the
/// inverses of the signature and gives the words over the columns.
fn rival_word_call<'a, Column: Fn(usize) -> usize>(
    begin: impl Fn(&mut [Elem]) -> rival::Words<'a, Column> + 'a,
    words: &'a Words,
    call: &str,
) -> Option<Box<dyn FnMut() + 'a>> {
    let (mut out, mut syndrome) = (vec![0; words.length], vec![0; words.t]);
    let mut inverses = vec![0; rival::LONGEST];
    Some(match call {
        "roles" => Box::new(move || keep(begin(&mut inverses).roles(&mut out))),
        "syndrome" => Box::new(move || begin(&mut inverses).syndrome(&words.received, &mut syndrome)),
        "encode" => Box::new(move || begin(&mut inverses).encode(&words.message, &mut out)),
        "message" => Box::new(move || begin(&mut inverses).message(&words.word, &mut out[..words.k])),
        "repair" => Box::new(move || {
            let columns = begin(&mut inverses);
            black_box(columns.repair(&inverses, &words.received, &mut out).expect("t places"));
        }),
        "write row" => {
            words.row_received.as_deref()?;
            Box::new(move || begin(&mut inverses).write_row(1, 0, &mut out))
        }
        "read row" => {
            let received = words.row_received.as_deref()?;
            Box::new(move || {
                let columns = begin(&mut inverses);
                black_box(columns.read_row(&inverses, received, &mut out).expect("t places"));
            })
        }
        call => unreachable!("{call} is no call"),
    })
}

/// A line of a sheet or of a listing.
fn line(numbers: &[u32]) -> String {
    numbers.iter().map(|number| format!("{number:>6}")).collect::<String>() + "\n"
}

impl Inputs {
    fn new((m, n, t): Shape) -> Inputs {
        let mut random = Random(u64::from(m * 1000 + n + t));
        let h = signature(&mut random, m, n);
        let omega = random.below(1 << m) as u32;
        let code = Code { m, n, t, omega, h: &h, hidden: nothing_hidden(n) };
        let mut essence = vec![0; n.ilog2() as usize + 1];
        zovunelith::essence(m, &h, &mut essence).expect("an accepted signature");
        let count = n / t;
        // The whole code is the selection of all its blocks.
        let (all, no_shifts) = ((0..count).collect::<Vec<u32>>(), vec![0; count as usize]);
        let whole_code = Selection { code, blocks: &all, shifts: &no_shifts, hidden: code.hidden };
        let whole = Words::new(&mut random, whole_code);
        // A selection's k is never above the whole code's.
        let draws = if whole.row_received.is_some() { 1000 } else { 1 };
        let (blocks, shifts) = half_of_the_blocks(&mut random, code, draws);
        let places = nothing_hidden(blocks.len() as u32 * t);
        let selected = Words::new(&mut random, Selection { code, blocks: &blocks, shifts: &shifts, hidden: places });
        let hidden = half_of_the_message_columns(&mut random, code);
        let short = Words::new(&mut random, Selection { hidden: &hidden, ..whole_code });
        let entries: Vec<u32> = h.iter().map(|&entry| entry.into()).collect();
        let text = (line(&[m, n, t, omega]) + &line(&entries)).into_bytes();
        let field = rival::Field::new(m);
        let (n, t) = (n as usize, t as usize);
        Inputs { m, n, t, omega, h, essence, blocks, shifts, hidden, whole, selected, short, text, field }
    }

    fn code(&self) -> Code<'_> {
        let (n, t) = (self.n as u32, self.t as u32);
        Code { m: self.m, n, t, omega: self.omega, h: &self.h, hidden: nothing_hidden(n) }
    }

    fn selection(&self) -> Selection<'_> {
        let hidden = nothing_hidden(self.selected.length as u32);
        Selection { code: self.code(), blocks: &self.blocks, shifts: &self.shifts, hidden }
    }

    fn short_code(&self) -> Code<'_> {
        Code { hidden: &self.hidden, ..self.code() }
    }

    fn rival(&self) -> rival::Code<'_> {
        let hidden = nothing_hidden(self.n as u32);
        rival::Code { field: &self.field, t: self.t, omega: self.omega as Elem, h: &self.h, hidden }
    }

    /// As many senders as there may be, each with a word of t turned places, and as many repairs in a round.
    fn rival_senders(&self) -> rival::Senders {
        let words = self.whole.received.repeat(MOST_SENDERS);
        rival::Senders { repairs: MOST_SENDERS, waiting: vec![0; MOST_SENDERS], words, next: 0 }
    }

    /// The product's call, to be made again and again; none where the shape has no such call.
    fn product_call(&self, call: &str) -> Option<Box<dyn FnMut() + '_>> {
        if let Some(call) = call.strip_prefix("selection ") {
            return product_word_call!(self.selection(), &self.selected, call);
        }
        if let Some(call) = call.strip_prefix("short ") {
            return product_word_call!(self.short_code(), &self.short, call);
        }
        let code = self.code();
        let (m, n, a, b) = (self.m, self.n, u32::from(self.h[0]), u32::from(self.h[1]));
        let (mut out, mut second, mut short) = (vec![0; n], vec![0; n], vec![0; self.essence.len()]);
        Some(match call {
            "field sum" => Box::new(move || keep(field::sum(black_box(m), a, b))),
            "field product" => Box::new(move || keep(field::product(black_box(m), a, b))),
            "field inverse" => Box::new(move || keep(field::inverse(black_box(m), a))),
            "block sum" => Box::new(move || block::sum(m, &self.h, &self.h, &mut out).expect("blocks")),
            "block product" => Box::new(move || block::product(m, &self.h, &self.h, &mut out).expect("blocks")),
            // The matrix of an accepted signature is a Cauchy matrix, which has an inverse.
            "block inverse" => Box::new(move || block::inverse(m, &self.h, &mut out).expect("an inverse")),
            "formula" => Box::new(move || block::formula(m, FORMULA, [&self.h; 4], &mut out).expect("inverses")),
            "check" => Box::new(move || code.check(&mut out, &mut second).expect("accepted")),
            "same" => Box::new(move || keep(code.same(&code).expect("accepted"))),
            "essence" => Box::new(move || zovunelith::essence(m, &self.h, &mut short).expect("accepted")),
            "signature" => Box::new(move || zovunelith::signature(m, &self.essence, &mut out).expect("an essence")),
            "step of a ride" => {
                self.whole.row_received.as_deref()?;
                let [gears, lamps] = [1, 0].map(|number| vec![number; LONGEST_RIDE]);
                let (turned, mut counts) = (self.whole.marks.repeat(LONGEST_RIDE), [0; 4]);
                Box::new(move || code.ride_lists(&gears, &lamps, &turned, &mut counts).expect("rows and marks"))
            }
            "senders start" => {
                let (mut waiting, mut next) = ([0; MOST_SENDERS], [0]);
                Box::new(move || code.senders_start(SENDERS, SENDERS, &mut waiting, &mut next).expect("senders"))
            }
            "senders offer" => {
                let (mut waiting, mut words) = ([0; MOST_SENDERS], vec![0; MOST_SENDERS * n]);
                Box::new(move || {
                    // That of the offer before waits still.
                    waiting[0] = 0;
                    let (word, waiting) = (&self.whole.received, &mut waiting);
                    code.senders_offer(SENDERS, SENDERS, 0, word, waiting, &mut words).expect("a word");
                })
            }
            "senders round" => {
                let (words, mut handed) = (self.whole.received.repeat(MOST_SENDERS), vec![0; MOST_SENDERS * n]);
                let (mut waiting, mut next, mut answers) = ([0; MOST_SENDERS], [0], [0; MOST_SENDERS]);
                Box::new(move || {
                    // All have left in the round before.
                    waiting.fill(1);
                    let (waiting, next, answers) = (&mut waiting, &mut next, &mut answers);
                    code.senders_round(SENDERS, SENDERS, waiting, &words, next, answers, &mut handed).expect("words");
                })
            }
            "sheet" => {
                let mut listing = vec![0; sheet::LONGEST_LISTING];
                Box::new(move || keep(sheet::listing(&self.text, &mut listing).expect("a sheet")))
            }
            _ => return product_word_call!(code, &self.whole, call),
        })
    }

    /// The rival's call for the same.
    fn rival_call(&self, call: &str) -> Option<Box<dyn FnMut() + '_>> {
        let code = self.rival();
        let short_code = rival::Code { hidden: &self.hidden, ..code };
        let check = move |inverses: &mut [Elem]| black_box(code.check(inverses)).expect("accepted");
        if let Some(call) = call.strip_prefix("selection ") {
            let begin = move |inverses: &mut [Elem]| {
                check(inverses);
                code.selected(&self.blocks, &self.shifts, self.selection().hidden).expect("blocks")
            };
            return rival_word_call(begin, &self.selected, call);
        }
        let (n, a, b) = (self.n, self.h[0], self.h[1]);
        let (mut out, mut inverses, mut short) = (vec![0; n], vec![0; n], vec![0; self.essence.len()]);
        let mut word = vec![0; self.short.length];
        Some(match call {
            "field sum" => Box::new(move || keep(black_box(a) ^ b)),
            "field product" => Box::new(move || keep(self.field.product(black_box(a), b))),
            "field inverse" => Box::new(move || keep(self.field.inverse(black_box(a)))),
            "block sum" => Box::new(move || {
                out.iter_mut().zip(&self.h).for_each(|(sum, &entry)| *sum = entry ^ black_box(entry));
            }),
            "block product" => Box::new(move || rival::block_product(&self.field, &self.h, &self.h, &mut out)),
            "block inverse" => Box::new(move || keep(rival::block_inverse(&self.field, &self.h, &mut out))),
            "formula" => Box::new(move || {
                rival::formula(&self.field, FORMULA, [&self.h; 4], &mut out).expect("inverses");
            }),
            "short encode" => Box::new(move || {
                black_box(short_code.check(&mut inverses)).expect("accepted");
                let basis = short_code.marked_basis().expect("message columns");
                basis.encode_sent(&self.hidden, &self.short.message, &mut word);
            }),
            "short repair" => Box::new(move || {
                black_box(short_code.check(&mut inverses)).expect("accepted");
                black_box(short_code.marked_basis()).expect("message columns");
                let columns = short_code.sent();
                black_box(columns.repair(&inverses, &self.short.received, &mut word).expect("t places"));
            }),
            "check" => Box::new(move || check(&mut inverses)),
            "same" => Box::new(move || {
                check(&mut inverses);
                check(&mut inverses);
                let card = (self.m, code.t, code.omega, code.h, code.hidden);
                black_box(card == black_box(card));
            }),
            "essence" => Box::new(move || rival::essence(&self.field, &self.h, &mut short).expect("accepted")),
            "signature" => Box::new(move || {
                rival::signature(&self.field, &self.essence, &mut out).expect("an essence");
            }),
            "step of a ride" => {
                self.whole.row_received.as_deref()?;
                // Before what is timed: a ride does this once, and not in each step.
                check(&mut inverses);
                let columns = code.whole();
                let (basis, marks) = (columns.basis(), &self.whole.marks);
                let (mut word, mut repaired) = (vec![0; n], vec![0; n]);
                Box::new(move || {
                    for _ in 0..LONGEST_RIDE {
                        basis.write_row(1, 0, &mut word);
                        word.iter_mut().zip(marks).for_each(|(bit, mark)| *bit ^= mark);
                        black_box(columns.read_row_by(&basis, &inverses, &word, &mut repaired).expect("t places"));
                    }
                })
            }
            "senders start" => {
                let mut senders = self.rival_senders();
                Box::new(move || {
                    check(&mut inverses);
                    senders.start().expect("senders");
                })
            }
            "senders offer" => {
                let mut senders = self.rival_senders();
                Box::new(move || {
                    check(&mut inverses);
                    senders.waiting[0] = 0;
                    senders.offer(0, &self.whole.received).expect("a word");
                })
            }
            "senders round" => {
                let (mut senders, mut answers) = (self.rival_senders(), vec![None; MOST_SENDERS]);
                let mut handed = vec![0; MOST_SENDERS * n];
                Box::new(move || {
                    check(&mut inverses);
                    senders.waiting.fill(1);
                    senders.round(&code.whole(), &inverses, &mut answers, &mut handed).expect("words");
                })
            }
            "sheet" => Box::new(move || keep(rival_listing(&self.field, &self.text))),
            _ => {
                let begin = move |inverses: &mut [Elem]| {
                    check(inverses);
                    code.whole()
                };
                return rival_word_call(begin, &self.whole, call);
            }
        })
    }
}

/// The listing by the standard library's parsing and printing.
fn rival_listing(field: &rival::Field, text: &[u8]) -> String {
    let text = std::str::from_utf8(text).expect("plain text");
    let numbers: Vec<u32> = text.split_whitespace().map(|number| number.parse().expect("a number")).collect();
    let (first, h) = numbers.split_at(4);
    let h: Vec<Elem> = h.iter().map(|&entry| entry as Elem).collect();
    let (t, omega) = (first[2] as usize, first[3] as Elem);
    let code = rival::Code { field, t, omega, h: &h, hidden: nothing_hidden(first[1]) };
    let (mut inverses, mut roles) = (vec![0; h.len()], vec![0; h.len()]);
    code.check(&mut inverses).expect("accepted");
    let k = code.whole().roles(&mut roles);
    let mut listing = line(&[first[0], first[1], first[2], first[3], first[1] - k, k]);
    for j in 0..h.len() {
        let support = inverses[j] ^ inverses[0] ^ code.omega;
        listing += &line(&[j as u32, h[j].into(), support.into(), roles[j].into()]);
    }
    listing
}

/// Nanoseconds a call: the quickest of nine series of about ten milliseconds each.
fn time(call: &mut dyn FnMut()) -> f64 {
    let mut repeats = 1_u32;
    let series = |call: &mut dyn FnMut(), repeats: u32| {
        let start = Instant::now();
        (0..repeats).for_each(|_| call());
        start.elapsed().as_secs_f64()
    };
    while series(call, repeats) < 0.01 {
        repeats *= 2;
    }
    let quickest = (0..9).map(|_| series(call, repeats)).fold(f64::INFINITY, f64::min);
    quickest * 1e9 / f64::from(repeats)
}

fn times() {
    println!("| call | m, n, t | product, ns | rival, ns | ratio |");
    println!("|---|---|---|---|---|");
    for shape in SHAPES {
        let inputs = Inputs::new(shape);
        for call in CALLS {
            let (Some(mut product), Some(mut rival)) = (inputs.product_call(call), inputs.rival_call(call)) else {
                continue;
            };
            let each = times_in_a_call(call) as f64;
            let (product, rival) = (time(&mut product) / each, time(&mut rival) / each);
            let (m, n, t) = shape;
            println!("| {call} | {m}, {n}, {t} | {product:.0} | {rival:.0} | {:.2} |", product / rival);
        }
    }
}

/// What callgrind counts.
#[inline(never)]
#[no_mangle]
fn zov_bench_counted(call: &mut dyn FnMut()) {
    call();
}

/// Makes calls, each once, under `zov_bench_counted`, and prints a line for each: how often it did what is counted, or
/// 0 where the shape has no such call.
fn make(shape: Shape, names: &[&str]) {
    let inputs = Inputs::new(shape);
    for name in names {
        let (call, made) = match name.strip_prefix("rival ") {
            Some(call) => (call, inputs.rival_call(call)),
            None => (*name, inputs.product_call(name)),
        };
        let times = made.map_or(0, |mut made| {
            zov_bench_counted(&mut made);
            times_in_a_call(call)
        });
        println!("{times}");
    }
}

/// Has glibc clear and copy large buffers by vectors. It would take one repeated instruction, which callgrind counts
/// for each byte.
const BY_VECTORS: &str = "glibc.cpu.x86_rep_stosb_threshold=0x7fffffff:glibc.cpu.x86_rep_movsb_threshold=0x7fffffff";

/// This program once more, with these arguments, under callgrind: what it prints, and the instructions of each call of
/// a function. Callgrind counts inside the function alone, and starts anew after each call.
fn under_callgrind(symbol: &str, arguments: &[&str]) -> (String, Vec<u64>) {
    let itself = env::current_exe().expect("this program has a path");
    let path = env::temp_dir().join(format!("zovunelith-bench-{}", process::id()));
    let options = [
        "--tool=callgrind".to_string(),
        format!("--callgrind-out-file={}", path.display()),
        "--combine-dumps=yes".to_string(),
        format!("--toggle-collect={symbol}"),
        format!("--dump-after={symbol}"),
    ];
    let mut command = Command::new("valgrind");
    command.args(options).arg(itself).args(arguments).env("GLIBC_TUNABLES", BY_VECTORS);
    let output = command.output().unwrap_or_else(|_| {
        eprintln!("stopped: instruction counts need valgrind");
        exit(1);
    });
    assert!(output.status.success(), "{}", String::from_utf8_lossy(&output.stderr));
    let report = fs::read_to_string(&path).expect("what callgrind has counted");
    fs::remove_file(&path).expect("callgrind's file");
    let totals = report.lines().filter_map(|line| line.strip_prefix("totals: "));
    let mut counts: Vec<u64> = totals.map(|total| total.parse().expect("a number")).collect();
    assert_eq!(counts.pop(), Some(0), "instructions are counted after the last call");
    (String::from_utf8(output.stdout).expect("plain text"), counts)
}

/// The instructions of these calls or, of a ride, of a step, where the shape has such a call.
fn counted((m, n, t): Shape, names: &[&str]) -> Vec<Option<u64>> {
    let numbers = [m, n, t].map(|number| number.to_string());
    let mut arguments = vec!["calls"];
    arguments.extend(numbers.iter().map(String::as_str));
    arguments.extend(names);
    let (printed, counts) = under_callgrind("zov_bench_counted", &arguments);
    let mut counts = counts.into_iter();
    let mut each = |times: u64| (times > 0).then(|| counts.next().expect("each call is counted") / times);
    printed.lines().map(|times| each(times.parse().expect("a number"))).collect()
}

fn instructions() {
    println!("| call | m, n, t | product | rival | ratio |");
    println!("|---|---|---|---|---|");
    let rivals = CALLS.map(|call| format!("rival {call}"));
    let names: Vec<&str> = CALLS.into_iter().chain(rivals.iter().map(String::as_str)).collect();
    for shape in SHAPES {
        let (m, n, t) = shape;
        let counts = counted(shape, &names);
        let (products, rivals) = counts.split_at(CALLS.len());
        for (call, sides) in CALLS.iter().zip(products.iter().zip(rivals)) {
            if let (&Some(product), &Some(rival)) = sides {
                println!("| {call} | {m}, {n}, {t} | {product} | {rival} | {:.2} |", product as f64 / rival as f64);
            }
        }
    }
}

/// The product's instructions as n grows, and as t grows.
fn growth() {
    println!("| n, t | {} |", GROWING.join(" | "));
    println!("|---|{}", "---|".repeat(GROWING.len()));
    for shape in GROWTH {
        let counts = counted(shape, &GROWING).into_iter().map(|count| count.expect("every shape has the call"));
        let counts: Vec<String> = counts.map(|count| count.to_string()).collect();
        println!("| {}, {} | {} |", shape.1, shape.2, counts.join(" | "));
    }
}

fn main() {
    let arguments: Vec<String> = env::args().skip(1).collect();
    let arguments: Vec<&str> = arguments.iter().map(String::as_str).collect();
    let number = |text: &str| -> u32 { text.parse().expect("a number") };
    match arguments[..] {
        [] => times(),
        ["instructions"] => instructions(),
        ["growth"] => growth(),
        ["calls", m, n, t, ref names @ ..] => make((number(m), number(n), number(t)), names),
        ["steps"] => steps::table(),
        ["products", name, m] => steps::make(name, number(m)),
        ["halves"] => steps::element_products(),
        ["lengths", m] => steps::make_lengths(number(m)),
        _ => {
            eprintln!("usage: zovunelith-bench [instructions | growth | steps | halves]");
            exit(2);
        }
    }
}
