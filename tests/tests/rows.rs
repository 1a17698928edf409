//! Writing and reading gear rows, against the list of allowed rows.

use zovunelith_tests::bits::{ones_at, turned, BAD_BYTES};
use zovunelith_tests::canary::Lent;
use zovunelith_tests::draw;
use zovunelith_tests::expect::{reading_gives, writing_gives};
use zovunelith_tests::library::rows as library;
use zovunelith_tests::random::Random;
use zovunelith_tests::reference::params::{code_a, code_t, Params};
use zovunelith_tests::reference::repair::Decoder;
use zovunelith_tests::reference::rows::{self as reference, Read, Row};
use zovunelith_tests::reference::words::Code;

/// Gears and lamps of every kind, among them ones that a cut to fewer bits would bring back in.
const GEARS: [u32; 16] = [0, 1, 2, 3, 4, 5, 6, 7, 8, 9, 256, 256 + 1, 256 + 7, 65536, 65536 + 3, u32::MAX];
const LAMPS: [u32; 11] = [0, 1, 2, 3, 4, 8, 256, 256 + 2, 65536 + 1, 1 << 31, u32::MAX];

/// Whether a gear and a lamp are a row.
fn allowed(gear: u32, lamp: u32) -> bool {
    gear <= 7 && (lamp == 0 || lamp == 2 || lamp == 1 && (gear == 0 || gear == 7))
}

/// A code of this shape.
fn decoder(random: &mut Random, m: u32, n: u32, t: u32) -> Decoder {
    Decoder::new(Code::new(&draw::params(random, m, n, t)))
}

/// Reads a row and compares with the second implementation.
#[track_caller]
fn compare(decoder: &Decoder, received: &[u8]) -> Result<Read, u32> {
    let expected = reference::read_word(decoder, received);
    reading_gives(&decoder.code.params, received, Lent::marked(received.len()), &expected);
    expected
}

#[test]
fn cases() {
    let params = code_t();
    let first_dark = ones_at(16, &[1, 2, 5, 6, 7, 8]);
    writing_gives(&params, 1, 0, 16, &Ok(first_dark.clone()));
    let read = (Row { gear: 1, lamp: 0 }, first_dark.clone(), 2);
    reading_gives(&params, &turned(&first_dark, &[0, 8]), Lent::marked(16), &Ok(read));
    reading_gives(&params, &ones_at(16, &[1, 2, 5]), Lent::marked(16), &Err(10));
    // One message column is too narrow for a row.
    writing_gives(&code_a(), 0, 1, 4, &Err(12));
    reading_gives(&code_a(), &[1, 0, 1, 1], Lent::marked(4), &Err(12));
}

/// Every row and many that are none, on code T and on codes of fewer shapes.
#[test]
fn rows_and_others_written() {
    let mut random = Random::new(601);
    let shapes = draw::fewer_shapes().into_iter();
    let codes: Vec<Params> = shapes.map(|(m, n, t)| draw::params(&mut random, m, n, t)).collect();
    let mut written = 0;
    for params in codes.into_iter().chain([code_t()]) {
        let code = Code::new(&params);
        for gear in GEARS {
            for lamp in draw::all_or_some(&mut random, params.shape(), &LAMPS) {
                let expected = if code.k() < 5 {
                    Err(12)
                } else if allowed(gear, lamp) {
                    written += 1;
                    Ok(code.encode(&reference::message(Row { gear, lamp }, code.k())))
                } else {
                    Err(11)
                };
                writing_gives(&params, gear, lamp, code.length(), &expected);
            }
        }
    }
    assert!(written >= 18 * 10, "only {written} rows were written");
}

/// Code T: each of the 24 pairs of a gear and a lamp, written, and read with every choice of at most two turned places.
/// A pair that is no row is 11 both ways.
#[test]
fn pairs_with_every_error_on_the_toy_example() {
    let code = Code::new(&code_t());
    for row in (0..8).flat_map(|gear| (0..3).map(move |lamp| Row { gear, lamp })) {
        let word = code.encode(&reference::message(row, 6));
        let given = allowed(row.gear, row.lamp).then_some(()).ok_or(11);
        writing_gives(&code_t(), row.gear, row.lamp, 16, &given.map(|()| word.clone()));
        let singles = (0..16).map(|one| vec![one]);
        let doubles = (0..16).flat_map(|one| (0..one).map(move |other| vec![other, one]));
        for places in [vec![]].into_iter().chain(singles).chain(doubles) {
            let expected = given.map(|()| (row, word.clone(), places.len() as u32));
            reading_gives(&code_t(), &turned(&word, &places), Lent::marked(16), &expected);
        }
    }
}

/// Code T: every message, row or not, with every number of turned places. A message that is no row is 11.
#[test]
fn all_messages_of_the_toy_example() {
    let mut random = Random::new(602);
    let decoder = Decoder::new(Code::new(&code_t()));
    for number in 0..64_u8 {
        let message: Vec<u8> = (0..6).map(|place| number >> place & 1).collect();
        let allowed = allowed(u32::from(number & 7), u32::from(number >> 3 & 3)) && number >> 5 == 0;
        let word = decoder.code.encode(&message);
        for weight in 0..=16 {
            for _ in 0..4 {
                let answer = compare(&decoder, &turned(&word, &random.places(16, weight)));
                if weight <= 2 {
                    assert_eq!(answer.is_ok(), allowed, "message {message:?}");
                    assert!(allowed || answer == Err(11), "message {message:?}");
                }
            }
        }
    }
}

/// Every shape with room for rows: a row, written, and read with t turned bits.
#[test]
fn rows_of_every_shape() {
    let mut random = Random::new(609);
    let mut shapes = 0;
    for (m, n, t) in draw::shapes() {
        let decoder = decoder(&mut random, m, n, t);
        if decoder.code.k() >= 5 {
            shapes += 1;
            let row = random.pick(&reference::rows());
            row_goes_round(&mut random, &decoder, row, &[t as usize]);
        }
    }
    assert!(shapes >= 150, "only {shapes} shapes were wide enough");
}

/// Codes with room for rows: rows with every number of turned bits from 0 to n, or over large fields some with some.
#[test]
fn rows_of_fewer_shapes() {
    let mut random = Random::new(603);
    let mut shapes = 0;
    for shape @ (m, n, t) in draw::fewer_shapes() {
        let decoder = decoder(&mut random, m, n, t);
        if decoder.code.k() < 5 {
            continue;
        }
        shapes += 1;
        for row in draw::all_or_some(&mut random, shape, &reference::rows()) {
            let weights: Vec<usize> = (0..=t as usize).collect();
            let weights = draw::all_or_some(&mut random, shape, &weights);
            row_goes_round(&mut random, &decoder, row, &weights);
        }
        for weight in draw::every_place(&mut random, shape, decoder.code.length() + 1) {
            let row = random.pick(&reference::rows());
            let word = decoder.code.encode(&reference::message(row, decoder.code.k()));
            compare(&decoder, &turned(&word, &random.places(decoder.code.length(), weight))).ok();
        }
    }
    assert!(shapes >= 35, "only {shapes} shapes were wide enough");
}

/// Writes a row, and reads it with these numbers of turned bits, none above t.
#[track_caller]
fn row_goes_round(random: &mut Random, decoder: &Decoder, row: Row, weights: &[usize]) {
    let code = &decoder.code;
    let word = code.encode(&reference::message(row, code.k()));
    writing_gives(&code.params, row.gear, row.lamp, code.length(), &Ok(word.clone()));
    for &weight in weights {
        let received = turned(&word, &random.places(code.length(), weight));
        assert_eq!(compare(decoder, &received), Ok((row, word.clone(), weight as u32)));
    }
}

/// Messages that are no rows: lamp 3, green away from both neutrals, a further bit at each place.
#[test]
fn messages_that_are_no_rows() {
    let mut random = Random::new(604);
    for shape @ (m, n, t) in draw::fewer_shapes() {
        let decoder = decoder(&mut random, m, n, t);
        let k = decoder.code.k();
        if k < 5 {
            continue;
        }
        let mut messages = Vec::new();
        for gear in 0..8 {
            for lamp in 0..4 {
                let row = Row { gear, lamp };
                if !reference::rows().contains(&row) {
                    messages.push(reference::message(row, k));
                }
            }
        }
        for place in 5..k {
            let mut message = reference::message(random.pick(&reference::rows()), k);
            message[place] = 1;
            messages.push(message);
        }
        assert_eq!(messages.len(), 14 + k - 5);
        for message in draw::all_or_some(&mut random, shape, &messages) {
            let weight = random.below(t as usize + 1);
            let received = turned(&decoder.code.encode(&message), &random.places(decoder.code.length(), weight));
            assert_eq!(compare(&decoder, &received), Err(11), "message {message:?}");
            for contents in [random.bits(decoder.code.length()), vec![0; decoder.code.length()], received.clone()] {
                reading_gives(&decoder.code.params, &received, Lent::holding(&contents), &Err(11));
            }
        }
    }
}

/// A code with fewer than five message columns is 12: before 8, 10 and 11.
#[test]
fn narrow_codes() {
    let mut random = Random::new(605);
    let mut narrow = 0;
    for (m, n, t) in draw::shapes() {
        let code = Code::new(&draw::params(&mut random, m, n, t));
        if code.k() >= 5 {
            continue;
        }
        narrow += 1;
        for (gear, lamp) in [(0, 1), (1, 0), (7, 0), (3, 1), (u32::MAX, u32::MAX)] {
            writing_gives(&code.params, gear, lamp, code.length(), &Err(12));
        }
        let word = code.encode(&random.bits(code.k()));
        let mut no_bits = word.clone();
        no_bits[random.below(code.length())] = random.pick(&BAD_BYTES);
        for received in [word, no_bits, random.bits(code.length())] {
            reading_gives(&code.params, &received, Lent::marked(code.length()), &Err(12));
        }
    }
    assert!(narrow >= 40, "only {narrow} shapes were narrow");
}

/// What is written and read does not depend on the offset.
#[test]
fn every_offset() {
    let mut random = Random::new(606);
    for (m, n, t) in
        [(5, 16, 1), (5, 16, 2), (6, 32, 2), (7, 32, 2), (8, 32, 2), (9, 64, 4), (13, 256, 8), (16, 512, 1)]
    {
        let decoder = decoder(&mut random, m, n, t);
        for row in [Row { gear: 0, lamp: 1 }, Row { gear: 5, lamp: 2 }] {
            let word = decoder.code.encode(&reference::message(row, decoder.code.k()));
            for omega in draw::offsets(&mut random, m) {
                let params = Params { omega, ..decoder.code.params.clone() };
                let places = random.places(decoder.code.length(), t as usize);
                writing_gives(&params, row.gear, row.lamp, decoder.code.length(), &Ok(word.clone()));
                let expected = Ok((row, word.clone(), t));
                reading_gives(&params, &turned(&word, &places), Lent::marked(decoder.code.length()), &expected);
            }
        }
    }
}

/// A buffer's earlier contents have no part in the answer.
#[test]
fn buffers_with_other_contents() {
    let mut random = Random::new(607);
    let decoder = Decoder::new(Code::new(&code_t()));
    for row in reference::rows() {
        let word = decoder.code.encode(&reference::message(row, 6));
        for weight in [0, 1, 2, 3, 8, 16] {
            let received = turned(&word, &random.places(16, weight));
            let expected = reference::read_word(&decoder, &received);
            for contents in [&random.bits(16), &received, &word, &vec![0; 16], &vec![255; 16]] {
                reading_gives(&code_t(), &received, Lent::holding(contents), &expected);
                let mut lent = Lent::holding(contents);
                let answer = library::write(&code_t(), row.gear, row.lamp, lent.slice_mut());
                assert_eq!(answer, Ok(()));
                lent.assert_holds(Some(&word));
            }
        }
    }
}

/// The faults of codes and lengths, narrow codes, bytes that are no bits and rows that are none, together: 1 to 7, then
/// 2 for the words, then 12, then 8, then 10, then 11.
#[test]
fn faults_together() {
    let mut random = Random::new(608);
    for shape @ (m, n, t) in draw::fewer_shapes() {
        let mut sets = vec![Vec::new()];
        sets.extend(draw::singles_and_pairs(m, n));
        for faults in sets {
            for choice in draw::all_or_some(&mut random, shape, &draw::CHOICES) {
                let [length, other_length, last] = [0, 1, 2].map(|place| choice >> place & 1 == 1);
                let params = draw::damaged_code(&mut random, m, n, t, &faults);
                let narrow = faults.is_empty() && Code::new(&params).k() < 5;
                let right = n as usize;
                let wrong = draw::other_length(&mut random, right);
                let of_code = |length: bool| {
                    let numbers = faults.iter().map(|fault| fault.number());
                    numbers.min().or(length.then_some(2)).or(narrow.then_some(12))
                };

                // Writing: the last fault is a row that is none.
                let (gear, lamp) = if last { (random.pick(&[6, 8, 256 + 7]), 1) } else { (0, 1) };
                let lent = if length { wrong } else { right };
                let expected = reference::write(&params, gear, lamp, lent);
                let number = of_code(length).or(last.then_some(11));
                assert_eq!(expected.as_ref().err().copied(), number, "{faults:?}, {choice:03b}: {params:?}");
                writing_gives(&params, gear, lamp, lent, &expected);

                // Reading: the last fault is a byte that is no bit.
                let mut received = random.bits(lent);
                if last && !received.is_empty() {
                    let place = random.below(received.len());
                    received[place] = random.pick(&BAD_BYTES);
                }
                let lent = if other_length { wrong } else { right };
                let expected = reference::read(&params, &received, lent);
                if let Some(number) = of_code(length || other_length).or(last.then_some(8)) {
                    assert_eq!(expected, Err(number), "{faults:?}, {choice:03b}: {params:?}");
                }
                reading_gives(&params, &received, Lent::marked(lent), &expected);
            }
        }
    }
}
