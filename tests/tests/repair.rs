//! Repair, against exhaustive search where a code is small, choices of places by their syndromes for small t, and the
//! locator's equations elsewhere.
//!
//! The environment variable `ZOV_REPAIR_WORDS` gives the number of random words over small fields, 100,000 without it;
//! over large ones there are a quarter as many.

use zovunelith_tests::bits::{bits, ones_at, turned, BAD_BYTES};
use zovunelith_tests::canary::Lent;
use zovunelith_tests::draw::{self, CodeFault};
use zovunelith_tests::expect::{comes_back, repair_gives, Counted};
use zovunelith_tests::random::{number_from_environment, Random};
use zovunelith_tests::reference::columns::{block_count, Setting};
use zovunelith_tests::reference::field;
use zovunelith_tests::reference::params::{code_a, code_t, Params, Shape};
use zovunelith_tests::reference::repair::{self as reference, distance, Decoder};
use zovunelith_tests::reference::words::Code;

fn decoder(random: &mut Random, m: u32, n: u32, t: u32) -> Decoder {
    Decoder::new(Code::new(&draw::params(random, m, n, t)))
}

/// Repairs a word and compares with the second implementation.
#[track_caller]
fn compare(decoder: &Decoder, received: &[u8]) -> Counted {
    let expected = decoder.repair(received).ok_or(10);
    repair_gives(&decoder.code.params, received, Lent::marked(received.len()), &expected);
    expected
}

#[test]
fn cases() {
    let gives = |params: &Params, received: &[u8], expected: Counted| {
        assert_eq!(reference::repair(params, received, received.len()), expected);
        repair_gives(params, received, Lent::marked(received.len()), &expected);
    };
    gives(&code_a(), &[1, 0, 1, 0], Ok((vec![1, 0, 1, 1], 1)));
    gives(&code_a(), &[1, 1, 0, 0], Err(10));
    let first_dark = ones_at(16, &[1, 2, 5, 6, 7, 8]);
    gives(&code_t(), &turned(&first_dark, &[0, 8]), Ok((first_dark, 2)));
    gives(&code_t(), &ones_at(16, &[1, 2, 5]), Err(10));
}

/// Code T: every word of 16 bits.
#[test]
fn all_words_of_the_toy_example() {
    let decoder = Decoder::new(Code::new(&code_t()));
    let mut repaired = 0;
    for number in 0..1 << 16 {
        repaired += usize::from(compare(&decoder, &bits(number, 16)).is_ok());
    }
    // Each of the 64 code words has 1 + 16 + 120 words within two places, no word being near two of them.
    assert_eq!(repaired, 64 * 137);
}

/// Every word of n bits, for codes of every shape where n is at most 8.
#[test]
fn all_words_of_small_codes() {
    let mut random = Random::new(501);
    for (m, n, t) in draw::shapes().into_iter().filter(|shape| shape.1 <= 8) {
        for _ in 0..8 {
            let decoder = decoder(&mut random, m, n, t);
            for number in 0..1 << n {
                compare(&decoder, &bits(number, n as usize)).ok();
            }
        }
    }
}

/// Every choice of at most t places, where there are few of them.
#[test]
fn all_errors_of_at_most_t_places() {
    let mut random = Random::new(502);
    for (m, n, t) in draw::fewer_shapes() {
        let code = Code::new(&draw::params(&mut random, m, n, t));
        let Some(choices) = choices(code.length(), t as usize, 3000) else {
            continue;
        };
        let sent = code.encode(&random.bits(code.k()));
        for places in choices {
            comes_back(&code.params, &sent, &places);
        }
    }
}

/// All choices of at most `most` places below n, if they are no more than `limit`.
fn choices(n: usize, most: usize, limit: usize) -> Option<Vec<Vec<usize>>> {
    let mut all = vec![vec![]];
    let mut start = 0;
    for _ in 0..most {
        let end = all.len();
        for index in start..end {
            let next = all[index].last().map_or(0, |place| place + 1);
            for place in next..n {
                let longer = [all[index].as_slice(), &[place]].concat();
                all.push(longer);
                if all.len() > limit {
                    return None;
                }
            }
        }
        start = end;
    }
    Some(all)
}

/// Codes of these shapes over small fields, and code words with every number of turned bits from 0 to n, until `share`
/// in eight of the random words are done; then a quarter as many over large fields.
fn random_words(random: &mut Random, shapes: impl Iterator<Item = Shape>, share: u64) {
    let wanted = number_from_environment("ZOV_REPAIR_WORDS").unwrap_or(100_000) * share / 8;
    let (small, large) = shapes.partition(draw::is_small);
    words_of_shapes(random, small, wanted);
    words_of_shapes(random, large, wanted / 4);
}

/// So many words. Each shape gets about as many as any other: the shorter a code, the more codes are drawn.
fn words_of_shapes(random: &mut Random, shapes: Vec<Shape>, wanted: u64) {
    let longest = shapes.iter().map(|shape| shape.1).max().expect("a shape");
    let (mut words, mut repaired, mut too_far) = (0, 0, 0);
    while words < wanted {
        for &(m, n, t) in &shapes {
            for _ in 0..longest / n {
                let decoder = decoder(random, m, n, t);
                for weight in 0..=decoder.code.length() {
                    let sent = decoder.code.encode(&random.bits(decoder.code.k()));
                    let received = turned(&sent, &random.places(decoder.code.length(), weight));
                    let answer = compare(&decoder, &received);
                    if weight <= t as usize {
                        assert_eq!(answer, Ok((sent, weight as u32)), "{:?}", decoder.code.params);
                    }
                    words += 1;
                    repaired += u64::from(answer.is_ok());
                    too_far += u64::from(answer.is_err());
                }
            }
        }
    }
    // Both ways in which a repair ends were among them, and often.
    assert!(repaired >= wanted / 10 && too_far >= wanted / 10, "{repaired} repaired, {too_far} too far");
}

#[test]
fn random_words_of_short_codes() {
    random_words(&mut Random::new(503), draw::shapes().into_iter().filter(|shape| shape.1 <= 32), 7);
}

/// The fewer words, because each takes its time.
#[test]
fn random_words_of_long_codes() {
    let long = draw::fewer_shapes().into_iter().filter(|shape| (64..=128).contains(&shape.1));
    random_words(&mut Random::new(511), long, 1);
}

/// The numbers of turned places up to t + 2: all of them, or for many rows some.
fn weights(t: usize) -> Vec<usize> {
    if t <= 32 {
        (0..=t + 2).collect()
    } else {
        vec![0, 1, t / 2, t - 1, t, t + 1, t + 2]
    }
}

/// The longest codes there are, whole and over selections, with 0 to t + 2 turned places.
#[test]
fn words_of_the_longest_codes() {
    let mut random = Random::new(513);
    for (m, n, t) in draw::fewer_shapes().into_iter().filter(|shape| shape.1 > 128) {
        let params = draw::params(&mut random, m, n, t);
        let count = 2 + random.below(block_count(&params) - 1);
        let selection = draw::selection(&mut random, &params, count);
        words_up_to_the_limit(&mut random, &params, Decoder::new(Code::new(&params)));
        words_up_to_the_limit(&mut random, &selection, Decoder::new(selection.code()));
    }
}

/// Words of a setting with 0 to t + 2 turned places.
#[track_caller]
fn words_up_to_the_limit(random: &mut Random, setting: &impl Setting, decoder: Decoder) {
    let (length, t) = (decoder.code.length(), decoder.code.params.t as usize);
    for weight in weights(t) {
        let sent = decoder.code.encode(&random.bits(decoder.code.k()));
        let received = turned(&sent, &random.places(length, weight.min(length)));
        let expected = decoder.repair(&received).ok_or(10);
        if weight <= t {
            assert_eq!(expected, Ok((sent, weight as u32)), "{setting:?}");
        }
        repair_gives(setting, &received, Lent::marked(length), &expected);
    }
}

/// Words that differ from a code word in t places, and in one more.
#[test]
fn words_at_and_beyond_the_limit() {
    let mut random = Random::new(504);
    for shape @ (m, n, t) in draw::shapes() {
        let decoder = decoder(&mut random, m, n, t);
        for _ in 0..if draw::is_small(&shape) { 40 } else { draw::rounds(shape, 8) } {
            let sent = decoder.code.encode(&random.bits(decoder.code.k()));
            comes_back(&decoder.code.params, &sent, &random.places(decoder.code.length(), t as usize));
            let received = turned(&sent, &random.places(decoder.code.length(), t as usize + 1));
            if let Ok((word, count)) = compare(&decoder, &received) {
                assert_ne!(word, sent);
                assert_eq!(count as usize, distance(&word, &received));
            }
        }
    }
}

/// The sums of a word in error may be zero for some roots of the Goppa polynomial and not for others; the word is
/// repaired all the same.
#[test]
fn syndromes_with_zeros_in_them() {
    let mut random = Random::new(505);
    let mut met = 0;
    for (m, n, t) in draw::fewer_shapes().into_iter().filter(|shape| shape.2 >= 2) {
        let code = Code::new(&draw::params(&mut random, m, n, t));
        for _ in 0..500 {
            let weight = 1 + random.below(t as usize);
            let places = random.places(code.length(), weight);
            let syndrome = code.syndrome(&ones_at(code.length(), &places));
            if syndrome.contains(&0) {
                comes_back(&code.params, &code.encode(&random.bits(code.k())), &places);
                met += 1;
            }
        }
    }
    assert!(met > 1000, "only {met} such words were met");
}

/// The place whose element of the support is zero is repaired like any other.
#[test]
fn the_zero_of_the_support() {
    let mut random = Random::new(506);
    for shape @ (m, n, t) in draw::fewer_shapes() {
        let code = Code::new(&draw::params(&mut random, m, n, t));
        let reciprocal = |j: usize| field::reciprocal(m, code.params.h[j]);
        for j in random.places(code.length(), draw::rounds(shape, 8).min(code.length())) {
            let moved = Code::new(&Params { omega: (reciprocal(j) ^ reciprocal(0)).into(), ..code.params.clone() });
            let sent = moved.encode(&random.bits(moved.k()));
            comes_back(&moved.params, &sent, &[j]);
            let mut places = random.places(code.length(), t as usize);
            if !places.contains(&j) {
                places[0] = j;
            }
            comes_back(&moved.params, &sent, &places);
        }
    }
}

/// What repair gives does not depend on the offset.
#[test]
fn every_offset() {
    let mut random = Random::new(507);
    for (m, n, t) in [
        (2, 2, 1),
        (3, 4, 1),
        (4, 8, 2),
        (5, 16, 2),
        (6, 32, 4),
        (7, 16, 2),
        (8, 64, 4),
        (9, 128, 8),
        (12, 32, 2),
        (16, 512, 4),
    ] {
        let decoder = decoder(&mut random, m, n, t);
        let sent = decoder.code.encode(&random.bits(decoder.code.k()));
        for weight in [t as usize, t as usize + 1, decoder.code.length() / 2] {
            let received = turned(&sent, &random.places(decoder.code.length(), weight));
            let expected = decoder.repair(&received).ok_or(10);
            for omega in draw::offsets(&mut random, m) {
                let params = Params { omega, ..decoder.code.params.clone() };
                repair_gives(&params, &received, Lent::marked(decoder.code.length()), &expected);
            }
        }
    }
}

/// A buffer's earlier contents have no part in the answer: bits or not, the word received, a code word, the zero word.
#[test]
fn buffers_with_other_contents() {
    let mut random = Random::new(508);
    for shape @ (m, n, t) in draw::fewer_shapes() {
        let decoder = decoder(&mut random, m, n, t);
        let length = decoder.code.length();
        for weight in [0, 1, t as usize, t as usize + 1, length] {
            let sent = decoder.code.encode(&random.bits(decoder.code.k()));
            let received = turned(&sent, &random.places(length, weight));
            let expected = decoder.repair(&received).ok_or(10);
            let contents = [random.bits(length), received.clone(), sent, vec![0; length], vec![255; length]];
            for contents in draw::all_or_some(&mut random, shape, &contents) {
                repair_gives(&decoder.code.params, &received, Lent::holding(&contents), &expected);
            }
        }
    }
}

/// A byte other than 0 or 1 at any place is 8, whether the bits beside it are near a code word or not.
#[test]
fn bytes_that_are_no_bits() {
    let mut random = Random::new(509);
    for shape @ (m, n, t) in draw::fewer_shapes() {
        let code = Code::new(&draw::params(&mut random, m, n, t));
        for place in draw::places_to_try(&mut random, shape, code.length()) {
            for mut received in [code.encode(&random.bits(code.k())), random.bits(code.length())] {
                received[place] = random.pick(&BAD_BYTES);
                repair_gives(&code.params, &received, Lent::marked(code.length()), &Err(8));
            }
        }
    }
    for byte in 2..=u8::MAX {
        repair_gives(&code_a(), &[1, byte, 0, 0], Lent::marked(4), &Err(8));
    }
}

/// The faults of codes, lengths, bytes and words that are too far, together: 1 to 7, then 2 for the words, then 8, then
/// 10.
#[test]
fn faults_together() {
    let mut random = Random::new(510);
    for shape @ (m, n, t) in draw::fewer_shapes() {
        let mut sets = vec![Vec::new()];
        sets.extend(draw::singles_and_pairs(m, n));
        for faults in sets {
            for choice in draw::all_or_some(&mut random, shape, &draw::CHOICES) {
                let [received_length, repaired_length, byte] = [0, 1, 2].map(|place| choice >> place & 1 == 1);
                let params = draw::damaged_code(&mut random, m, n, t, &faults);
                let right = n as usize;
                let wrong = draw::other_length(&mut random, right);
                let mut received = random.bits(if received_length { wrong } else { right });
                if byte && !received.is_empty() {
                    let place = random.below(received.len());
                    received[place] = random.pick(&BAD_BYTES);
                }
                let lent = if repaired_length { wrong } else { right };
                let length = received_length || repaired_length;
                let of_code = faults.iter().map(|fault: &CodeFault| fault.number()).min();
                let expected = reference::repair(&params, &received, lent);
                if let Some(number) = of_code.or(length.then_some(2)).or(byte.then_some(8)) {
                    assert_eq!(expected, Err(number), "{faults:?}, {choice:03b}: {params:?}");
                }
                repair_gives(&params, &received, Lent::marked(lent), &expected);
            }
        }
    }
}
