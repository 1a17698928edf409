//! Roles, syndromes, encoding and taking the message out, against row reduction of the parity matrix.

use zovunelith_tests::bits::{bits, ones_at, BAD_BYTES};
use zovunelith_tests::canary::Lent;
use zovunelith_tests::draw::{self, CodeFault};
use zovunelith_tests::expect::{encoding_gives, message_gives, roles_give, syndrome_gives};
use zovunelith_tests::library::words as library;
use zovunelith_tests::random::Random;
use zovunelith_tests::reference::params::{code_a, code_t, Params};
use zovunelith_tests::reference::words::{self as reference, Code};
use zovunelith_tests::Elem;

/// All of it for one message: the word that carries it, that word's syndrome, and the message again.
#[track_caller]
fn message_goes_round(code: &Code, message: &[u8]) {
    let word = code.encode(message);
    encoding_gives(&code.params, message, code.length(), &Ok(word.clone()));
    syndrome_gives(&code.params, &word, code.params.t as usize, &Ok(vec![0; code.params.t as usize]));
    message_gives(&code.params, &word, code.k(), &Ok(message.to_vec()));
}

#[test]
fn cases() {
    roles_give(&code_a(), 4, &Ok((vec![0, 0, 0, 1], 1)));
    encoding_gives(&code_a(), &[1], 4, &Ok(vec![1, 0, 1, 1]));
    message_gives(&code_a(), &[1, 0, 1, 1], 1, &Ok(vec![1]));
    roles_give(&code_t(), 16, &Ok((ones_at(16, &[8, 9, 12, 13, 14, 15]), 6)));
    // Gear 1, dark.
    encoding_gives(&code_t(), &[1, 0, 0, 0, 0, 0], 16, &Ok(ones_at(16, &[1, 2, 5, 6, 7, 8])));
    syndrome_gives(&code_t(), &ones_at(16, &[1, 2, 5, 6, 7, 8]), 2, &Ok(vec![0, 0]));
    // k of 0 encodes the empty message.
    let params = Params::new(2, 1, 0, vec![1, 2]);
    roles_give(&params, 2, &Ok((vec![0, 0], 0)));
    encoding_gives(&params, &[], 2, &Ok(vec![0, 0]));
    message_gives(&params, &[1, 1], 0, &Ok(vec![]));
}

#[test]
fn roles_of_every_shape() {
    let mut random = Random::new(401);
    for shape @ (m, n, t) in draw::shapes() {
        for _ in 0..if n <= 32 { 20 } else { draw::rounds(shape, 4) } {
            let code = Code::new(&draw::params(&mut random, m, n, t));
            roles_give(&code.params, code.length(), &Ok((code.roles.clone(), code.k() as u32)));
        }
    }
}

#[test]
fn messages_of_every_shape() {
    let mut random = Random::new(410);
    for shape @ (m, n, t) in draw::shapes() {
        let code = Code::new(&draw::params(&mut random, m, n, t));
        for _ in 0..draw::rounds(shape, 4) {
            message_goes_round(&code, &random.bits(code.k()));
        }
    }
}

/// Every message where there are few of them; elsewhere random ones, and those with a single 1, or over large fields
/// some of these.
#[test]
fn messages_of_fewer_shapes() {
    let mut random = Random::new(402);
    for shape @ (m, n, t) in draw::fewer_shapes() {
        let code = Code::new(&draw::params(&mut random, m, n, t));
        if code.k() <= 10 {
            for message in 0..1 << code.k() {
                message_goes_round(&code, &bits(message, code.k()));
            }
        } else {
            for place in draw::every_place(&mut random, shape, code.k()) {
                message_goes_round(&code, &ones_at(code.k(), &[place]));
            }
            for _ in 0..draw::rounds(shape, 50) {
                message_goes_round(&code, &random.bits(code.k()));
            }
        }
    }
}

/// The syndrome of a word with one 1 is its column of the parity matrix, whose entry i is the signature at i ⊕ j.
#[test]
fn syndromes_of_single_places() {
    let mut random = Random::new(403);
    for shape @ (m, n, t) in draw::fewer_shapes() {
        let params = draw::params(&mut random, m, n, t);
        for j in draw::every_place(&mut random, shape, n as usize) {
            let column = (0..t as usize).map(|i| params.h[i ^ j]).collect();
            syndrome_gives(&params, &ones_at(n as usize, &[j]), t as usize, &Ok(column));
        }
    }
}

/// Words with 0 to n ones, code words or not: their syndromes, and the messages in them.
#[test]
fn words_of_fewer_shapes() {
    let mut random = Random::new(404);
    for shape @ (m, n, t) in draw::fewer_shapes() {
        let code = Code::new(&draw::params(&mut random, m, n, t));
        for ones in draw::every_place(&mut random, shape, code.length() + 1) {
            let word = ones_at(code.length(), &random.places(code.length(), ones));
            syndrome_gives(&code.params, &word, t as usize, &Ok(code.syndrome(&word)));
            message_gives(&code.params, &word, code.k(), &Ok(code.message(&word)));
        }
    }
}

/// A buffer's earlier contents have no part in what is written, bits or not.
#[test]
fn buffers_with_other_contents() {
    let mut random = Random::new(405);
    for shape @ (m, n, t) in draw::fewer_shapes() {
        let code = Code::new(&draw::params(&mut random, m, n, t));
        let (message, received) = (random.bits(code.k()), random.bits(code.length()));
        let word = code.encode(&message);
        let length = code.length();
        let contents = [random.bits(length), vec![0; length], vec![1; length], word.clone()];
        for contents in draw::all_or_some(&mut random, shape, &contents) {
            let mut lent = Lent::holding(&contents);
            assert_eq!(library::encode(&code.params, &message, lent.slice_mut()), Ok(()));
            lent.assert_holds(Some(&word));
            let mut lent = Lent::holding(&contents[..code.k()]);
            assert_eq!(library::message(&code.params, &received, lent.slice_mut()), Ok(()));
            lent.assert_holds(Some(&code.message(&received)));
            let mut lent = Lent::holding(&contents);
            assert_eq!(library::roles(&code.params, lent.slice_mut()), Ok(code.k() as u32));
            lent.assert_holds(Some(&code.roles));
            let mut lent: Lent<Elem> = Lent::holding(&vec![1; t as usize]);
            assert_eq!(library::syndrome(&code.params, &received, lent.slice_mut()), Ok(()));
            lent.assert_holds(Some(&code.syndrome(&received)));
        }
    }
}

/// What the calls give does not depend on the offset.
#[test]
fn every_offset() {
    let mut random = Random::new(406);
    for (m, n, t) in [
        (2, 2, 1),
        (3, 4, 1),
        (4, 8, 2),
        (5, 16, 2),
        (6, 32, 4),
        (7, 32, 4),
        (8, 32, 2),
        (9, 256, 2),
        (12, 64, 4),
        (16, 512, 8),
    ] {
        let code = Code::new(&draw::params(&mut random, m, n, t));
        let (message, received) = (random.bits(code.k()), random.bits(code.length()));
        for omega in draw::offsets(&mut random, m) {
            let params = Params { omega, ..code.params.clone() };
            roles_give(&params, code.length(), &Ok((code.roles.clone(), code.k() as u32)));
            encoding_gives(&params, &message, code.length(), &Ok(code.encode(&message)));
            syndrome_gives(&params, &received, t as usize, &Ok(code.syndrome(&received)));
            message_gives(&params, &received, code.k(), &Ok(code.message(&received)));
        }
    }
}

/// A message buffer of any other length than k is 2, whether the bytes are bits or not.
#[test]
fn every_length_of_a_message() {
    let mut random = Random::new(407);
    for shape @ (m, n, t) in draw::fewer_shapes() {
        let code = Code::new(&draw::params(&mut random, m, n, t));
        let step = if n <= 16 { 1 } else { code.length() / draw::rounds(shape, 8) };
        let beside = draw::other_lengths(code.k());
        for length in (0..code.length() + 3).step_by(step).chain(beside).filter(|&length| length != code.k()) {
            let mut message = random.bits(length);
            encoding_gives(&code.params, &message, code.length(), &Err(2));
            message.iter_mut().for_each(|byte| *byte += 2);
            encoding_gives(&code.params, &message, code.length(), &Err(2));
            message_gives(&code.params, &random.bits(code.length()), length, &Err(2));
            message_gives(&code.params, &vec![2; code.length()], length, &Err(2));
        }
    }
}

/// A byte other than 0 or 1 at any place is 8.
#[test]
fn bytes_that_are_no_bits() {
    let mut random = Random::new(408);
    for shape @ (m, n, t) in draw::fewer_shapes() {
        let code = Code::new(&draw::params(&mut random, m, n, t));
        for place in draw::places_to_try(&mut random, shape, code.length()) {
            let mut word = random.bits(code.length());
            word[place] = random.pick(&BAD_BYTES);
            syndrome_gives(&code.params, &word, t as usize, &Err(8));
            message_gives(&code.params, &word, code.k(), &Err(8));
        }
        for place in draw::places_to_try(&mut random, shape, code.k()) {
            let mut message = random.bits(code.k());
            message[place] = random.pick(&BAD_BYTES);
            encoding_gives(&code.params, &message, code.length(), &Err(8));
        }
    }
    let params = code_a();
    for byte in 2..=u8::MAX {
        encoding_gives(&params, &[byte], 4, &Err(8));
        message_gives(&params, &[0, byte, 0, 0], 1, &Err(8));
        syndrome_gives(&params, &[0, 1, 0, byte], 1, &Err(8));
    }
}

/// The number to be given for faults of the code, a wrong length of the roles or the syndrome, and what is looked for
/// after the code: a wrong length of the word or the message, then bytes that are no bits.
fn first_number(faults: &[CodeFault], length: bool, later_length: bool, byte: bool) -> Option<u32> {
    let params = faults.iter().map(|fault| fault.number()).chain(length.then_some(2)).min();
    params.or(later_length.then_some(2)).or(byte.then_some(8))
}

/// The faults of codes, lengths and bytes, every two of them and more together.
#[test]
fn faults_together() {
    let mut random = Random::new(409);
    for shape @ (m, n, t) in draw::fewer_shapes() {
        let mut sets = vec![Vec::new()];
        sets.extend(draw::singles_and_pairs(m, n));
        for faults in sets {
            for choice in draw::all_or_some(&mut random, shape, &draw::CHOICES) {
                let [length, other_length, byte] = [0, 1, 2].map(|place| choice >> place & 1 == 1);
                let params = draw::damaged_code(&mut random, m, n, t, &faults);
                let (right, k) = (n as usize, if faults.is_empty() { Code::new(&params).k() } else { 3 });
                let wrong = draw::other_length(&mut random, right);
                let lent = if length { wrong } else { right };
                let damage = |mut list: Vec<u8>, random: &mut Random| {
                    if byte && !list.is_empty() {
                        let place = random.below(list.len());
                        list[place] = random.pick(&BAD_BYTES);
                    }
                    list
                };
                // Judged by the order of the numbers as well as by the second implementation.
                let expect = |reference: Option<u32>, number: Option<u32>| {
                    assert_eq!(reference, number, "{faults:?}, {choice:03b}: {params:?}");
                };

                let expected = reference::roles(&params, lent);
                expect(expected.as_ref().err().copied(), first_number(&faults, length, false, false));
                roles_give(&params, lent, &expected);

                let word = damage(random.bits(lent), &mut random);
                let rows = if params.t <= 4096 { params.t as usize } else { t as usize };
                let syndrome_length = if other_length { rows + 1 } else { rows };
                let wrong_length = syndrome_length as u64 != u64::from(params.t);
                let expected = reference::syndrome(&params, &word, syndrome_length);
                expect(expected.as_ref().err().copied(), first_number(&faults, wrong_length, length, byte));
                syndrome_gives(&params, &word, syndrome_length, &expected);

                let message_length = if other_length { k + 1 } else { k };
                let later_length = length || other_length;
                let expected = reference::message(&params, &word, message_length);
                expect(expected.as_ref().err().copied(), first_number(&faults, false, later_length, byte));
                message_gives(&params, &word, message_length, &expected);

                let message = damage(random.bits(message_length), &mut random);
                let no_bit = byte && message_length > 0;
                let expected = reference::encode(&params, &message, lent);
                expect(expected.as_ref().err().copied(), first_number(&faults, false, later_length, no_bit));
                encoding_gives(&params, &message, lent, &expected);
            }
        }
    }
}
