//! Two offsets of one code. They make two codes, with two supports; but every call on words answers alike under both and
//! leaves the same, whatever it is told and lent. Here the library is held against itself, under one offset and under
//! another.

use std::collections::BTreeSet;
use zovunelith_tests::bits::{turned, BAD_BYTES};
use zovunelith_tests::calls::{Input, CALLS};
use zovunelith_tests::draw;
use zovunelith_tests::library::{params, sheet};
use zovunelith_tests::random::Random;
use zovunelith_tests::reference::columns::{block_count, Selection, Setting};
use zovunelith_tests::reference::field;
use zovunelith_tests::reference::params::{Params, Shape};
use zovunelith_tests::reference::repair::Decoder;
use zovunelith_tests::reference::rows::Row;
use zovunelith_tests::reference::sheet as sheets;
use zovunelith_tests::reference::words::Code;
use zovunelith_tests::Elem;

/// A code of each shape, or over small fields so many, and the same with another offset.
fn pairs(random: &mut Random, shapes: Vec<Shape>, often: usize) -> Vec<(Params, Params)> {
    let mut pairs = Vec::new();
    for shape @ (m, n, t) in shapes {
        for _ in 0..draw::rounds(shape, often) {
            let one = draw::params(random, m, n, t);
            let apart = u32::from(draw::nonzero(random, m));
            pairs.push((one.clone(), Params { omega: one.omega ^ apart, ..one }));
        }
    }
    pairs
}

/// Input with t places turned, or any number, rows that are allowed or not, and in one of two draws a fault: a length
/// that is one off, or a byte that is no bit.
fn any_input(random: &mut Random, decoder: &Decoder) -> Input {
    let mut input = Input::new(random, decoder);
    let (length, k) = (input.word.len(), input.message.len());
    let weights = [0, 0, 1, random.below(length + 1)];
    let weight = random.pick(&weights);
    input.word = turned(&input.word, &random.places(length, weight));
    if random.below(2) == 0 {
        input.row = Row { gear: random.below(9) as u32, lamp: random.below(4) as u32 };
    }
    match random.below(12) {
        0 => {
            input.word.push(0);
            input.roles_length += 1;
        }
        1 => input.repaired_length -= 1,
        2 => input.message.push(0),
        3 => input.syndrome_length += 1,
        4 => input.word[random.below(length)] = random.pick(&BAD_BYTES),
        5 if k > 0 => input.message[random.below(k)] = random.pick(&BAD_BYTES),
        _ => {}
    }
    input
}

/// Which numbers refused each call, 0 being none.
type Seen = [BTreeSet<u32>; 7];

/// Makes every call under both offsets, and compares answers and buffers.
#[track_caller]
fn alike(one: &impl Setting, other: &impl Setting, input: &Input, seen: &mut Seen) {
    for (call, numbers) in CALLS.into_iter().zip(seen) {
        let (ended, moved) = (input.made(call, one), input.made(call, other));
        assert_eq!(ended, moved, "{call:?} of {one:?} and offset {}, {input:?}", other.params().omega);
        numbers.insert(ended.answer.err().unwrap_or(0));
    }
}

/// Fails unless each call ended in every way that it can with a faultless setting: not refused, refused by 2, and by
/// each of its own numbers.
#[track_caller]
fn assert_all_seen(seen: &Seen) {
    let own: [&[u32]; 7] = [&[], &[8], &[8], &[8], &[8, 10], &[11, 12], &[8, 10, 11, 12]];
    for ((call, numbers), own) in CALLS.into_iter().zip(seen).zip(own) {
        let expected: BTreeSet<u32> = [&[0, 2], own].concat().into_iter().collect();
        assert_eq!(*numbers, expected, "{call:?}");
    }
}

/// For whole codes.
#[test]
fn calls_on_whole_codes() {
    let mut random = Random::new(1001);
    let mut seen = Seen::default();
    for (one, other) in pairs(&mut random, draw::fewer_shapes(), 4) {
        let decoder = Decoder::new(Code::new(&one));
        for _ in 0..draw::rounds(one.shape(), 12) {
            alike(&one, &other, &any_input(&mut random, &decoder), &mut seen);
        }
    }
    assert_all_seen(&seen);
}

/// For selections, of some blocks and of all.
#[test]
fn calls_on_selections() {
    let mut random = Random::new(1002);
    let mut seen = Seen::default();
    for (one, other) in pairs(&mut random, draw::fewer_shapes(), 4) {
        for count in [1 + random.below(block_count(&one)), block_count(&one)] {
            let selection = draw::selection(&mut random, &one, count);
            let moved = Selection { params: other.clone(), ..selection.clone() };
            let decoder = Decoder::new(selection.code());
            for _ in 0..draw::rounds(one.shape(), 8) {
                alike(&selection, &moved, &any_input(&mut random, &decoder), &mut seen);
            }
        }
    }
    assert_all_seen(&seen);
}

/// For lists that are no selection.
#[test]
fn calls_on_lists_that_are_no_selection() {
    let mut random = Random::new(1003);
    let mut seen = Seen::default();
    for (one, other) in pairs(&mut random, draw::fewer_shapes(), 1) {
        let right = draw::selection(&mut random, &one, block_count(&one));
        let input = Input::new(&mut random, &Decoder::new(right.code()));
        let last = right.blocks.len() - 1;
        let (mut beyond, mut twice, mut shift, mut shorter) =
            (right.clone(), right.clone(), right.clone(), right.clone());
        beyond.blocks[last] = block_count(&one) as u32;
        twice.blocks[last] = twice.blocks[0];
        shift.shifts[0] = one.t;
        shorter.shifts.pop();
        for damaged in [beyond, twice, shift, shorter] {
            let moved = Selection { params: other.clone(), ..damaged.clone() };
            alike(&damaged, &moved, &input, &mut seen);
        }
    }
    let expected = BTreeSet::from([2, 14, 15]);
    assert!(seen.iter().all(|numbers| *numbers == expected), "{seen:?}");
}

/// The roots and the support of an accepted code.
fn checked(code: &Params) -> (Vec<Elem>, Vec<Elem>) {
    let (mut roots, mut support) = (vec![0; code.n as usize], vec![0; code.n as usize]);
    let answer = params::check(code, &mut roots, &mut support);
    assert_eq!(answer, Ok(()), "{code:?}");
    (roots, support)
}

/// Two offsets make two codes: each root and each element of the support differs by the sum of both offsets, and the
/// Cauchy matrix of both is the dyadic matrix of the signature.
#[test]
fn codes_that_differ_in_the_offset_alone() {
    let mut random = Random::new(1004);
    for (one, other) in pairs(&mut random, draw::shapes(), 1) {
        assert_eq!(params::same(&one, &other), Ok(false), "{one:?}");
        let apart = (one.omega ^ other.omega) as Elem;
        let ((z, l), (moved_z, moved_l)) = (checked(&one), checked(&other));
        for i in 0..z.len() {
            assert_eq!((z[i] ^ moved_z[i], l[i] ^ moved_l[i]), (apart, apart), "{one:?} and {other:?}");
            for j in 0..l.len() {
                for sum in [z[i] ^ l[j], moved_z[i] ^ moved_l[j]] {
                    assert_eq!(field::times(one.m, sum, one.h[i ^ j]), 1, "{one:?} and {other:?}");
                }
            }
        }
    }
}

/// Their listings differ in the offset and in the support alone.
#[test]
fn listings() {
    let mut random = Random::new(1005);
    for (one, other) in pairs(&mut random, draw::fewer_shapes(), 1) {
        let apart = one.omega ^ other.omega;
        let (first, second) = (listed(&one), listed(&other));
        assert_eq!(first.len(), second.len());
        for (line, (mut numbers, moved)) in first.into_iter().zip(second).enumerate() {
            // The offset stands fourth in the first line, the support third in the others.
            numbers[if line == 0 { 3 } else { 2 }] ^= apart;
            assert_eq!(numbers, moved, "line {line} of {one:?} and {other:?}");
        }
    }
}

/// The numbers of each line of a code's listing.
fn listed(code: &Params) -> Vec<Vec<u32>> {
    let mut out = vec![0; sheet::LONGEST];
    let length = sheet::listing(&sheets::sheet(code), &mut out).expect("accepted");
    let text = std::str::from_utf8(&out[..length]).expect("digits and blanks");
    text.lines().map(|line| line.split_whitespace().map(|number| number.parse().expect("a number")).collect()).collect()
}
