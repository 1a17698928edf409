//! Sum, product and inverse of dyadic blocks, against their matrices.

use zovunelith_tests::canary::Lent;
use zovunelith_tests::draw::{
    block, dead_block, every_list, live_block, strange_entries, BAD_BLOCK_LENGTHS, BAD_WIDTHS,
};
use zovunelith_tests::library::block as library;
use zovunelith_tests::random::Random;
use zovunelith_tests::reference::{block as reference, field};
use zovunelith_tests::Elem;

#[derive(Clone, Copy, Debug)]
enum Call {
    Sum,
    Product,
    Inverse,
}

/// Makes the call with canaries around every buffer and compares its answer and its buffers with the second
/// implementation's. Gives the answer, for tests that know it beforehand. The second block is left out of inverses.
#[track_caller]
fn compare(call: Call, m: u32, a: &[Elem], b: &[Elem], result_length: usize) -> Result<Vec<Elem>, u32> {
    let expected = match call {
        Call::Sum => reference::sum(m, a, b, result_length),
        Call::Product => reference::product(m, a, b, result_length),
        Call::Inverse => reference::inverse(m, a, result_length),
    };
    let (a, b) = (Lent::holding(a), Lent::holding(b));
    let mut result = Lent::marked(result_length);
    let answer = match call {
        Call::Sum => library::sum(m, a.slice(), b.slice(), result.slice_mut()),
        Call::Product => library::product(m, a.slice(), b.slice(), result.slice_mut()),
        Call::Inverse => library::inverse(m, a.slice(), result.slice_mut()),
    };
    let about = || format!("{call:?}, width {m}, {:?} and {:?} into {result_length}", a.slice(), b.slice());
    assert_eq!(answer, expected.as_ref().map(|_| ()).map_err(|&number| number), "{}", about());
    a.assert_unchanged();
    b.assert_unchanged();
    result.assert_holds(expected.as_deref().ok());
    expected
}

/// How often to try blocks of a length: the matrices take their time.
fn rounds(s: usize) -> usize {
    (512 / s).min(60)
}

#[test]
fn cases() {
    assert_eq!(compare(Call::Product, 3, &[1, 2], &[1, 2], 2), Ok(vec![5, 0]));
    assert_eq!(compare(Call::Inverse, 3, &[1, 2], &[], 2), Ok(vec![2, 4]));
    assert_eq!(compare(Call::Inverse, 3, &[3, 3], &[], 2), Err(9));
}

#[test]
fn sums_of_every_length_and_width() {
    let mut random = Random::new(201);
    for (m, _) in field::WORDS {
        for s in reference::LENGTHS {
            for _ in 0..rounds(s) {
                let (a, b) = (block(&mut random, m, s), block(&mut random, m, s));
                compare(Call::Sum, m, &a, &b, s).expect("a sum");
            }
        }
    }
}

#[test]
fn products_of_every_length_and_width() {
    let mut random = Random::new(202);
    for (m, _) in field::WORDS {
        for s in reference::LENGTHS {
            for _ in 0..rounds(s) {
                let (a, b) = (block(&mut random, m, s), block(&mut random, m, s));
                compare(Call::Product, m, &a, &b, s).expect("a product");
            }
            // Blocks with a single element say where each product goes.
            for _ in 0..rounds(s).min(16) {
                let (mut a, b) = (vec![0; s], block(&mut random, m, s));
                let place = random.below(s);
                a[place] = 1;
                let moved = compare(Call::Product, m, &a, &b, s).expect("a product");
                assert!((0..s).all(|i| moved[i] == b[i ^ place]), "width {m}, place {place} of {s}");
            }
        }
    }
}

/// Blocks that repeat a shorter one, so that the sum of their halves is zero, and blocks with one half alone: of the
/// products of halves some are zero, or cancel, at every length down to one.
#[test]
fn products_of_blocks_whose_halves_cancel() {
    let mut random = Random::new(206);
    for (m, _) in field::WORDS {
        for s in reference::LENGTHS {
            for part in reference::LENGTHS.into_iter().filter(|&part| part < s) {
                let repeated = block(&mut random, m, part).repeat(s / part);
                let mut padded = vec![0; s - part];
                padded.extend(block(&mut random, m, part));
                let other = block(&mut random, m, s);
                let factors = [&repeated, &padded, &other];
                // The longest take their time, so that one width is enough for them.
                for a in factors.into_iter().filter(|_| s <= 128 || m == 16) {
                    compare(Call::Product, m, a, &repeated, s).expect("a product");
                    compare(Call::Product, m, &padded, a, s).expect("a product");
                }
            }
        }
    }
}

#[test]
fn inverses_of_every_length_and_width() {
    let mut random = Random::new(203);
    for (m, _) in field::WORDS {
        for s in reference::LENGTHS {
            for round in 0..rounds(s) {
                let a = block(&mut random, m, s);
                let inverse = compare(Call::Inverse, m, &a, &[], s);
                if let (Ok(inverse), 0..4) = (inverse, round) {
                    let mut unit = vec![0; s];
                    unit[0] = 1;
                    assert_eq!(compare(Call::Product, m, &a, &inverse, s), Ok(unit));
                }
                // The longest take their time, so that every other width is enough.
                if s <= 128 || m % 2 == 0 {
                    let dead = dead_block(&mut random, m, s);
                    assert_eq!(compare(Call::Inverse, m, &dead, &[], s), Err(9));
                }
            }
        }
    }
}

/// Over the smallest fields and lengths, every block there is.
#[test]
fn all_small_blocks() {
    for (m, s) in [(2, 1), (3, 1), (2, 2), (3, 2), (2, 4)] {
        for a in every_list(m, s) {
            let inverse = compare(Call::Inverse, m, &a, &[], s);
            assert_eq!(inverse.is_ok(), a.iter().fold(0, |sum, entry| sum ^ entry) != 0, "width {m}, block {a:?}");
            for b in every_list(m, s) {
                compare(Call::Sum, m, &a, &b, s).expect("a sum");
                compare(Call::Product, m, &a, &b, s).expect("a product");
            }
        }
    }
}

#[test]
fn lengths_that_no_block_has() {
    let mut random = Random::new(204);
    for (m, _) in field::WORDS {
        // Among them ones that a cut to fewer bits would bring back in.
        for s in BAD_BLOCK_LENGTHS.into_iter().chain([65536 + 4, 65536 + 512]) {
            let (a, b) = (block(&mut random, m, s), block(&mut random, m, s));
            for call in [Call::Sum, Call::Product, Call::Inverse] {
                assert_eq!(compare(call, m, &a, &b, s), Err(2), "{call:?}, width {m}, length {s}");
            }
        }
    }
}

/// Of the three buffers of a sum or product, and of the two of an inverse, any may be of another length.
#[test]
fn buffers_of_unequal_lengths() {
    let mut random = Random::new(205);
    let lengths = [0, 1, 2, 3, 4, 8, 64, 128, 129, 256, 257, 256 + 8, 512, 513, 1024];
    for a_length in lengths {
        for result_length in lengths {
            let a = block(&mut random, 5, a_length);
            for b_length in lengths {
                let b = block(&mut random, 5, b_length);
                let equal = a_length == b_length && b_length == result_length;
                for call in [Call::Sum, Call::Product] {
                    let answer = compare(call, 5, &a, &b, result_length);
                    assert!(equal || answer == Err(2), "{call:?}: {a_length}, {b_length}, {result_length}");
                }
            }
            let answer = compare(Call::Inverse, 5, &a, &[], result_length);
            assert!(a_length == result_length || answer == Err(2), "{a_length}, {result_length}");
        }
    }
}

#[test]
fn strangers_anywhere() {
    let mut random = Random::new(206);
    for (m, _) in field::WORDS.into_iter().filter(|entry| entry.0 < Elem::BITS) {
        for s in [1, 2, 4, 8, 128, 512] {
            let places = if s <= 128 { (0..s).collect() } else { random.places(s, 8) };
            for place in places {
                let stranger = random.pick(&strange_entries(m));
                let (mut a, b) = (dead_block(&mut random, m, s), block(&mut random, m, s));
                a[place] = stranger;
                assert_eq!(compare(Call::Sum, m, &a, &b, s), Err(3));
                assert_eq!(compare(Call::Sum, m, &b, &a, s), Err(3));
                assert_eq!(compare(Call::Product, m, &a, &b, s), Err(3));
                assert_eq!(compare(Call::Product, m, &b, &a, s), Err(3));
                assert_eq!(compare(Call::Inverse, m, &a, &[], s), Err(3));
            }
        }
    }
}

#[test]
fn widths_outside_the_table() {
    for m in BAD_WIDTHS {
        for call in [Call::Sum, Call::Product, Call::Inverse] {
            assert_eq!(compare(call, m, &[1, 2], &[3, 0], 2), Err(1), "{call:?}, width {m}");
        }
    }
}

/// The faults 1, 2, 3 and 9 in every choice of them: the lowest is the answer.
#[test]
fn faults_together() {
    let mut random = Random::new(207);
    for (m, _) in field::WORDS {
        for s in [1, 2, 4, 16] {
            for choice in 0..32_u32 {
                let [width, a_length, result_length, stranger, dead] = [0, 1, 2, 3, 4].map(|i| choice >> i & 1 == 1);
                if stranger && m >= Elem::BITS {
                    continue;
                }
                let mut a = if dead { dead_block(&mut random, m, s) } else { live_block(&mut random, m, s) };
                if stranger {
                    a[random.below(s)] = Elem::MAX;
                }
                if a_length {
                    a.push(1);
                }
                let b = block(&mut random, m, s);
                let result = if result_length { random.pick(&[3 * s, 4 * s]) } else { s };
                let width_given = if width { random.pick(&BAD_WIDTHS) } else { m };
                let lowest = match (width, a_length || result_length, stranger, dead) {
                    (true, _, _, _) => Some(1),
                    (_, true, _, _) => Some(2),
                    (_, _, true, _) => Some(3),
                    _ => None,
                };
                assert_eq!(compare(Call::Sum, width_given, &a, &b, result).err(), lowest);
                assert_eq!(compare(Call::Product, width_given, &b, &a, result).err(), lowest);
                let lowest = lowest.or(dead.then_some(9));
                assert_eq!(compare(Call::Inverse, width_given, &a, &[], result).err(), lowest);
            }
        }
    }
}

/// The two blocks of a sum or product may be one and the same slice.
#[test]
fn one_slice_for_both_blocks() {
    let mut random = Random::new(208);
    for (m, _) in field::WORDS {
        for s in [1, 2, 8, 32] {
            let a = Lent::holding(&block(&mut random, m, s));
            let mut result = Lent::marked(s);
            assert_eq!(library::sum(m, a.slice(), a.slice(), result.slice_mut()), Ok(()));
            result.assert_holds(Some(&vec![0; s]));
            assert_eq!(library::product(m, a.slice(), a.slice(), result.slice_mut()), Ok(()));
            result.assert_holds(reference::product(m, a.slice(), a.slice(), s).as_deref().ok());
            a.assert_unchanged();
        }
    }
}
