//! Sum, product and inverse of elements, against carry-less multiplication and long division.

use zovunelith_tests::draw::{element, strangers, BAD_WIDTHS};
use zovunelith_tests::library::field as library;
use zovunelith_tests::random::Random;
use zovunelith_tests::reference::field as reference;

fn widths() -> impl Iterator<Item = u32> {
    reference::WORDS.into_iter().map(|entry| entry.0)
}

/// The widths of the small fields, of which all pairs of elements are looked at.
fn small_widths() -> impl Iterator<Item = u32> {
    widths().filter(|&m| m <= 8)
}

/// Compares the sum and the product of two elements, in both orders.
#[track_caller]
fn compare(m: u32, a: u32, b: u32) {
    for (a, b) in [(a, b), (b, a)] {
        assert_eq!(library::sum(m, a, b), reference::sum(m, a, b), "width {m}: {a} plus {b}");
        assert_eq!(library::product(m, a, b), reference::product(m, a, b), "width {m}: {a} times {b}");
    }
}

#[test]
fn cases() {
    assert_eq!(library::product(5, 2, 16), Ok(5));
    assert_eq!(library::inverse(5, 12), Ok(7));
}

#[test]
fn sums_and_products_of_all_pairs() {
    for m in small_widths() {
        for a in 0..reference::size(m) {
            (0..=a).for_each(|b| compare(m, a, b));
        }
    }
}

/// Every element with every power of u below u^m, of which all elements are sums.
#[test]
fn sums_and_products_with_single_bits() {
    for m in widths() {
        for a in 0..reference::size(m) {
            (0..m).for_each(|i| compare(m, a, 1 << i));
        }
    }
}

#[test]
fn sums_and_products_of_random_pairs() {
    let mut random = Random::new(103);
    for m in widths() {
        for _ in 0..40_000 {
            compare(m, element(&mut random, m).into(), element(&mut random, m).into());
        }
        // The greatest element has every bit.
        for _ in 0..2000 {
            compare(m, reference::size(m) - 1, element(&mut random, m).into());
        }
    }
}

/// The number 2 is the element u: the product by it is a shift, and where a bit runs over the word is taken away.
#[test]
fn products_by_u() {
    for (m, word) in reference::WORDS {
        for a in 0..reference::size(m) {
            let shifted = a << 1;
            let cut_back = if shifted >> m == 1 { shifted ^ word } else { shifted };
            assert_eq!(library::product(m, 2, a), Ok(cut_back), "width {m}: u times {a}");
            assert_eq!(library::product(m, a, 2), Ok(cut_back), "width {m}: {a} times u");
        }
    }
}

#[test]
fn inverses_of_all_elements() {
    for m in widths() {
        for a in 0..reference::size(m) {
            assert_eq!(library::inverse(m, a), reference::inverse(m, a), "width {m}: inverse of {a}");
        }
    }
}

/// Whole tables as a bench lists them, with 0 for 0. The powers of u run through all other elements, and the inverse of
/// u^i is u^(q − 1 − i).
#[test]
fn tables_of_inverses() {
    for m in widths() {
        let order = reference::size(m) as usize - 1;
        let mut powers = vec![1];
        for i in 1..order {
            powers.push(reference::product(m, 2, powers[i - 1]).expect("elements"));
        }
        let mut table = vec![0; order + 1];
        for i in 0..order {
            table[powers[i] as usize] = powers[(order - i) % order];
        }
        let listed: Vec<Result<u32, u32>> = (0..reference::size(m)).map(|a| library::inverse(m, a)).collect();
        assert_eq!(listed, table.into_iter().map(Ok).collect::<Vec<_>>(), "width {m}");
    }
}

/// The words of the table give fields: told by the product's answers alone, where all can be asked for.
#[test]
fn every_nonzero_element_has_exactly_one_inverse() {
    for m in small_widths() {
        for a in 1..reference::size(m) {
            let inverses: Vec<u32> = (0..reference::size(m)).filter(|&b| library::product(m, a, b) == Ok(1)).collect();
            assert_eq!(inverses, [library::inverse(m, a).expect("an inverse")], "width {m}: {a}");
        }
    }
}

#[test]
fn laws_hold_for_random_elements() {
    let mut random = Random::new(101);
    for m in widths() {
        let sum = |a, b| library::sum(m, a, b).expect("elements");
        let times = |a, b| library::product(m, a, b).expect("elements");
        for _ in 0..2000 {
            let [a, b, c] = [(); 3].map(|()| u32::from(element(&mut random, m)));
            assert_eq!(sum(a, b), sum(b, a), "width {m}: {a} {b}");
            assert_eq!(sum(a, sum(b, c)), sum(sum(a, b), c), "width {m}: {a} {b} {c}");
            assert_eq!((sum(a, 0), sum(a, a)), (a, 0), "width {m}: {a}");
            assert_eq!(times(a, b), times(b, a), "width {m}: {a} {b}");
            assert_eq!(times(a, times(b, c)), times(times(a, b), c), "width {m}: {a} {b} {c}");
            assert_eq!(times(a, sum(b, c)), sum(times(a, b), times(a, c)), "width {m}: {a} {b} {c}");
            assert_eq!((times(a, 1), times(a, 0)), (a, 0), "width {m}: {a}");
        }
    }
}

/// 1 comes before 3, whatever the elements are.
#[test]
fn widths_outside_the_table() {
    for m in BAD_WIDTHS {
        for a in [0, 1, 2, 3, 4, 31, 255, 256, 512, 65535, 65536, 1 << 31, u32::MAX] {
            assert_eq!(library::inverse(m, a), Err(1), "width {m}: inverse of {a}");
            for b in [0, 1, 3, 255, 256, 65535, 65536, u32::MAX] {
                assert_eq!(library::sum(m, a, b), Err(1), "width {m}: {a} plus {b}");
                assert_eq!(library::product(m, a, b), Err(1), "width {m}: {a} times {b}");
            }
        }
    }
}

/// 3 for an element of q or more on either side, zero on the other side or not.
#[test]
fn strangers_on_either_side() {
    for m in widths() {
        for stranger in strangers(m) {
            assert_eq!(library::inverse(m, stranger), Err(3), "width {m}: inverse of {stranger}");
            for other in [0, 1, reference::size(m) - 1, stranger, u32::MAX] {
                for (a, b) in [(stranger, other), (other, stranger)] {
                    assert_eq!(library::sum(m, a, b), Err(3), "width {m}: {a} plus {b}");
                    assert_eq!(library::product(m, a, b), Err(3), "width {m}: {a} times {b}");
                }
            }
        }
    }
}

#[test]
fn any_numbers_at_all() {
    let mut random = Random::new(102);
    for _ in 0..20_000 {
        // Few bits as often as many, so that widths and elements in and out of range meet.
        let [m, a, b] = [0; 3].map(|_: u32| (random.draw() as u32) >> random.below(32));
        assert_eq!(library::sum(m, a, b), reference::sum(m, a, b), "width {m}: {a} plus {b}");
        assert_eq!(library::product(m, a, b), reference::product(m, a, b), "width {m}: {a} times {b}");
        assert_eq!(library::inverse(m, a), reference::inverse(m, a), "width {m}: inverse of {a}");
    }
}
