//! Checking a code and comparing two, against the three rules written plainly and the existence of the two sequences.

use zovunelith_tests::canary::Lent;
use zovunelith_tests::draw::{self, CodeFault, BAD_LENGTHS, BAD_WIDTHS};
use zovunelith_tests::library::params as library;
use zovunelith_tests::random::Random;
use zovunelith_tests::reference::field;
use zovunelith_tests::reference::params::{self as reference, code_a, code_t, Params, Shape};
use zovunelith_tests::Elem;

/// z and L, as a check gives them.
type Checked = Result<(Vec<Elem>, Vec<Elem>), u32>;

/// Checks a code with canaries around every buffer and compares answer and buffers with the second implementation's.
#[track_caller]
fn compare_lent(params: &Params, roots_length: usize, support_length: usize) -> Checked {
    let expected = reference::check(params, roots_length, support_length);
    let mut roots = Lent::marked(roots_length);
    let mut support = Lent::marked(support_length);
    let answer = library::check(params, roots.slice_mut(), support.slice_mut());
    assert_eq!(answer, expected.as_ref().map(|_| ()).map_err(|&number| number), "{params:?}");
    roots.assert_holds(expected.as_ref().ok().map(|lists| lists.0.as_slice()));
    support.assert_holds(expected.as_ref().ok().map(|lists| lists.1.as_slice()));
    expected
}

/// The same with buffers of n entries, where n is a number of entries that can be lent.
#[track_caller]
fn compare(params: &Params) -> Checked {
    let length = if params.n <= 1024 { params.n as usize } else { params.h.len() };
    compare_lent(params, length, length)
}

/// Compares two codes and the answer with the second implementation's.
#[track_caller]
fn compare_two(one: &Params, other: &Params) -> Result<bool, u32> {
    let expected = reference::same(one, other);
    assert_eq!(library::same(one, other), expected, "{one:?} and {other:?}");
    expected
}

fn small(m: u32, omega: u32, h: &[Elem]) -> Params {
    Params::new(m, 1, omega, h.to_vec())
}

#[test]
fn cases() {
    assert_eq!(compare(&small(3, 0, &[7, 2, 3, 5])), Err(5));
    assert_eq!(compare(&small(2, 0, &[1, 1, 1, 1])), Err(6));
    assert_eq!(compare(&small(2, 0, &[1, 0])), Err(4));
    assert_eq!(compare(&small(2, 0, &[1, 2])).expect("accepted").1, [0, 2]);
    assert_eq!(compare(&code_a()).expect("accepted").1, [0, 1, 2, 3]);
    let (roots, support) = compare(&code_t()).expect("accepted");
    assert_eq!(support, [24, 9, 6, 23, 10, 27, 20, 5, 25, 8, 7, 22, 11, 26, 21, 4]);
    assert_eq!(roots[..2], [31, 14]);
}

#[test]
fn limits() {
    assert_eq!(compare(&Params { m: 1, ..code_a() }), Err(1));
    assert_eq!(compare(&Params { m: 17, ..code_a() }), Err(1));
    compare(&small(2, 3, &[1, 2])).expect("accepted");
    compare(&small(16, 65535, &[1, 2])).expect("accepted");
    assert_eq!(compare(&small(16, 65536, &[1, 2])), Err(3));
    assert_eq!(compare(&small(5, 0, &[12, 8, 10])), Err(2));
    compare(&Params { t: 8, ..code_t() }).expect("accepted");
    assert_eq!(compare(&Params { t: 16, ..code_t() }), Err(7));
}

/// The longest codes over large fields, with the most rows. More rows are 7, a width of 17 is 1, and 1024 is no n,
/// whether there are as many entries or not.
#[test]
fn limits_of_long_codes() {
    let mut random = Random::new(317);
    for (m, n) in [(9, 256), (10, 512), (11, 512), (12, 512), (13, 512), (14, 512), (15, 512), (16, 512)] {
        let params = draw::params(&mut random, m, n, n / 2);
        compare(&params).expect("accepted");
        assert_eq!(compare(&Params { t: n, ..params.clone() }), Err(7));
        assert_eq!(compare(&Params { m: 17, ..params.clone() }), Err(1));
        assert_eq!(compare(&Params { n: 1024, ..params.clone() }), Err(2));
        // For m = 9 twice the entries are of a length that codes have, but they repeat.
        let longer = Params::new(m, params.t, params.omega, params.h.repeat(2));
        assert_eq!(compare(&longer), Err(if n == 512 { 2 } else { 6 }));
        assert_eq!(compare(&Params { m: 17, ..longer }), Err(1));
    }
}

#[test]
fn drawn_codes_of_every_shape() {
    let mut random = Random::new(301);
    for shape @ (m, n, t) in draw::shapes() {
        for _ in 0..draw::rounds(shape, 6) {
            let params = draw::params(&mut random, m, n, t);
            let (z, l) = compare(&params).expect("accepted");
            // Demand 2: the pair that comes back is a pair of disjoint sequences with that Cauchy matrix.
            for i in 0..z.len() {
                assert!(!l.contains(&z[i]) && !z[..i].contains(&z[i]) && !l[..i].contains(&l[i]), "{params:?}");
                for j in 0..l.len() {
                    assert_eq!(field::times(m, z[i] ^ l[j], params.h[i ^ j]), 1, "{params:?}");
                }
            }
        }
    }
}

/// Every offset below q is accepted with a signature that is; no offset from q on is.
#[test]
fn every_offset() {
    let mut random = Random::new(302);
    for (m, _) in field::WORDS {
        // Where there are many offsets, with a short signature.
        let n = if m <= 8 { 2.max(field::size(m) / 4) } else { 4 };
        let params = draw::params(&mut random, m, n, 1);
        for omega in 0..field::size(m) {
            compare(&Params { omega, ..params.clone() }).expect("accepted");
        }
        for omega in draw::strangers(m).into_iter().chain([1 << 24, (1 << 24) + 1]) {
            assert_eq!(compare(&Params { omega, ..params.clone() }), Err(3));
        }
    }
}

/// Every number of rows, with a signature that is accepted.
#[test]
fn every_number_of_rows() {
    let mut random = Random::new(303);
    for (m, n, _) in draw::shapes().into_iter().filter(|shape| shape.2 == 1) {
        let params = draw::params(&mut random, m, n, 1);
        // Of the longest ones over large fields one width is enough.
        let all = (0..=260).chain(510..=514).filter(|_| m <= 8 || n <= 32 || m == 16);
        for t in reference::ROWS.into_iter().chain(all).chain([0, 3, 1024, 65536, 65536 + 1, 1 << 31, u32::MAX]) {
            let right = t <= n / 2 && reference::ROWS.contains(&t);
            let answer = compare(&Params { t, ..params.clone() });
            assert_eq!(answer.err(), (!right).then_some(7), "n {n}, t {t}");
        }
    }
}

/// Over the smallest fields, every signature there is: accepted exactly if the two sequences exist.
#[test]
fn all_small_signatures() {
    for (m, n) in [(2, 2), (2, 4), (3, 2), (3, 4), (4, 2)] {
        for h in draw::every_list(m, n) {
            let answer = compare(&small(m, 1, &h));
            assert_eq!(answer.is_ok(), reference::cauchy_sequences(m, &h).is_some(), "width {m}, {h:?}");
        }
    }
}

/// One entry changed to each other value, at each place, and to values that are no elements.
#[test]
fn one_entry_changed() {
    let mut random = Random::new(304);
    for (m, n, t) in [
        (2, 2, 1),
        (3, 4, 2),
        (4, 8, 1),
        (5, 16, 2),
        (6, 8, 4),
        (7, 16, 1),
        (8, 16, 8),
        (9, 8, 2),
        (12, 4, 2),
        (16, 2, 1),
    ] {
        let params = draw::params(&mut random, m, n, t);
        for place in 0..n as usize {
            for value in (0..field::size(m)).map(|value| value as Elem).chain(draw::strange_entries(m)) {
                let mut changed = params.clone();
                changed.h[place] = value;
                let answer = compare(&changed);
                if answer.is_ok() {
                    assert!(reference::cauchy_sequences(m, &changed.h).is_some(), "{changed:?}");
                }
                // With four entries or more the others ask for the one that was there.
                assert!(n == 2 || value == params.h[place] || answer.is_err(), "{changed:?}");
            }
        }
    }
}

/// The entries of an accepted signature in another order, or two of them equal.
#[test]
fn entries_exchanged_and_repeated() {
    let mut random = Random::new(305);
    for shape @ (m, n, t) in draw::fewer_shapes() {
        for _ in 0..draw::rounds(shape, 10) {
            let params = draw::params(&mut random, m, n, t);
            let places = random.places(n as usize, 2);
            let mut changed = params.clone();
            changed.h.swap(places[0], places[1]);
            compare(&changed).ok();
            changed.h[places[0]] = changed.h[places[1]];
            assert!(compare(&changed).is_err(), "{changed:?}");
            let mut shuffled = params.clone();
            for place in 1..n as usize {
                let other = random.below(place + 1);
                shuffled.h.swap(place, other);
            }
            compare(&shuffled).ok();
            let twin = Params { h: draw::twin_signature(&mut random, m, n), ..params };
            assert_eq!(compare(&twin), Err(6));
        }
    }
}

/// An accepted signature whose indices are moved by ⊕ r is accepted again; moved by + r, with carries from bit to bit,
/// it is crossed.
#[test]
fn indices_moved_by_exclusive_or_and_by_sum() {
    let mut random = Random::new(306);
    for (m, n, t) in draw::fewer_shapes() {
        let params = draw::params(&mut random, m, n, t);
        for r in [1, n as usize / 2, n as usize - 1] {
            let moved = |to: &dyn Fn(usize) -> usize| (0..n as usize).map(|i| params.h[to(i)]).collect();
            compare(&Params { h: moved(&|i| i ^ r), ..params.clone() }).expect("accepted");
            let added = compare(&Params { h: moved(&|i| (i + r) % n as usize), ..params.clone() });
            // Up to n = 4, and for the highest bit, no carry reaches a further bit.
            let expected = if n <= 4 || r == n as usize / 2 { None } else { Some(5) };
            assert_eq!(added.err(), expected, "{params:?}, moved by {r}");
        }
    }
}

/// The rule fails at one entry whose index has three bits or more: between powers of two it holds throughout.
#[test]
fn crossed_away_from_the_powers_of_two() {
    let mut random = Random::new(315);
    for shape @ (m, n, t) in draw::fewer_shapes().into_iter().filter(|shape| shape.1 >= 8) {
        let params = draw::params(&mut random, m, n, t);
        let places: Vec<usize> = (0..n as usize).filter(|place| place.count_ones() >= 3).collect();
        for place in draw::all_or_some(&mut random, shape, &places) {
            let mut off = params.clone();
            while off.h[place] == params.h[place] {
                off.h[place] = draw::nonzero(&mut random, m);
            }
            assert_eq!(compare(&off), Err(5), "{off:?}");
        }
    }
}

/// A zero is 4 at every place, also in a signature that would be accepted if 1/0 were 0.
#[test]
fn zeros_at_every_place() {
    let mut random = Random::new(316);
    for (m, n, t) in draw::fewer_shapes() {
        let params = draw::params(&mut random, m, n, t);
        for place in 0..n as usize {
            let mut blank = params.clone();
            blank.h[place] = 0;
            assert_eq!(compare(&blank), Err(4), "{blank:?}");
            blank.h = draw::blank_signature(&mut random, m, n, place);
            assert_eq!(blank.h.iter().position(|&entry| entry == 0), Some(place), "{blank:?}");
            assert_eq!(compare(&blank), Err(4), "{blank:?}");
        }
    }
}

/// n above q/2 is never accepted: over all signatures that keep the rule for 1/h, where they can all be looked at,
/// and over many of them elsewhere.
#[test]
fn more_than_half_the_field_is_never_accepted() {
    let mut random = Random::new(307);
    for (m, n) in [(2, 4), (2, 8), (3, 8)] {
        for values in draw::every_list(m, u32::ilog2(n) as usize + 1) {
            let params = small(m, 0, &draw::signature_from(m, values[0], &values[1..]));
            assert!(compare(&params).is_err(), "{params:?}");
        }
    }
    for (m, _) in field::WORDS {
        for n in reference::LENGTHS.into_iter().filter(|&n| n > field::size(m) / 2) {
            for _ in 0..20 {
                let h = draw::twin_signature(&mut random, m, n);
                assert_eq!(compare(&small(m, 0, &h)), Err(6));
                let h: Vec<Elem> = (0..n).map(|_| draw::nonzero(&mut random, m)).collect();
                assert!(compare(&small(m, 0, &h)).is_err());
            }
        }
    }
}

#[test]
fn damaged_codes_singly_and_in_pairs() {
    let mut random = Random::new(308);
    for (m, n, t) in draw::fewer_shapes() {
        for faults in draw::singles_and_pairs(m, n) {
            let params = draw::damaged_code(&mut random, m, n, t, &faults);
            let lowest = faults.iter().map(|fault| fault.number()).min().expect("a fault");
            assert_eq!(compare(&params), Err(lowest), "{faults:?}: {params:?}");
        }
    }
}

/// A wrong length of any buffer is 2: after 1, before whatever else the code has.
#[test]
fn buffers_of_other_lengths() {
    let mut random = Random::new(309);
    for (m, n, t) in draw::fewer_shapes() {
        let mut sets = vec![Vec::new()];
        sets.extend(draw::singles_and_pairs(m, n));
        for faults in sets {
            let params = draw::damaged_code(&mut random, m, n, t, &faults);
            let right = n as usize;
            let wrong = draw::other_length(&mut random, right);
            let number = if faults.contains(&CodeFault::Width) { 1 } else { 2 };
            for (roots, support) in [(wrong, right), (right, wrong), (wrong, wrong)] {
                assert_eq!(compare_lent(&params, roots, support), Err(number), "{faults:?}: {params:?}");
            }
        }
    }
}

/// Numbers n that no code has, with buffers of that length; and a right n that is another than the buffers'.
#[test]
fn other_lengths_of_codes() {
    let mut random = Random::new(310);
    for n in BAD_LENGTHS {
        let h: Vec<Elem> = (0..n.min(1024)).map(|_| draw::nonzero(&mut random, 16)).collect();
        assert_eq!(compare(&Params { n, ..small(16, 0, &h) }), Err(2), "n {n}");
    }
    for (m, n, t) in draw::fewer_shapes() {
        let params = draw::params(&mut random, m, n, t);
        for other in (0..=520).chain([1024, 65536 + n, u32::MAX - n]).filter(|&other| other != n) {
            assert_eq!(compare_lent(&Params { n: other, ..params.clone() }, n as usize, n as usize), Err(2));
        }
        for width in BAD_WIDTHS {
            assert_eq!(compare(&Params { m: width, n: 3, ..params.clone() }), Err(1));
        }
    }
}

/// Every number n with a signature and buffers of that length: the powers of two from 2 to 512 are lengths of codes, and
/// up to half the field a signature can be accepted.
#[test]
fn cards_of_every_length() {
    let mut random = Random::new(318);
    for m in [5, 10, 16] {
        for n in (0..=1030).chain([2048, 4096, 65535, 65536, 65536 + 2, 65536 + 512]) {
            let (h, number) = if !reference::LENGTHS.contains(&n) {
                (draw::block(&mut random, m, n as usize), Some(2))
            } else if n <= field::size(m) / 2 {
                (draw::signature(&mut random, m, n), None)
            } else {
                (draw::twin_signature(&mut random, m, n), Some(6))
            };
            let answer = compare_lent(&small(m, 0, &h), n as usize, n as usize);
            assert_eq!(answer.err(), number, "width {m}, n {n}");
        }
    }
}

/// Random numbers and entries of every kind.
#[test]
fn any_codes_at_all() {
    let mut random = Random::new(311);
    let mut answers = [0; 8];
    for _ in 0..20_000 {
        let m = random.pick(&[0, 1, 2, 3, 4, 5, 6, 7, 8, 9, 12, 15, 16, 17, 33]);
        let n = random.pick(&[0, 1, 2, 2, 3, 4, 4, 5, 8]);
        let t = random.pick(&[0, 1, 1, 1, 2, 2, 3, 4, 8]);
        let small_entries = random.below(8);
        let h = (0..n).map(|_| (random.draw() as Elem) >> (small_entries * 2)).collect();
        let omega = (random.draw() as u32) >> random.below(32);
        let answer = compare(&Params::new(m, t, omega, h));
        answers[answer.map_or_else(|number| number as usize, |_| 0)] += 1;
    }
    assert!(answers.iter().all(|&count| count > 10), "every answer was among them: {answers:?}");
}

#[test]
fn codes_that_are_the_same_or_differ() {
    let mut random = Random::new(312);
    let (small, large): (Vec<Shape>, Vec<Shape>) = draw::shapes().into_iter().partition(draw::is_small);
    for &(m, n, t) in small.iter().chain(&large) {
        let params = draw::params(&mut random, m, n, t);
        assert_eq!(compare_two(&params, &params), Ok(true));
        let other_signature = Params { h: draw::signature(&mut random, m, n), ..params.clone() };
        assert_eq!(compare_two(&params, &other_signature), Ok(params.h == other_signature.h));
        // Every two over small fields, and every one with two over large fields.
        let mut others = if m <= 8 { small.clone() } else { vec![] };
        others.extend([random.pick(&large), random.pick(&large)]);
        for (m2, n2, t2) in others {
            let other = draw::params(&mut random, m2, n2, t2);
            compare_two(&params, &other).expect("both accepted");
        }
    }
}

/// One number differs and all else agrees.
#[test]
fn codes_that_differ_in_one_number() {
    let mut random = Random::new(313);
    for (m, n, t) in draw::fewer_shapes() {
        let params = draw::params(&mut random, m, n, t);
        for t2 in reference::ROWS.into_iter().filter(|&t2| t2 <= n / 2) {
            assert_eq!(compare_two(&params, &Params { t: t2, ..params.clone() }), Ok(t == t2));
        }
        for omega in draw::offsets(&mut random, m) {
            assert_eq!(compare_two(&params, &Params { omega, ..params.clone() }), Ok(omega == params.omega));
        }
        for bit in 0..m {
            assert_eq!(compare_two(&params, &Params { omega: params.omega ^ 1 << bit, ..params.clone() }), Ok(false));
        }
        for (m2, _) in field::WORDS {
            let other = Params { m: m2, ..params.clone() };
            assert!(m2 == m || compare_two(&params, &other) != Ok(true), "{params:?}");
        }
    }
    // One bit of one entry, which at n = 2 is free.
    for (m, _) in field::WORDS {
        let params = draw::params(&mut random, m, 2, 1);
        for (place, bit) in (0..2).flat_map(|place| (0..m).map(move |bit| (place, bit))) {
            let mut other = params.clone();
            other.h[place] ^= 1 << bit;
            if reference::check(&other, 2, 2).is_ok() {
                assert_eq!(compare_two(&params, &other), Ok(false));
                assert_eq!(compare_two(&other, &params), Ok(false));
            }
        }
    }
    // The same two entries in two fields.
    assert_eq!(compare_two(&small(2, 0, &[1, 2]), &small(3, 0, &[1, 2])), Ok(false));
    // n = 2 lets one entry be exchanged for another.
    assert_eq!(compare_two(&small(2, 0, &[1, 2]), &small(2, 0, &[1, 3])), Ok(false));
    assert_eq!(compare_two(&small(2, 0, &[1, 2]), &small(2, 0, &[3, 2])), Ok(false));
    assert_eq!(compare_two(&small(2, 0, &[1, 2]), &small(2, 0, &[1, 2])), Ok(true));
}

/// A fault in either code brings its number, the lowest of both codes, whichever comes first.
#[test]
fn faults_in_either_code() {
    let mut random = Random::new(314);
    for (m, n, t) in draw::fewer_shapes() {
        let right = draw::params(&mut random, m, n, t);
        for one in draw::code_faults(m, n) {
            let first = draw::damaged_code(&mut random, m, n, t, &[one]);
            assert_eq!(compare_two(&first, &right), Err(one.number()));
            assert_eq!(compare_two(&right, &first), Err(one.number()));
            assert_eq!(compare_two(&first, &first), Err(one.number()));
            for other in draw::code_faults(m, n) {
                let second = draw::damaged_code(&mut random, m, n, t, &[other]);
                let lowest = one.number().min(other.number());
                assert_eq!(compare_two(&first, &second), Err(lowest), "{first:?} and {second:?}");
            }
        }
    }
}
