//! The essence of a signature and the signature of an essence, against elimination and the rules for signatures.

use zovunelith_tests::canary::{pointer, pointer_mut, Lent};
use zovunelith_tests::draw::{self, CodeFault, BAD_WIDTHS};
use zovunelith_tests::library;
use zovunelith_tests::random::Random;
use zovunelith_tests::reference::essence::{self as reference, is_sum};
use zovunelith_tests::reference::field;
use zovunelith_tests::reference::params::{cauchy_sequences, code_a, code_t, Params, LENGTHS, ROWS};
use zovunelith_tests::Elem;

/// A conversion, named by what it gives.
#[derive(Clone, Copy, Debug, PartialEq)]
enum Call {
    Essence,
    Signature,
}

const CALLS: [Call; 2] = [Call::Essence, Call::Signature];

impl Call {
    fn expected(self, m: u32, list: &[Elem], result_length: usize) -> Result<Vec<Elem>, u32> {
        match self {
            Call::Essence => reference::essence(m, list, result_length),
            Call::Signature => reference::signature(m, list, result_length),
        }
    }
}

/// Makes the call with canaries around both buffers and compares its answer and its buffers with the second
/// implementation's. Gives the answer, for tests that know it beforehand.
#[track_caller]
fn compare(call: Call, m: u32, list: &[Elem], result_length: usize) -> Result<Vec<Elem>, u32> {
    let expected = call.expected(m, list, result_length);
    let list = Lent::holding(list);
    let mut result = Lent::marked(result_length);
    let answer = match call {
        Call::Essence => library::essence::essence(m, list.slice(), result.slice_mut()),
        Call::Signature => library::essence::signature(m, list.slice(), result.slice_mut()),
    };
    let about = || format!("{call:?}, width {m}, {:?} into {result_length}", list.slice());
    assert_eq!(answer, expected.as_ref().map(|_| ()).map_err(|&number| number), "{}", about());
    list.assert_unchanged();
    result.assert_holds(expected.as_deref().ok());
    expected
}

/// The number of values in the essence of n entries.
fn value_count(n: u32) -> usize {
    n.checked_ilog2().map_or(0, |e| e as usize + 1)
}

/// The same for a signature, with room for as many values as one of its length has.
#[track_caller]
fn essence_of(m: u32, h: &[Elem]) -> Result<Vec<Elem>, u32> {
    compare(Call::Essence, m, h, value_count(h.len() as u32))
}

/// The same for an essence, with room for as many entries as one of its length has.
#[track_caller]
fn signature_of(m: u32, values: &[Elem]) -> Result<Vec<Elem>, u32> {
    compare(Call::Signature, m, values, (1 << values.len()) / 2)
}

/// Every width.
fn widths() -> impl Iterator<Item = u32> {
    field::WORDS.into_iter().map(|entry| entry.0)
}

#[test]
fn cases() {
    assert_eq!(essence_of(5, &code_t().h), Ok(vec![17, 30, 18, 1, 7]));
    assert_eq!(signature_of(5, &[17, 30, 18, 1, 7]), Ok(code_t().h));
    assert_eq!(essence_of(3, &code_a().h), Ok(vec![1, 2, 4]));
    assert_eq!(signature_of(3, &[1, 2, 4]), Ok(code_a().h));
    assert_eq!(essence_of(2, &[1, 2]), Ok(vec![2, 1]));
    assert_eq!(essence_of(3, &[7, 2, 3, 5]), Err(5));
    assert_eq!(essence_of(2, &[1, 1, 1, 1]), Err(6));
    assert_eq!(essence_of(2, &[1, 0]), Err(4));
    assert_eq!(signature_of(2, &[0, 1]), Err(17));
    assert_eq!(signature_of(2, &[1, 0]), Err(17));
    assert_eq!(signature_of(2, &[3, 3]), Err(17));
    assert_eq!(signature_of(2, &[1, 2, 3]), Err(17));
    assert_eq!(signature_of(16, &[1, 2, 4, 8, 16, 32, 64, 128, 256, 511]), Err(17));
}

/// For every choice of values, a list in which it alone sums to zero: a single zero, two equal values, up to all.
#[test]
fn a_single_choice_that_sums_to_zero() {
    let mut random = Random::new(1401);
    for m in widths() {
        for count in 2..=10.min(m as usize + 1) {
            for choice in 1..1_usize << count {
                let mut values = draw::independent(&mut random, m, count as u32 - 1);
                // One of those chosen is the sum of the others.
                let places: Vec<usize> = (0..count).filter(|place| choice >> place & 1 == 1).collect();
                let place = random.pick(&places);
                values.insert(place, 0);
                values[place] = draw::chosen(&values, choice);
                assert_eq!(signature_of(m, &values), Err(17), "width {m}, choice {choice} of {values:?}");
            }
        }
    }
}

/// As many values as the width has bits can be independent; more can't.
#[test]
fn as_many_values_as_bits_and_more() {
    let mut random = Random::new(1402);
    for (m, count) in widths().flat_map(|m| (2..=10).map(move |count| (m, count))) {
        for _ in 0..40 {
            if count <= m {
                let values = draw::independent(&mut random, m, count);
                signature_of(m, &values).expect("independent");
            } else {
                let values: Vec<Elem> = (0..count).map(|_| draw::nonzero(&mut random, m)).collect();
                assert_eq!(signature_of(m, &values), Err(17));
            }
        }
    }
}

/// Compares both conversions of an essence and its signature, and the check of the code with every number of rows.
#[track_caller]
fn go_together(m: u32, values: &[Elem], h: &[Elem]) {
    assert_eq!(signature_of(m, values).as_deref(), Ok(h), "width {m}, {values:?}");
    assert_eq!(essence_of(m, h).as_deref(), Ok(values), "width {m}, {h:?}");
    let (&first, steps) = values.split_last().expect("two values or more");
    for (i, &entry) in h.iter().enumerate() {
        let over = first ^ draw::chosen(steps, i);
        assert_eq!(field::times(m, over, entry), 1, "width {m}, {values:?}, entry {i}");
    }
    for t in ROWS.into_iter().filter(|&t| t as usize <= h.len() / 2) {
        let (mut roots, mut support) = (vec![0; h.len()], vec![0; h.len()]);
        let params = Params::new(m, t, 0, h.to_vec());
        assert_eq!(library::params::check(&params, &mut roots, &mut support), Ok(()), "{params:?}");
        let listed: Vec<Elem> = (0..steps.len()).map(|s| support[1 << s]).chain([roots[0]]).collect();
        assert_eq!(listed, values, "{params:?}");
    }
}

#[test]
fn drawn_essences_and_signatures_of_every_shape() {
    let mut random = Random::new(1403);
    for (m, n) in draw::signature_shapes() {
        for _ in 0..draw::rounds((m, n, 1), 12) {
            let values = draw::independent(&mut random, m, value_count(n) as u32);
            let h = reference::signature(m, &values, n as usize).expect("independent");
            go_together(m, &values, &h);
            let h = draw::signature(&mut random, m, n);
            let values = reference::essence(m, &h, value_count(n)).expect("accepted");
            go_together(m, &values, &h);
        }
    }
}

/// Over the smallest fields, every list of values and every signature there is.
#[test]
fn all_small_essences_and_signatures() {
    for (m, count) in [(2, 2), (2, 3), (2, 4), (3, 2), (3, 3), (3, 4), (4, 2), (4, 3), (5, 2), (5, 3), (8, 2)] {
        let mut accepted = 0;
        for values in draw::every_list(m, count) {
            let answer = signature_of(m, &values);
            let independent = (1..1 << count).all(|choice| draw::chosen(&values, choice) != 0);
            assert_eq!(answer.is_ok(), independent, "width {m}, {values:?}");
            if let Ok(h) = answer {
                assert_eq!(essence_of(m, &h), Ok(values), "width {m}");
                accepted += 1;
            }
        }
        // As many as theorem 3 of document 004 counts signatures: the product of q - 2^i.
        let counted: u32 = (0..count).map(|i| field::size(m).saturating_sub(1 << i)).product();
        assert_eq!(accepted, counted, "width {m}, {count} values");
    }
    for (m, n) in [(2, 2), (2, 4), (3, 2), (3, 4), (4, 2), (4, 4), (5, 2), (8, 2)] {
        for h in draw::every_list(m, n) {
            let answer = essence_of(m, &h);
            assert_eq!(answer.is_ok(), cauchy_sequences(m, &h).is_some(), "width {m}, {h:?}");
            if let Ok(values) = answer {
                assert_eq!(signature_of(m, &values), Ok(h), "width {m}");
            }
        }
    }
}

/// One value changed to each element, at each place, and to values that are no elements.
#[test]
fn one_value_changed() {
    let mut random = Random::new(1404);
    for (m, count) in [(2, 2), (3, 3), (4, 4), (5, 5), (6, 3), (7, 7), (8, 6), (9, 4), (12, 3), (16, 2)] {
        let values = draw::independent(&mut random, m, count);
        for place in 0..values.len() {
            let mut others = values.clone();
            others.remove(place);
            for value in (0..field::size(m)).map(|value| value as Elem).chain(draw::strange_entries(m)) {
                let mut changed = values.clone();
                changed[place] = value;
                let number = if u32::from(value) >= field::size(m) { Some(3) } else { None };
                let number = number.or(is_sum(&others, value).then_some(17));
                assert_eq!(signature_of(m, &changed).err(), number, "width {m}, {changed:?}");
            }
        }
    }
}

/// Each fault of a signature and every two of them: the lowest is the answer. A buffer of another length is 2 as well.
#[test]
fn damaged_signatures() {
    use CodeFault::*;
    let mut random = Random::new(1405);
    for (m, n) in draw::signature_shapes() {
        let mut faults = draw::code_faults(m, n);
        faults.retain(|fault| [Width, SignatureLength, Entry, Blank, Crossed, Twin].contains(fault));
        for faults in draw::one_or_two(&faults) {
            let code = draw::damaged_code(&mut random, m, n, 1, &faults);
            let lowest = faults.iter().map(|fault| fault.number()).min().expect("a fault");
            assert_eq!(compare(Call::Essence, code.m, &code.h, value_count(n)), Err(lowest), "{faults:?}: {code:?}");
            // A signature of another length could be the one that such a buffer is for.
            if !faults.contains(&SignatureLength) {
                let other = draw::other_length(&mut random, value_count(n));
                assert_eq!(compare(Call::Essence, code.m, &code.h, other), Err(lowest.min(2)), "{faults:?}: {code:?}");
            }
        }
    }
}

/// The faults 1, 2, 3 and 17 of an essence in every choice of them, with either buffer of another length: the lowest is
/// the answer.
#[test]
fn damaged_essences() {
    let mut random = Random::new(1406);
    for (m, n) in draw::signature_shapes() {
        for choice in 0..32_u32 {
            let [width, length, signature_length, stranger, dependent] = [0, 1, 2, 3, 4].map(|i| choice >> i & 1 == 1);
            if stranger && m >= Elem::BITS || length && signature_length {
                continue;
            }
            let mut values = draw::independent(&mut random, m, value_count(n) as u32);
            if dependent {
                // One value becomes the sum of some of the others.
                let (place, some) = (random.below(values.len()), random.below(2 * n as usize));
                values[place] = 0;
                values[place] = draw::chosen(&values, some);
            }
            if stranger {
                let place = random.below(values.len());
                values[place] = random.pick(&draw::strange_entries(m));
            }
            if length {
                values.resize(draw::other_length(&mut random, value_count(n)), 1);
            }
            let room = if signature_length { draw::other_length(&mut random, n as usize) } else { n as usize };
            let given = if width { random.pick(&BAD_WIDTHS) } else { m };
            let found = [(width, 1), (length || signature_length, 2), (stranger, 3), (dependent, 17)];
            let lowest = found.into_iter().find_map(|(fault, number)| fault.then_some(number));
            assert_eq!(compare(Call::Signature, given, &values, room).err(), lowest, "width {m}, {values:?}");
        }
    }
}

#[test]
fn widths_outside_the_table() {
    // Nothing else is wrong; or the result's length is, the list's, or an entry.
    let lists: [(&[Elem], usize); 5] = [(&[1, 2], 2), (&[1, 2], 3), (&[1], 2), (&[1, 65535], 2), (&[0, 1], 2)];
    for (m, call) in BAD_WIDTHS.into_iter().flat_map(|m| CALLS.map(|call| (m, call))) {
        for (list, result_length) in lists {
            assert_eq!(compare(call, m, list, result_length), Err(1), "{call:?}, width {m}, {list:?}");
        }
    }
}

/// Lists that convert but for their length, of every length, into results of every length: a signature of 2^e entries,
/// e from 1 to 9, goes with an essence of e + 1 values, and all else is 2.
#[test]
fn buffers_of_every_length() {
    let mut random = Random::new(1407);
    // Of sixteen bits, so that an essence with more than ten values could be independent and such a signature accepted.
    let h = draw::signature(&mut random, 16, 2048);
    let values = draw::independent(&mut random, 16, 16);
    for n in 0..=1100 {
        for count in 0..=16 {
            let right = (2..=10).contains(&count) && n == 1 << (count - 1);
            let number = (!right).then_some(2);
            assert_eq!(compare(Call::Essence, 16, &h[..n], count).err(), number, "{n} entries, {count} values");
            assert_eq!(compare(Call::Signature, 16, &values[..count], n).err(), number, "{count} values, {n} entries");
        }
    }
    // Lengths that a cut to fewer bits would bring back in.
    for (m, n) in draw::signature_shapes() {
        let h = draw::signature(&mut random, m, n);
        let values = draw::independent(&mut random, m, value_count(n) as u32);
        for further in [256, 512, 1024, 65536] {
            let resized = |list: &[Elem]| [list, &vec![1; further]].concat();
            let (n, count) = (n as usize, value_count(n));
            assert_eq!(compare(Call::Essence, m, &h, count + further), Err(2));
            assert_eq!(compare(Call::Essence, m, &resized(&h), count), Err(2));
            assert_eq!(compare(Call::Signature, m, &values, n + further), Err(2));
            assert_eq!(compare(Call::Signature, m, &resized(&values), n), Err(2));
        }
    }
}

/// The same at every width, with the lengths around the right one.
#[test]
fn buffers_of_other_lengths() {
    let mut random = Random::new(1408);
    for (m, n) in draw::signature_shapes() {
        let h = draw::signature(&mut random, m, n);
        let values = draw::independent(&mut random, m, value_count(n) as u32);
        for length in 0..=12 {
            let number = (length != value_count(n)).then_some(2);
            assert_eq!(compare(Call::Essence, m, &h, length).err(), number, "n {n}, {length} values");
            let cut: Vec<Elem> = values.iter().copied().chain([0; 12]).take(length).collect();
            assert_eq!(compare(Call::Signature, m, &cut, n as usize).err(), number, "{length} values, n {n}");
        }
        for length in [0, 1, 3, n - 1, n + 1, 2 * n, n / 2, 1024].map(|length| length as usize) {
            let cut: Vec<Elem> = h.iter().copied().cycle().take(length).collect();
            assert_eq!(compare(Call::Essence, m, &cut, value_count(n)), Err(2), "{length} entries, n {n}");
            assert_eq!(compare(Call::Signature, m, &values, length), Err(2), "n {n}, {length} entries");
        }
    }
}

/// Lists of any entries and of any elements, at every width and length.
#[test]
fn any_lists_of_every_width_and_length() {
    let mut random = Random::new(1409);
    for (m, n) in widths().flat_map(|m| LENGTHS.map(|n| (m, n))) {
        for round in 0..24 {
            let mut entry = || match round % 3 {
                0 => random.draw() as Elem,
                1 => draw::element(&mut random, m),
                _ => draw::nonzero(&mut random, m),
            };
            let values: Vec<Elem> = (0..value_count(n)).map(|_| entry()).collect();
            let h: Vec<Elem> = (0..n).map(|_| entry()).collect();
            if let Ok(h) = signature_of(m, &values) {
                assert_eq!(essence_of(m, &h), Ok(values), "width {m}");
            }
            if let Ok(values) = essence_of(m, &h) {
                assert_eq!(signature_of(m, &values), Ok(h), "width {m}");
            }
        }
    }
}

/// Random numbers and entries of every kind.
#[test]
fn any_lists_at_all() {
    let mut random = Random::new(1410);
    let mut answers = [[0; 18]; 2];
    for _ in 0..40_000 {
        let m = random.pick(&[0, 1, 2, 3, 4, 5, 6, 7, 8, 9, 12, 15, 16, 17, 33]);
        let small_entries = random.below(8);
        let length = random.pick(&[0, 1, 2, 2, 2, 3, 4, 4, 5, 8]);
        let list: Vec<Elem> = (0..length).map(|_| (random.draw() as Elem) >> (small_entries * 2)).collect();
        let further = if random.below(8) == 0 { random.below(20) } else { 0 };
        let answer = compare(Call::Essence, m, &list, value_count(length) + further);
        answers[0][answer.map_or_else(|number| number as usize, |_| 0)] += 1;
        let answer = compare(Call::Signature, m, &list, (1 << length) / 2 + further);
        answers[1][answer.map_or_else(|number| number as usize, |_| 0)] += 1;
    }
    let given = answers.map(|counts| (0..18).filter(|&number| counts[number] > 10).collect::<Vec<_>>());
    assert_eq!(given, [vec![0, 1, 2, 3, 4, 5, 6], vec![0, 1, 2, 3, 17]], "every answer was among them: {answers:?}");
}

// As `include/zovunelith.h` declares them.
extern "C" {
    fn zov_essence(m: u32, h: *const Elem, h_length: usize, essence: *mut Elem, essence_length: usize) -> i32;
    fn zov_signature(m: u32, essence: *const Elem, essence_length: usize, h: *mut Elem, h_length: usize) -> i32;
}

/// A null pointer with length 0 is a list of a length that neither a signature nor an essence has.
#[test]
fn null_pointers() {
    let lists: [(&[Elem], usize); 6] = [(&[], 0), (&[], 1), (&[], 2), (&[], 16), (&[1], 0), (&[1, 2], 0)];
    for (m, number) in [(5, 2), (16, 2), (1, 1), (17, 1)] {
        for call in CALLS {
            for (list, result_length) in lists {
                assert_eq!(call.expected(m, list, result_length), Err(number));
                let mut result: Lent<Elem> = Lent::marked(result_length);
                let out = result.slice_mut();
                // SAFETY: each pointer goes with the length of its slice, which is 0 for a null pointer.
                let returned = unsafe {
                    match call {
                        Call::Essence => zov_essence(m, pointer(list), list.len(), pointer_mut(out), out.len()),
                        Call::Signature => zov_signature(m, pointer(list), list.len(), pointer_mut(out), out.len()),
                    }
                };
                assert_eq!(returned, -(number as i32), "{call:?}, width {m}, {list:?} into {result_length}");
                result.assert_unchanged();
            }
        }
    }
}
