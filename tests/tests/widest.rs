//! Nothing is cut on the way: every call with the greatest numbers, the longest lists, and elements that fill their
//! bits. A number that went through a byte, or an element through too few bits, would come back as another.

use zovunelith_tests::bits::{ones_at, turned};
use zovunelith_tests::canary::Lent;
use zovunelith_tests::draw;
use zovunelith_tests::expect::{
    comes_back, dash_gives, encoding_gives, message_gives, reading_gives, repair_gives, ride_gives, roles_give,
    syndrome_gives, writing_gives,
};
use zovunelith_tests::library;
use zovunelith_tests::random::Random;
use zovunelith_tests::reference::columns::{Selection, Setting};
use zovunelith_tests::reference::params::Params;
use zovunelith_tests::reference::repair::Decoder;
use zovunelith_tests::reference::ride::{self, Lists, Ridden};
use zovunelith_tests::reference::rows::{self, Row};
use zovunelith_tests::reference::senders::{self, Call, Dash, Given, NONE, TOO_FAR};
use zovunelith_tests::reference::words::Code;
use zovunelith_tests::reference::{block, essence, field, formula, params, sheet};
use zovunelith_tests::Elem;

/// The greatest element of the widest field.
const GREATEST: Elem = Elem::MAX;

/// An element of the widest field that has ones in its upper byte and in its lower one.
fn high(random: &mut Random) -> Elem {
    let byte = |random: &mut Random| 1 + random.below(255) as Elem;
    byte(random) << 8 | byte(random)
}

/// An accepted code of the widest field whose signature has this entry at this place. The multiples of an accepted
/// signature are accepted.
fn code_with_entry(random: &mut Random, n: u32, t: u32, place: usize, entry: Elem) -> Params {
    let params = draw::params(random, 16, n, t);
    let factor = field::times(16, entry, field::reciprocal(16, params.h[place]));
    let h: Vec<Elem> = params.h.iter().map(|&other| field::times(16, other, factor)).collect();
    assert_eq!(h[place], entry);
    Params { h, ..params }
}

/// The first places, the last, and those around the steps of a byte.
const PLACES: [usize; 8] = [0, 1, 127, 128, 255, 256, 510, 511];

/// Compares the check of a code, and its listing.
#[track_caller]
fn compare_card(code: &Params) -> (Vec<Elem>, Vec<Elem>) {
    let expected = params::check(code, code.h.len(), code.h.len()).expect("accepted");
    let (mut roots, mut support) = (Lent::marked(code.h.len()), Lent::marked(code.h.len()));
    assert_eq!(library::params::check(code, roots.slice_mut(), support.slice_mut()), Ok(()), "{code:?}");
    roots.assert_holds(Some(&expected.0));
    support.assert_holds(Some(&expected.1));
    let listing = sheet::listing(&sheet::sheet(code)).expect("accepted");
    let mut out = Lent::marked(listing.len());
    assert_eq!(library::sheet::listing(&sheet::sheet(code), out.slice_mut()), Ok(listing.len()), "{code:?}");
    out.assert_holds(Some(&listing));
    expected
}

#[test]
fn elements() {
    let mut random = Random::new(1301);
    let (top, upper, lower) = (u32::from(GREATEST), 0xFF00, 0x00FF);
    let mut elements = vec![top, upper, lower, 0x8000, 0x0100, 0x0101, 0xFF01, 0x01FF, 0xFEFF, 0xFFFE];
    elements.extend((0..200).map(|_| u32::from(high(&mut random))));
    for &a in &elements {
        assert_eq!(library::field::inverse(16, a), field::inverse(16, a), "inverse of {a}");
        for &b in &elements {
            assert_eq!(library::field::sum(16, a, b), Ok(a ^ b), "{a} plus {b}");
            assert_eq!(library::field::product(16, a, b), field::product(16, a, b), "{a} times {b}");
        }
    }
    assert_eq!(library::field::sum(16, upper, lower), Ok(top));
    assert_eq!(library::field::product(16, 2, 0x8000), Ok(0x100B));
    assert_eq!(library::field::product(16, top, 1), Ok(top));
    let inverse = library::field::inverse(16, top).expect("an element");
    assert_eq!(library::field::product(16, top, inverse), Ok(1));
    assert_eq!(library::field::inverse(16, inverse), Ok(top));
}

#[test]
fn the_greatest_offset() {
    let mut random = Random::new(1302);
    for (n, t) in [(2, 1), (16, 2), (256, 8), (512, 1), (512, 16)] {
        let code = Params { omega: GREATEST.into(), ..draw::params(&mut random, 16, n, t) };
        let (roots, support) = compare_card(&code);
        // The first element of the support is the offset itself, and the first root is apart from it by 1/h_0.
        assert_eq!((support[0], roots[0]), (GREATEST, GREATEST ^ field::reciprocal(16, code.h[0])));
        let whole = Code::new(&code);
        let sent = whole.encode(&random.bits(whole.k()));
        comes_back(&code, &sent, &random.places(n as usize, t as usize));
        let beyond = Params { omega: 65536, ..code };
        assert_eq!(params::judge(&beyond, &[]), Err(3));
        repair_gives(&beyond, &sent, Lent::marked(n as usize), &Err(3));
    }
}

#[test]
fn the_greatest_entry() {
    let mut random = Random::new(1303);
    for (n, t) in [(2, 1), (16, 4), (512, 2)] {
        let place = n as usize - 1;
        let code = code_with_entry(&mut random, n, t, place, GREATEST);
        compare_card(&code);
        let printed = String::from_utf8(sheet::sheet(&code)).expect("plain text");
        assert!(printed.ends_with(" 65535\n"));
        // On a sheet the next number is none, as is one that ends in it or begins with it.
        for other in [" 65536", "165535", "655350", "065535"] {
            let printed = printed[..printed.len() - 7].to_string() + other + "\n";
            let mut out = Lent::marked(library::sheet::LONGEST);
            assert_eq!(library::sheet::listing(printed.as_bytes(), out.slice_mut()), Err(13), "{other}");
            out.assert_unchanged();
        }
        // The entry stands in the first sum of a word with a single 1 at its place.
        let word = ones_at(n as usize, &[place]);
        let column: Vec<Elem> = (0..t as usize).map(|i| code.h[i ^ place]).collect();
        assert_eq!(column[0], GREATEST);
        syndrome_gives(&code, &word, t as usize, &Ok(column));
        comes_back(&code, &vec![0; n as usize], &[place]);
    }
}

/// Codes that differ in the upper byte alone, of the offset or of an entry.
#[test]
fn codes_that_differ_in_the_upper_byte() {
    let mut random = Random::new(1304);
    for bit in 8..16 {
        let one = draw::params(&mut random, 16, 512, 1);
        let other = Params { omega: one.omega ^ 1 << bit, ..one.clone() };
        assert_eq!(library::params::same(&one, &other), Ok(false));
        assert_eq!(library::params::same(&other, &other), Ok(true));
        // At n = 2 any two entries will do that differ and are not zero.
        let two = |first: Elem, second: Elem| Params::new(16, 1, 0, vec![first, second]);
        assert_eq!(library::params::same(&two(1, 2), &two(1, 2 ^ 1 << bit)), Ok(false));
        assert_eq!(library::params::check(&two(2, 2 ^ 1 << bit), &mut [0; 2], &mut [0; 2]), Ok(()));
    }
}

/// Compares both conversions of an essence of the widest field.
#[track_caller]
fn compare_essence(values: &[Elem]) -> Vec<Elem> {
    let n = 1 << (values.len() - 1);
    let expected = essence::signature(16, values, n).expect("independent");
    let mut h = Lent::marked(n);
    assert_eq!(library::essence::signature(16, values, h.slice_mut()), Ok(()), "{values:?}");
    h.assert_holds(Some(&expected));
    let mut back = Lent::marked(values.len());
    assert_eq!(library::essence::essence(16, &expected, back.slice_mut()), Ok(()), "{values:?}");
    back.assert_holds(Some(values));
    expected
}

/// The longest essences with the greatest value and the greatest entry at every place.
#[test]
fn the_greatest_value() {
    let mut random = Random::new(1312);
    for place in 0..10 {
        let mut values = vec![GREATEST];
        while values.len() < 10 {
            values.push(draw::outside(&mut random, 16, &values));
        }
        values.swap(0, place);
        compare_essence(&values);
    }
    for place in PLACES {
        let code = code_with_entry(&mut random, 512, 1, place, GREATEST);
        let values = essence::essence(16, &code.h, 10).expect("accepted");
        assert_eq!(compare_essence(&values), code.h);
    }
}

/// Values that without the upper byte would be equal, be zero or sum to zero, and some that do sum to zero with it.
#[test]
fn essences_that_need_the_upper_byte() {
    let mut random = Random::new(1313);
    for bit in 8..16 {
        let value = high(&mut random);
        compare_essence(&[value, value ^ 1 << bit]);
        compare_essence(&[1 << bit, value | 1]);
    }
    compare_essence(&(6..16).map(|bit| 1 << bit).collect::<Vec<Elem>>());
    compare_essence(&[0x0101, 0x0202, 0x0403]);
    for values in [[0x8000, 0x7FFF, GREATEST], [0xFF00, 0x00FF, GREATEST], [0x0101, 0x0302, 0x0203]] {
        assert_eq!(essence::signature(16, &values, 4), Err(17));
        let mut h = Lent::marked(4);
        assert_eq!(library::essence::signature(16, &values, h.slice_mut()), Err(17), "{values:?}");
        h.assert_unchanged();
    }
}

/// Words of 512 places, of which up to 502 are message columns, or none.
#[test]
fn the_longest_words() {
    let mut random = Random::new(1305);
    for (m, t) in [(10, 1), (16, 1), (16, 2), (10, 32), (16, 16), (16, 256)] {
        let code = Code::new(&draw::params(&mut random, m, 512, t));
        let (params, k) = (&code.params, code.k());
        compare_card(params);
        roles_give(params, 512, &Ok((code.roles.clone(), k as u32)));
        for message in [random.bits(k), vec![1; k]] {
            let sent = code.encode(&message);
            encoding_gives(params, &message, 512, &Ok(sent.clone()));
            message_gives(params, &sent, k, &Ok(message));
            for place in [255, 256, 511] {
                comes_back(params, &sent, &[place]);
            }
        }
        for place in PLACES {
            let column = (0..t as usize).map(|i| params.h[i ^ place]).collect();
            syndrome_gives(params, &ones_at(512, &[place]), t as usize, &Ok(column));
        }
    }
}

/// Compares every call on words over a selection of the longest code.
#[track_caller]
fn compare_selection(random: &mut Random, selection: &Selection) {
    let (code, length) = (selection.code(), selection.places());
    let t = code.params.t as usize;
    roles_give(selection, length, &Ok((code.roles.clone(), code.k() as u32)));
    let message = random.bits(code.k());
    let sent = code.encode(&message);
    encoding_gives(selection, &message, length, &Ok(sent.clone()));
    message_gives(selection, &sent, code.k(), &Ok(message));
    for place in [0, length / 2, length - 1] {
        let word = ones_at(length, &[place]);
        syndrome_gives(selection, &word, t, &Ok(code.syndrome(&word)));
        comes_back(selection, &sent, &[place]);
    }
}

/// Selections that name the last block of 512 columns, at the front and at the end, with every shift that there is.
#[test]
fn the_last_blocks() {
    let mut random = Random::new(1306);
    for t in [1, 2, 4] {
        let params = draw::params(&mut random, 16, 512, t);
        let last = 512 / t - 1;
        for shift in 0..t {
            let blocks = [last, 0, last / 2, last / 2 + 1, last - 1];
            for blocks in [blocks.to_vec(), blocks.iter().rev().copied().collect(), (0..=last).rev().collect()] {
                let shifts = vec![shift; blocks.len()];
                let selection = Selection::new(&params, &blocks, &shifts);
                let columns = selection.columns();
                assert!(columns.contains(&511) && columns.contains(&0));
                compare_selection(&mut random, &selection);
            }
        }
        // One more block is none; cut to fewer bits it would be the first.
        for beyond in [last + 1, last + 2, 512, 65536, 65536 + last] {
            let selection = Selection::new(&params, &[beyond], &[0]);
            assert_eq!(selection.judge(None).err(), Some(14));
            roles_give(&selection, t as usize, &Err(14));
        }
    }
}

/// With 256 columns to a block the last shift is 255.
#[test]
fn the_greatest_shift() {
    let mut random = Random::new(1307);
    let params = draw::params(&mut random, 16, 512, 256);
    for (blocks, shifts) in [(&[1][..], &[255][..]), (&[1, 0], &[255, 254]), (&[0, 1], &[128, 255])] {
        compare_selection(&mut random, &Selection::new(&params, blocks, shifts));
    }
    for shift in [256, 257, 511, 512, 65536 + 255] {
        let selection = Selection::new(&params, &[1], &[shift]);
        roles_give(&selection, 256, &Err(15));
    }
}

#[test]
fn the_longest_blocks() {
    let mut random = Random::new(1308);
    let all = vec![GREATEST; 512];
    let drawn: Vec<Elem> = (0..512).map(|_| high(&mut random)).collect();
    // All but one equal, so that the sum isn't zero.
    let mut live = all.clone();
    live[511] = 0xFF00;
    let mut other = drawn.clone();
    other[0] ^= drawn.iter().fold(1, |sum, entry| sum ^ entry);
    for (a, b) in [(&all, &all), (&all, &drawn), (&drawn, &live), (&live, &all), (&live, &other), (&other, &other)] {
        let mut out = Lent::marked(512);
        assert_eq!(library::block::sum(16, a, b, out.slice_mut()), Ok(()));
        out.assert_holds(block::sum(16, a, b, 512).as_deref().ok());
        let mut out = Lent::marked(512);
        assert_eq!(library::block::product(16, a, b, out.slice_mut()), Ok(()));
        out.assert_holds(block::product(16, a, b, 512).as_deref().ok());
    }
    for a in [&live, &other] {
        let mut out = Lent::marked(512);
        assert_eq!(library::block::inverse(16, a, out.slice_mut()), Ok(()));
        out.assert_holds(block::inverse(16, a, 512).as_deref().ok());
    }
    // An even number of equal elements has the sum zero.
    assert_eq!(block::inverse(16, &all, 512), Err(9));
    let mut out = Lent::marked(512);
    assert_eq!(library::block::inverse(16, &all, out.slice_mut()), Err(9));
    out.assert_unchanged();
}

#[test]
fn formulas_of_the_longest_blocks() {
    let mut random = Random::new(1309);
    let [a, b] = [(); 2].map(|()| (0..512).map(|_| high(&mut random)).collect::<Vec<Elem>>());
    let blocks = [&a[..], &b, &draw::live_block(&mut random, 16, 512), &[GREATEST; 512]];
    for text in ["A", "A+B", "A*B+D", "(A+B)*C'", "A/C+D*B"] {
        let expected = formula::formula(16, text.as_bytes(), blocks, 512);
        let mut out = Lent::marked(512);
        assert_eq!(library::block::formula(16, text.as_bytes(), blocks, out.slice_mut()), Ok(()), "{text}");
        out.assert_holds(expected.as_deref().ok());
    }
    let mut out = Lent::marked(512);
    assert_eq!(library::block::formula(16, b"A/D", blocks, out.slice_mut()), Err(9));
    out.assert_unchanged();
}

/// With 256 rows only the zero word is a code word: up to 256 ones are taken away, and their number is told.
#[test]
fn the_greatest_count() {
    let mut random = Random::new(1310);
    for m in [10, 16] {
        let params = draw::params(&mut random, m, 512, 256);
        for count in [255, 256] {
            comes_back(&params, &[0; 512], &random.places(512, count));
        }
        for count in [257, 511, 512] {
            let received = ones_at(512, &random.places(512, count));
            repair_gives(&params, &received, Lent::marked(512), &Err(10));
        }
    }
    let params = draw::params(&mut random, 16, 256, 128);
    comes_back(&params, &[0; 256], &random.places(256, 128));
}

/// The most turned places of a row, read and ridden.
#[test]
fn rows_with_many_turned_places() {
    let mut random = Random::new(1311);
    let code = Code::new(&draw::params(&mut random, 10, 512, 32));
    let (params, row) = (code.params.clone(), Row { gear: 7, lamp: 2 });
    let sent = code.encode(&rows::message(row, code.k()));
    writing_gives(&params, row.gear, row.lamp, 512, &Ok(sent.clone()));
    // The last places are among them, and in the last step one too many.
    let mut lists = Lists::default();
    for count in [0, 31, 32, 33] {
        let places: Vec<usize> = (512 - count..512).collect();
        if count <= 32 {
            let read = (row, sent.clone(), count as u32);
            reading_gives(&params, &turned(&sent, &places), Lent::marked(512), &Ok(read));
        }
        lists.push(7, 2, &ones_at(512, &places));
    }
    let expected = ride::ride_steps(&Decoder::new(code), &lists);
    let Ridden { answer: Ok(()), counts: Some([4, 3, _, _]) } = expected else {
        panic!("{expected:?} has other counts");
    };
    ride_gives(&params, &lists, Lent::marked(ride::COUNTS), &expected);
}

/// Eight senders of the longest words, with the greatest counts: all in one round, and one after the other, the turn
/// beginning at the last sender.
#[test]
fn eight_senders_of_the_longest_words() {
    let mut random = Random::new(1314);
    for (m, t) in [(10, 32), (16, 1), (16, 4), (16, 256)] {
        let decoder = Decoder::new(Code::new(&draw::params(&mut random, m, 512, t)));
        let (code, t) = (&decoder.code, t as usize);
        let sent = code.encode(&random.bits(code.k()));
        let given = |repairs: u32| Given { params: code.params.clone(), senders: 8, repairs };
        let compare = |given: &Given, call: &Call, dash: &Dash| {
            let expected = senders::made_on(&decoder, given, call, dash);
            dash_gives(given, call, dash, &expected);
            expected.expect("not refused")
        };
        let mut dash = Dash {
            waiting: vec![0; 8],
            words: vec![7; 8 * 512],
            next: vec![7],
            answers: vec![7; 8],
            handed: vec![7; 8 * 512],
        };
        // The word of sender 2 is a code word. In the others t of the last places are turned, or one less.
        let count = |sender: usize| if sender == 2 { 0 } else { t - sender % t.min(2) };
        for sender in 0..8 {
            let word = turned(&sent, &(512 - count(sender)..512).collect::<Vec<usize>>());
            dash = compare(&given(1), &Call::Offer { sender: sender as u32, word }, &dash);
        }
        let all = compare(&given(8), &Call::Round, &dash);
        let answers = (0..8).map(|sender| count(sender) as i32).collect();
        assert_eq!((all.answers, all.handed, all.next), (answers, sent.repeat(8), vec![7]));
        // The turn after 7 is that of 0 and 1, and then that of 3, since 2 has left.
        for sender in [7, 0, 1, 3, 4, 5, 6] {
            let first = sender == 7;
            dash = compare(&given(1), &Call::Round, &dash);
            let answer = |other: usize| if other == sender || first && other == 2 { count(other) as i32 } else { NONE };
            assert_eq!(dash.answers, (0..8).map(answer).collect::<Vec<i32>>());
        }
        assert_eq!((&dash.waiting, &dash.handed, &dash.next), (&vec![0; 8], &sent.repeat(8), &vec![7]));
        // One place more than is repaired: with 256 rows only the zero word is a code word.
        let word = turned(&sent, &(0..=t).collect::<Vec<usize>>());
        dash = compare(&given(1), &Call::Offer { sender: 7, word }, &dash);
        let answer = compare(&given(1), &Call::Round, &dash).answers[7];
        assert!(t < 256 || answer == TOO_FAR, "{answer}");
    }
}
