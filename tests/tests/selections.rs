//! Every call on words over a selection of a code's blocks, against the second implementation over the chosen columns.

use zovunelith_tests::bits::{bits, ones_at, turned, BAD_BYTES};
use zovunelith_tests::calls::{compare_all, compare_received, Call, Input};
use zovunelith_tests::canary::Lent;
use zovunelith_tests::draw;
use zovunelith_tests::expect::{
    comes_back, encoding_gives, message_gives, reading_gives, repair_gives, roles_give, syndrome_gives, writing_gives,
};
use zovunelith_tests::faults::{no_rows, too_great, Fault, Intact, OF_INPUT, OF_LISTS};
use zovunelith_tests::library;
use zovunelith_tests::random::Random;
use zovunelith_tests::reference::columns::{block_count, Selection, Setting};
use zovunelith_tests::reference::params::{code_a, code_t, Params};
use zovunelith_tests::reference::repair::Decoder;
use zovunelith_tests::reference::rows::{self, Row};
use zovunelith_tests::reference::words;
use zovunelith_tests::Elem;

#[test]
fn cases() {
    // The columns 4, 7 and 3 of code A, the last being the sum of the others.
    let three = Selection::new(&code_a(), &[3, 0, 2], &[0, 0, 0]);
    roles_give(&three, 3, &Ok((vec![0, 0, 1], 1)));
    encoding_gives(&three, &[1], 3, &Ok(vec![1, 1, 1]));
    message_gives(&three, &[1, 0, 1], 1, &Ok(vec![1]));
    syndrome_gives(&three, &[1, 1, 0], 1, &Ok(vec![3]));
    comes_back(&three, &[1, 1, 1], &[1]);
    // Code T's columns 10 and 11, then 1 and 0.
    let two = Selection::new(&code_t(), &[5, 0], &[0, 1]);
    syndrome_gives(&two, &[0, 0, 1, 0], 2, &Ok(vec![8, 12]));
    syndrome_gives(&two, &[1, 0, 0, 1], 2, &Ok(vec![17 ^ 12, 4 ^ 8]));
    roles_give(&two, 4, &Ok((vec![0; 4], 0)));
    writing_gives(&two, 1, 0, 4, &Err(12));
}

/// Seven blocks of code T, as in the documentation of the Rust crate, and all eight, in another order and with shifts.
#[test]
fn seven_and_eight_blocks() {
    let seven = Selection::new(&code_t(), &[6, 0, 3, 5, 1, 7, 2], &[1, 0, 0, 1, 0, 1, 0]);
    let sent = vec![0, 1, 0, 0, 1, 1, 1, 0, 1, 0, 1, 1, 1, 1];
    assert_eq!(seven.code().encode(&[1, 0, 1, 1]), sent);
    roles_give(&seven, 14, &Ok((ones_at(14, &[8, 9, 12, 13]), 4)));
    encoding_gives(&seven, &[1, 0, 1, 1], 14, &Ok(sent.clone()));
    message_gives(&seven, &sent, 4, &Ok(vec![1, 0, 1, 1]));
    for one in 0..14 {
        comes_back(&seven, &sent, &[one]);
        (0..one).for_each(|other| comes_back(&seven, &sent, &[other, one]));
    }
    // Rows need all eight.
    writing_gives(&seven, 1, 0, 14, &Err(12));
    let eight = Selection::new(&code_t(), &[6, 0, 3, 5, 1, 7, 2, 4], &[1, 0, 0, 1, 0, 1, 0, 1]);
    let first_dark = ones_at(16, &[1, 4, 5, 7, 8]);
    writing_gives(&eight, 1, 0, 16, &Ok(first_dark.clone()));
    let read = (Row { gear: 1, lamp: 0 }, first_dark.clone(), 2);
    reading_gives(&eight, &turned(&first_dark, &[0, 8]), Lent::marked(16), &Ok(read));
}

/// Some blocks of codes of every shape.
#[test]
fn selections_of_every_shape() {
    let mut random = Random::new(920);
    for (m, n, t) in draw::shapes() {
        let params = draw::params(&mut random, m, n, t);
        let count = 1 + random.below(block_count(&params));
        let selection = draw::selection(&mut random, &params, count);
        compare_all(&mut random, &selection, &Decoder::new(selection.code()));
    }
}

/// Every number of blocks, or over large fields some.
#[test]
fn selections_of_every_length() {
    let mut random = Random::new(901);
    for shape @ (m, n, t) in draw::fewer_shapes() {
        for _ in 0..draw::rounds(shape, 6) {
            let params = draw::params(&mut random, m, n, t);
            for count in draw::every_place(&mut random, shape, block_count(&params)) {
                let selection = draw::selection(&mut random, &params, count + 1);
                compare_all(&mut random, &selection, &Decoder::new(selection.code()));
            }
        }
    }
}

/// All blocks in reversed order, with one shift for all of them: each that there is, or some where there are many.
#[test]
fn reversed_blocks_with_every_shift() {
    let mut random = Random::new(902);
    for shape @ (m, n, t) in draw::fewer_shapes() {
        let mut selection = Selection::all(&draw::params(&mut random, m, n, t));
        selection.blocks.reverse();
        let shifts = draw::places_to_try(&mut random, shape, t as usize);
        for shift in draw::all_or_some(&mut random, shape, &shifts) {
            selection.shifts.fill(shift as u32);
            compare_all(&mut random, &selection, &Decoder::new(selection.code()));
        }
    }
}

/// All blocks in their order, with no shifts, are the whole code: both give what the second implementation gives for
/// the whole code.
#[test]
fn all_blocks_are_the_whole_code() {
    let mut random = Random::new(903);
    for shape @ (m, n, t) in draw::fewer_shapes() {
        let params = draw::params(&mut random, m, n, t);
        let decoder = Decoder::new(words::Code::new(&params));
        let all = Selection::all(&params);
        for _ in 0..draw::rounds(shape, 4) {
            compare_all(&mut random, &params, &decoder);
            compare_all(&mut random, &all, &decoder);
        }
    }
}

/// Each block for itself with every shift, or over large fields some. Its columns are a matrix with an inverse, so that
/// it has no message columns, and every word is repaired to zero.
#[test]
fn single_blocks() {
    let mut random = Random::new(904);
    for shape @ (m, n, t) in draw::fewer_shapes() {
        let (params, length) = (draw::params(&mut random, m, n, t), t as usize);
        for block in draw::every_place(&mut random, shape, block_count(&params)) {
            for shift in draw::every_place(&mut random, shape, length) {
                let single = Selection::new(&params, &[block as u32], &[shift as u32]);
                roles_give(&single, length, &Ok((vec![0; length], 0)));
                encoding_gives(&single, &[], length, &Ok(vec![0; length]));
                message_gives(&single, &random.bits(length), 0, &Ok(vec![]));
                let weight = random.below(length + 1);
                comes_back(&single, &vec![0; length], &random.places(length, weight));
                writing_gives(&single, 0, 0, length, &Err(12));
                reading_gives(&single, &vec![0; length], Lent::marked(length), &Err(12));
            }
        }
    }
}

/// The definition by its own words: place b·t + r is column blocks_b·t + (r ⊕ shifts_b), whose entry i is the signature
/// at i ⊕ that column.
#[test]
fn syndromes_of_single_places() {
    let mut random = Random::new(905);
    for shape @ (m, n, t) in draw::fewer_shapes() {
        let params = draw::params(&mut random, m, n, t);
        for count in [1 + random.below(block_count(&params)), block_count(&params)] {
            let selection = draw::selection(&mut random, &params, count);
            for place in draw::every_place(&mut random, shape, selection.places()) {
                let (b, r) = (place / t as usize, place as u32 % t);
                let column = selection.blocks[b] * t + (r ^ selection.shifts[b]);
                let entries: Vec<Elem> = (0..t).map(|i| params.h[(i ^ column) as usize]).collect();
                let word = ones_at(selection.places(), &[place]);
                syndrome_gives(&selection, &word, t as usize, &Ok(entries));
            }
        }
    }
}

/// A word over a selection is a word of the whole code that is zero elsewhere: the library gives both one syndrome, and
/// what it encodes over the selection is a code word of the whole code.
#[test]
fn words_within_the_whole_code() {
    let mut random = Random::new(906);
    for shape @ (m, n, t) in draw::fewer_shapes() {
        let params = draw::params(&mut random, m, n, t);
        for _ in 0..draw::rounds(shape, 4) {
            let count = 1 + random.below(block_count(&params));
            let selection = draw::selection(&mut random, &params, count);
            let mut sent = vec![0; selection.places()];
            let k = library::words::roles(&selection, &mut sent).expect("accepted") as usize;
            library::words::encode(&selection, &random.bits(k), &mut sent).expect("a message");
            for (word, is_code_word) in [(sent, true), (random.bits(selection.places()), false)] {
                let mut syndrome = vec![0; t as usize];
                library::words::syndrome(&selection, &word, &mut syndrome).expect("a word");
                assert!(!is_code_word || syndrome.iter().all(|&sum| sum == 0), "{selection:?}");
                let mut whole = vec![0; n as usize];
                selection.columns().into_iter().zip(word).for_each(|(column, bit)| whole[column] = bit);
                syndrome_gives(&params, &whole, t as usize, &Ok(syndrome));
            }
        }
    }
}

/// Every selection there is of a code: its blocks in every order and number, with every shift.
fn all_selections(params: &Params) -> Vec<Selection> {
    let mut all = vec![Selection::new(params, &[], &[])];
    let mut next = 0;
    while next < all.len() {
        let shorter = all[next].clone();
        let unused = (0..params.n / params.t).filter(|block| !shorter.blocks.contains(block));
        for (block, shift) in unused.flat_map(|block| (0..params.t).map(move |shift| (block, shift))) {
            let [blocks, shifts] =
                [(&shorter.blocks, block), (&shorter.shifts, shift)].map(|(list, last)| [&list[..], &[last]].concat());
            all.push(Selection::new(params, &blocks, &shifts));
        }
        next += 1;
    }
    all.split_off(1)
}

/// Every word over every selection of small codes.
#[test]
fn all_selections_of_small_codes() {
    let mut random = Random::new(907);
    for (m, n, t, count) in [
        (2, 2, 1, 4),
        (3, 4, 1, 64),
        (3, 4, 2, 12),
        (4, 8, 2, 632),
        (4, 8, 4, 40),
        (8, 4, 1, 64),
        (8, 8, 2, 632),
        (8, 8, 4, 40),
        (16, 4, 1, 64),
        (16, 8, 4, 40),
    ] {
        let selections = all_selections(&draw::params(&mut random, m, n, t));
        assert_eq!(selections.len(), count, "{m}, {n}, {t}");
        for selection in selections {
            let decoder = Decoder::new(selection.code());
            compare_all(&mut random, &selection, &decoder);
            for number in 0..1 << selection.places() {
                compare_received(&selection, &decoder, &bits(number, selection.places())).ok();
            }
        }
    }
}

/// Words over up to 16 places with every number of places turned, against the search through all code words or all
/// choices of places.
#[test]
fn turned_places_of_every_number() {
    let mut random = Random::new(908);
    let (mut repaired, mut too_far) = (0, 0);
    for shape @ (m, n, t) in draw::fewer_shapes().into_iter().filter(|shape| shape.2 <= 8) {
        let params = draw::params(&mut random, m, n, t);
        let counts: Vec<usize> = (1..=block_count(&params).min(16 / t as usize)).collect();
        for count in draw::all_or_some(&mut random, shape, &counts) {
            let selection = draw::selection(&mut random, &params, count);
            let decoder = Decoder::new(selection.code());
            for weight in 0..=selection.places() {
                let sent = decoder.code.encode(&random.bits(decoder.code.k()));
                let received = turned(&sent, &random.places(selection.places(), weight));
                match compare_received(&selection, &decoder, &received) {
                    Ok(_) => repaired += 1,
                    Err(_) => too_far += 1,
                }
            }
        }
    }
    assert!(repaired > 1000 && too_far > 1000, "{repaired} repaired, {too_far} too far");
}

/// Every row with every number of turned places up to t, or over large fields some, in selections that are wide enough;
/// and messages that are no rows.
#[test]
fn rows_over_wide_selections() {
    let mut random = Random::new(909);
    let mut wide = 0;
    for shape @ (m, n, t) in draw::fewer_shapes() {
        let params = draw::params(&mut random, m, n, t);
        let count = enough_blocks(&params);
        for count in [count, (count + block_count(&params)) / 2] {
            let selection = draw::selection(&mut random, &params, count);
            let decoder = Decoder::new(selection.code());
            let (code, length) = (&decoder.code, selection.places());
            if code.k() < rows::BITS {
                continue;
            }
            wide += 1;
            for row in draw::all_or_some(&mut random, shape, &rows::rows()) {
                let sent = code.encode(&rows::message(row, code.k()));
                writing_gives(&selection, row.gear, row.lamp, length, &Ok(sent.clone()));
                for weight in draw::every_place(&mut random, shape, t as usize + 1) {
                    let received = turned(&sent, &random.places(length, weight));
                    let expected = Ok((row, sent.clone(), weight as u32));
                    reading_gives(&selection, &received, Lent::marked(length), &expected);
                }
            }
            for (gear, lamp) in [(1, 1), (6, 1), (0, 3), (8, 0), (256, 2), (0, 256), (u32::MAX, u32::MAX)] {
                writing_gives(&selection, gear, lamp, length, &Err(11));
            }
            for message in no_rows(code.k()) {
                let weight = random.below(t as usize + 1);
                let received = turned(&code.encode(&message), &random.places(length, weight));
                reading_gives(&selection, &received, Lent::marked(length), &Err(11));
            }
        }
    }
    assert!(wide >= 70, "only {wide} selections were wide enough");
}

/// So many blocks that there are five message columns, or all where that needs more: the rank is at most m·t.
fn enough_blocks(params: &Params) -> usize {
    let places = params.m * params.t + rows::BITS as u32;
    block_count(params).min(places.div_ceil(params.t) as usize)
}

/// What the calls give does not depend on the offset.
#[test]
fn every_offset() {
    let mut random = Random::new(910);
    for (m, n, t, count) in [
        (3, 4, 1, 3),
        (4, 8, 2, 3),
        (5, 16, 2, 7),
        (6, 32, 2, 10),
        (8, 64, 4, 11),
        (9, 256, 16, 11),
        (12, 32, 2, 15),
        (16, 512, 8, 20),
    ] {
        let params = draw::params(&mut random, m, n, t);
        let mut selection = draw::selection(&mut random, &params, count);
        let decoder = Decoder::new(selection.code());
        for omega in draw::offsets(&mut random, m) {
            selection.params.omega = omega;
            compare_all(&mut random, &selection, &decoder);
        }
    }
}

/// A buffer's earlier contents have no part in what is written, bits or not.
#[test]
fn buffers_with_other_contents() {
    let mut random = Random::new(911);
    for shape @ (m, n, t) in draw::fewer_shapes() {
        let params = draw::params(&mut random, m, n, t);
        let selection = draw::selection(&mut random, &params, enough_blocks(&params));
        let decoder = Decoder::new(selection.code());
        let (code, length) = (&decoder.code, selection.places());
        let message = random.bits(code.k());
        let sent = code.encode(&message);
        let received = turned(&sent, &random.places(length, t as usize));
        let contents = [random.bits(length), sent.clone(), received.clone(), vec![0; length], vec![255; length]];
        for contents in &draw::all_or_some(&mut random, shape, &contents) {
            let mut lent = Lent::holding(contents);
            assert_eq!(library::words::roles(&selection, lent.slice_mut()), Ok(code.k() as u32));
            lent.assert_holds(Some(&code.roles));
            let mut lent = Lent::holding(contents);
            assert_eq!(library::words::encode(&selection, &message, lent.slice_mut()), Ok(()));
            lent.assert_holds(Some(&sent));
            let mut lent = Lent::holding(&contents[..code.k()]);
            assert_eq!(library::words::message(&selection, &received, lent.slice_mut()), Ok(()));
            lent.assert_holds(Some(&code.message(&received)));
            repair_gives(&selection, &received, Lent::holding(contents), &Ok((sent.clone(), t)));
            let read = rows::read_word(&decoder, &received);
            reading_gives(&selection, &received, Lent::holding(contents), &read);
        }
    }
}

/// A selection of some blocks of a code of fewer shapes, and one of all its blocks, with faultless input for each; over
/// large fields one of the two.
fn selections_with_input(random: &mut Random) -> Vec<(Selection, Input)> {
    let mut drawn = Vec::new();
    for shape @ (m, n, t) in draw::fewer_shapes() {
        let params = draw::params(random, m, n, t);
        let counts = [1 + random.below(block_count(&params)), block_count(&params)];
        for count in draw::all_or_some(random, shape, &counts) {
            let selection = draw::selection(random, &params, count);
            let input = Input::new(random, &Decoder::new(selection.code()));
            drawn.push((selection, input));
        }
    }
    drawn
}

/// A block of n/t or more at any place is 14.
#[test]
fn blocks_beyond_the_last() {
    let mut random = Random::new(912);
    for (selection, input) in selections_with_input(&mut random) {
        for place in draw::places_to_try(&mut random, selection.params.shape(), selection.blocks.len()) {
            let blocks = too_great(block_count(&selection.params) as u32, selection.blocks[place]);
            for block in draw::all_or_some(&mut random, selection.params.shape(), &blocks) {
                let mut damaged = selection.clone();
                damaged.blocks[place] = block;
                input.is_refused_by_all(&damaged, 14);
            }
        }
    }
}

/// A block that stands at any two places is 14, whatever its shifts are.
#[test]
fn blocks_named_twice() {
    let mut random = Random::new(913);
    for (selection, input) in selections_with_input(&mut random) {
        let places = draw::places_to_try(&mut random, selection.params.shape(), selection.blocks.len());
        for (index, &one) in places.iter().enumerate() {
            for &other in &places[..index] {
                let mut damaged = selection.clone();
                damaged.blocks[one] = selection.blocks[other];
                input.is_refused_by_all(&damaged, 14);
            }
        }
    }
}

/// A shift of t or more at any place is 15.
#[test]
fn shifts_of_t_or_more() {
    let mut random = Random::new(914);
    for (selection, input) in selections_with_input(&mut random) {
        for place in draw::places_to_try(&mut random, selection.params.shape(), selection.shifts.len()) {
            let shifts = too_great(selection.params.t, selection.shifts[place]);
            for shift in draw::all_or_some(&mut random, selection.params.shape(), &shifts) {
                let mut damaged = selection.clone();
                damaged.shifts[place] = shift;
                input.is_refused_by_all(&damaged, 15);
            }
        }
    }
}

/// No blocks, and more than there are, are 2, though shifts and words go with their number; so is another number of
/// shifts than of blocks.
#[test]
fn lists_of_other_lengths() {
    let mut random = Random::new(915);
    for (selection, input) in selections_with_input(&mut random) {
        let (count, most, t) = (selection.blocks.len(), block_count(&selection.params), selection.params.t as usize);
        let lengths = [most + 1, most + 2, 2 * most, 256 + count, 512 + count, 65536 + count];
        // Too many blocks, but not so many that their words would be very long.
        let too_many = lengths.into_iter().filter(|&length| length > most && length * t < 70_000);
        for length in too_many.chain([0]) {
            let (mut damaged, mut input) = (selection.clone(), input.clone());
            damaged.blocks.resize(length, 0);
            damaged.shifts.resize(length, 0);
            damaged.hidden.resize(damaged.places(), 0);
            input.resize(damaged.places());
            input.is_refused_by_all(&damaged, 2);
        }
        for length in [0, count - 1, count + 1, most, 2 * count, 256 + count, 65536 + count] {
            let mut damaged = selection.clone();
            damaged.shifts.resize(length, 0);
            if length != count {
                input.is_refused_by_all(&damaged, 2);
            }
        }
    }
}

/// A word of another length than ℓ·t is 2, of n bytes as well; where a call has two words, each of them.
#[test]
fn words_of_other_lengths() {
    let mut random = Random::new(916);
    for (selection, input) in selections_with_input(&mut random) {
        let (right, t, n) = (selection.places(), selection.params.t as usize, selection.params.n as usize);
        let lengths = [0, right - t, right - 1, right + 1, right + t, 2 * right, n, 256 + right, 65536 + right];
        for length in lengths.into_iter().filter(|&length| length != right) {
            let mut both = input.clone();
            both.resize(length);
            both.is_refused_by_all(&selection, 2);
            let received = Input { repaired_length: right, ..both };
            let repaired = Input { repaired_length: length, ..input.clone() };
            for (call, input) in [
                (Call::Repair, &received),
                (Call::Repair, &repaired),
                (Call::ReadRow, &received),
                (Call::ReadRow, &repaired),
            ] {
                assert_eq!(input.number(call, &selection), Some(2));
                input.is_refused(call, &selection, 2);
            }
        }
        for length in [0, t - 1, t + 1, right, n, 256 + t, 65536 + t].into_iter().filter(|&length| length != t) {
            let input = Input { syndrome_length: length, ..input.clone() };
            assert_eq!(input.number(Call::Syndrome, &selection), Some(2));
            input.is_refused(Call::Syndrome, &selection, 2);
        }
    }
}

/// A message of another length than the selection's own k is 2, of the whole code's k as well.
#[test]
fn messages_of_other_lengths() {
    let mut random = Random::new(917);
    for (selection, input) in selections_with_input(&mut random) {
        let (right, whole) = (input.message.len(), words::Code::new(&selection.params).k());
        let lengths = draw::other_lengths(right).into_iter().chain([whole, selection.places()]);
        for length in lengths.filter(|&length| length != right) {
            let input = Input { message: random.bits(length), ..input.clone() };
            for call in [Call::Encode, Call::Message] {
                assert_eq!(input.number(call, &selection), Some(2));
                input.is_refused(call, &selection, 2);
            }
        }
    }
}

/// A byte other than 0 or 1 at any place of a word or a message is 8, but where reading a row is refused by 12.
#[test]
fn bytes_that_are_no_bits() {
    let mut random = Random::new(918);
    for (selection, input) in selections_with_input(&mut random) {
        for place in draw::places_to_try(&mut random, selection.params.shape(), input.word.len()) {
            let mut damaged = input.clone();
            damaged.word[place] = random.pick(&BAD_BYTES);
            for call in [Call::Syndrome, Call::Message, Call::Repair] {
                damaged.is_refused(call, &selection, 8);
            }
            let number = if input.message.len() < rows::BITS { 12 } else { 8 };
            damaged.is_refused(Call::ReadRow, &selection, number);
        }
        for place in draw::places_to_try(&mut random, selection.params.shape(), input.message.len()) {
            let mut damaged = input.clone();
            damaged.message[place] = random.pick(&BAD_BYTES);
            damaged.is_refused(Call::Encode, &selection, 8);
        }
    }
}

/// Every fault and every two of them, or over large fields some, in every call that can have them: the one that is
/// looked for first is given.
#[test]
fn faults_together() {
    let mut random = Random::new(919);
    let mut refused = 0;
    for shape @ (m, n, t) in draw::fewer_shapes() {
        let params = draw::params(&mut random, m, n, t);
        let least = enough_blocks(&params);
        let count = least + random.below(block_count(&params) - least + 1);
        // Two blocks have no message columns, since code words differ in more than 2t places.
        let [wide, narrow] = [count, 2].map(|count| {
            let selection = draw::selection(&mut random, &params, count);
            Intact::new(&mut random, selection)
        });
        let of_code = draw::code_faults(m, n).into_iter().map(Fault::Code);
        let faults: Vec<Fault> = of_code.chain(OF_LISTS).chain(OF_INPUT).collect();
        let sets = draw::all_or_some(&mut random, shape, &draw::one_or_two(&faults));
        for faults in [vec![]].into_iter().chain(sets) {
            let intact = if faults.contains(&Fault::Narrow) { &narrow } else { &wide };
            refused += intact.compare(&mut random, &faults);
        }
    }
    assert!(refused > 50_000, "only {refused} calls were refused");
}
