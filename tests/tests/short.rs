//! Short words: codes and selections with hidden places, against the second implementation, which keeps all places and
//! has 0 at the hidden ones. Faults of the marks beside those of a ride, and of several senders, are in `ride.rs` and
//! `senders.rs`.

use zovunelith::nothing_hidden;
use zovunelith_tests::bits::{bits, ones_at, places_of, turned, BAD_BYTES};
use zovunelith_tests::calls::{compare_all, compare_received, Call, Input, CALLS};
use zovunelith_tests::canary::Lent;
use zovunelith_tests::draw::{self, MarkFault};
use zovunelith_tests::expect::{
    comes_back, dash_gives, encoding_gives, message_gives, reading_gives, repair_gives, ride_gives, roles_give,
    syndrome_gives, writing_gives,
};
use zovunelith_tests::faults::{Damaged, Fault, Intact, OF_INPUT, OF_LISTS};
use zovunelith_tests::library;
use zovunelith_tests::plays::{
    all_numbers, any_dash, one_to_eight, play_of_the_crate, Kind, Play, Seen, Source, KINDS,
};
use zovunelith_tests::random::Random;
use zovunelith_tests::reference::columns::{block_count, Selection, Setting};
use zovunelith_tests::reference::params::{self, code_a, code_t, Params, Shape};
use zovunelith_tests::reference::repair::Decoder;
use zovunelith_tests::reference::ride::{self, Lists, COUNTS};
use zovunelith_tests::reference::rows::{self, Row};
use zovunelith_tests::reference::senders::{Call as DashCall, Dash};
use zovunelith_tests::reference::words::Code;
use zovunelith_tests::rides::{
    any_lists, any_ride, compare_steps, refused, spoil_mark, spoil_row, steps_give, steps_of,
};
use zovunelith_tests::Elem;

/// The message columns of code T.
const MESSAGE_COLUMNS: [usize; 6] = [8, 9, 12, 13, 14, 15];

/// A code of this shape and a selection of some of its blocks.
fn code_and_selection(random: &mut Random, (m, n, t): Shape) -> (Params, Selection) {
    let params = draw::params(random, m, n, t);
    let selection = draw::any_selection(random, &params);
    (params, selection)
}

#[test]
fn cases() {
    // Code A without its one message column: only zero is a code word.
    let short = code_a().hiding(&[3]);
    roles_give(&short, 4, &Ok((vec![0, 0, 0, 1], 0)));
    encoding_gives(&short, &[], 3, &Ok(vec![0; 3]));
    message_gives(&short, &[1, 0, 1], 0, &Ok(vec![]));
    syndrome_gives(&short, &[1, 0, 1], 1, &Ok(vec![7 ^ 3]));
    for word in (0..8).map(|number| bits(number, 3)) {
        let ones = word.iter().map(|&bit| u32::from(bit)).sum();
        let expected = if ones <= 1 { Ok((vec![0; 3], ones)) } else { Err(10) };
        repair_gives(&short, &word, Lent::marked(3), &expected);
    }
    writing_gives(&short, 0, 0, 3, &Err(12));
    // Code T without its second message column. First, dark has a 0 there.
    let short = code_t().hiding(&[9]);
    roles_give(&short, 16, &Ok((ones_at(16, &MESSAGE_COLUMNS), 5)));
    let first_dark = ones_at(15, &[1, 2, 5, 6, 7, 8]);
    writing_gives(&short, 1, 0, 15, &Ok(first_dark.clone()));
    let read = (Row { gear: 1, lamp: 0 }, first_dark.clone(), 2);
    reading_gives(&short, &turned(&first_dark, &[0, 14]), Lent::marked(15), &Ok(read));
    repair_gives(&short, &ones_at(15, &[1, 2, 5]), Lent::marked(15), &Err(10));
    // With another hidden as well there is no room for rows.
    writing_gives(&code_t().hiding(&[9, 14]), 1, 0, 14, &Err(12));
    // The seven blocks of the Rust crate's documentation.
    let seven = Selection::new(&code_t(), &[6, 0, 3, 5, 1, 7, 2], &[1, 0, 0, 1, 0, 1, 0]).hiding(&[9]);
    roles_give(&seven, 14, &Ok((ones_at(14, &[8, 9, 12, 13]), 3)));
    encoding_gives(&seven, &[1, 1, 1], 13, &Ok(vec![0, 1, 0, 0, 1, 1, 1, 0, 1, 1, 1, 1, 1]));
}

/// Message columns hidden in codes of every shape, or in a selection of their blocks.
#[test]
fn every_shape() {
    let mut random = Random::new(1601);
    for shape in draw::shapes() {
        let (params, selection) = code_and_selection(&mut random, shape);
        if random.below(2) == 0 {
            let short = draw::shortened(&mut random, &params);
            compare_all(&mut random, &short, &Decoder::new(short.code()));
        } else {
            let short = draw::shortened(&mut random, &selection);
            compare_all(&mut random, &short, &Decoder::new(short.code()));
        }
    }
}

/// Both for fewer shapes and with every number of hidden columns, or over large fields with some.
#[test]
fn every_number_of_hidden_columns() {
    let mut random = Random::new(1602);
    for shape in draw::fewer_shapes() {
        let (params, selection) = code_and_selection(&mut random, shape);
        every_number_of(&mut random, shape, &params);
        every_number_of(&mut random, shape, &selection);
    }
}

/// Compares the calls on a setting with every number of message columns sent, or with some.
#[track_caller]
fn every_number_of(random: &mut Random, shape: Shape, setting: &impl Setting) {
    for k in draw::places_to_try(random, shape, setting.code().k() + 1) {
        let short = draw::shortened_to(random, setting, k);
        let decoder = Decoder::new(short.code());
        assert_eq!(decoder.code.k(), k, "{short:?}");
        compare_all(random, &short, &decoder);
    }
}

/// The message columns of a setting in every choice to be hidden.
fn every_choice<S: Setting>(setting: &S) -> Vec<S> {
    let columns = places_of(1, &setting.code().roles);
    let chosen = |choice: usize| -> Vec<usize> {
        (0..columns.len()).filter(|&bit| choice >> bit & 1 == 1).map(|bit| columns[bit]).collect()
    };
    (0..1 << columns.len()).map(|choice| setting.hiding(&chosen(choice))).collect()
}

/// The definition by its own words, where all words can be looked at: the code words are those of the code that hides
/// nothing which are 0 at every hidden place, each message is carried by one of them, and a word received is repaired
/// to the one that differs from it in at most t sent places.
#[test]
fn all_words_of_small_codes() {
    let mut random = Random::new(1603);
    let (mut whole, mut selected) = (0, 0);
    for shape in draw::shapes().into_iter().filter(|shape| shape.1 <= 8) {
        for _ in 0..4 {
            let (params, selection) = code_and_selection(&mut random, shape);
            whole += every_choice(&params).iter().map(|short| all_words(&params.code(), short)).count();
            selected += every_choice(&selection).iter().map(|short| all_words(&selection.code(), short)).count();
        }
    }
    assert!(whole > 300 && selected > 200, "only {whole} and {selected} choices of hidden columns");
}

/// The bytes of a list at these places.
fn at(list: &[u8], places: &[usize]) -> Vec<u8> {
    places.iter().map(|&place| list[place]).collect()
}

/// All words of a setting with places hidden, by the code that hides nothing.
#[track_caller]
fn all_words(whole: &Code, short: &impl Setting) {
    let (places, t) = (whole.places(), whole.params.t as usize);
    let [sent, hidden] = [0, 1].map(|mark| places_of(mark, short.hidden()));
    let is_short = |wide: &[u8]| at(wide, &hidden).iter().all(|&bit| bit == 0);
    let wide = (0..1 << places).map(|number| bits(number, places));
    let code_words: Vec<Vec<u8>> = wide.filter(|wide| whole.is_code_word(wide) && is_short(wide)).collect();
    let columns: Vec<usize> = sent.iter().copied().filter(|&place| whole.roles[place] == 1).collect();
    assert_eq!(code_words.len(), 1 << columns.len(), "{short:?}");
    for word in &code_words {
        encoding_gives(short, &at(word, &columns), sent.len(), &Ok(at(word, &sent)));
    }
    for received in (0..1 << sent.len()).map(|number| bits(number, sent.len())) {
        let differ = |word: &&Vec<u8>| at(word, &sent).iter().zip(&received).filter(|(a, b)| a != b).count();
        let near: Vec<&Vec<u8>> = code_words.iter().filter(|word| differ(word) <= t).collect();
        let expected = match near[..] {
            [] => Err(10),
            [word] => Ok((at(word, &sent), differ(&word) as u32)),
            _ => panic!("{} code words near {received:?} in {short:?}", near.len()),
        };
        repair_gives(short, &received, Lent::marked(sent.len()), &expected);
    }
}

/// Code T with four, five and all of its message columns hidden, in every choice: every word.
#[test]
fn all_words_of_the_toy_example() {
    let many = |short: &Params| places_of(1, &short.hidden).len() >= 4;
    for short in every_choice(&code_t()).into_iter().filter(many) {
        let decoder = Decoder::new(short.code());
        let (length, k) = (decoder.code.length(), decoder.code.k());
        let words = (0..1 << length).map(|number| bits(number, length));
        let repaired = words.filter(|word| compare_received(&short, &decoder, word).is_ok()).count();
        // Each code word has as many words within two places, no word being near two of them.
        assert_eq!(repaired, (1 << k) * (1 + length + length * (length - 1) / 2), "{short:?}");
    }
}

/// What the library gives for a word that leaves hidden places out is what it gives, where nothing is hidden, for the
/// word with 0 there. A repair that would turn a hidden place is none.
#[test]
fn words_within_the_whole_code() {
    let mut random = Random::new(1604);
    let mut too_far = 0;
    for shape in draw::fewer_shapes() {
        for _ in 0..draw::rounds(shape, 4) {
            let (params, selection) = code_and_selection(&mut random, shape);
            too_far += within_the_whole(&mut random, &params) + within_the_whole(&mut random, &selection);
        }
    }
    assert!(too_far > 100, "only {too_far} words were near a code word with a hidden 1 alone");
}

/// Gives the number of words that are repaired to a code word with a hidden 1 where nothing is hidden.
#[track_caller]
fn within_the_whole(random: &mut Random, whole: &impl Setting) -> usize {
    let (places, t) = (whole.places(), whole.params().t as usize);
    let short = draw::shortened(random, whole);
    let [sent, hidden] = [0, 1].map(|mark| places_of(mark, short.hidden()));
    let (mut roles, mut of_whole) = (vec![0; places], vec![0; places]);
    let k = library::words::roles(&short, &mut roles).expect("accepted") as usize;
    let all = library::words::roles(whole, &mut of_whole).expect("accepted") as usize;
    assert_eq!((&roles, k), (&of_whole, all - hidden.len()), "{short:?}");
    let columns = places_of(1, &roles);
    let sent_columns: Vec<usize> = columns.iter().copied().filter(|column| !hidden.contains(column)).collect();

    // Any word that is 0 at the hidden places, and the code word with the same message.
    let any = random.bits(places).into_iter().zip(short.hidden()).map(|(bit, mark)| bit * (1 - mark));
    let any: Vec<u8> = any.collect();
    let (mut sums, mut wide) = (vec![0; t], vec![0; places]);
    library::words::syndrome(whole, &any, &mut sums).expect("a word");
    syndrome_gives(&short, &at(&any, &sent), t, &Ok(sums));
    message_gives(&short, &at(&any, &sent), k, &Ok(at(&any, &sent_columns)));
    library::words::encode(whole, &at(&any, &columns), &mut wide).expect("a message");
    encoding_gives(&short, &at(&any, &sent_columns), sent.len(), &Ok(at(&wide, &sent)));

    // A code word with some hidden places 1, and so many of the others turned that there are at most t of both.
    let mut met = 0;
    for ones in 0..=hidden.len().min(t).min(2) {
        let mut any = any.clone();
        random.choice(hidden.len(), ones).into_iter().for_each(|index| any[hidden[index]] = 1);
        library::words::encode(whole, &at(&any, &columns), &mut wide).expect("a message");
        let count = random.below(t - ones + 1);
        let received = turned(&at(&wide, &sent), &random.places(sent.len(), count));
        let (mut with_zeros, mut repaired) = (vec![0; places], vec![0; places]);
        sent.iter().zip(&received).for_each(|(&place, &bit)| with_zeros[place] = bit);
        let answer = library::repair::repair(whole, &with_zeros, &mut repaired);
        assert_eq!((answer, &repaired), (Ok((ones + count) as u32), &wide), "{whole:?}");
        let expected = if ones == 0 { Ok((at(&wide, &sent), count as u32)) } else { Err(10) };
        repair_gives(&short, &received, Lent::marked(sent.len()), &expected);
        met += ones.min(1);
    }
    met
}

/// What the calls give does not depend on the offset, with places hidden as without.
#[test]
fn every_offset() {
    let mut random = Random::new(1605);
    for shape in [(3, 4, 1), (5, 16, 2), (6, 32, 2), (8, 64, 4), (9, 256, 16), (16, 512, 8)] {
        let (params, selection) = code_and_selection(&mut random, shape);
        let (mut short, mut cut) = (draw::shortened(&mut random, &params), draw::shortened(&mut random, &selection));
        let (decoder, of_cut) = (Decoder::new(short.code()), Decoder::new(cut.code()));
        let offsets = draw::offsets(&mut random, shape.0);
        for omega in draw::all_or_some(&mut random, shape, &offsets) {
            short.omega = omega;
            cut.params.omega = omega;
            compare_all(&mut random, &short, &decoder);
            compare_all(&mut random, &cut, &of_cut);
        }
    }
}

/// A selection has marks of its own: those of its code are not looked at, whatever they are.
#[test]
fn the_marks_of_a_selections_code() {
    let mut random = Random::new(1606);
    for shape in draw::fewer_shapes() {
        let (params, selection) = code_and_selection(&mut random, shape);
        let mut short = draw::shortened(&mut random, &selection);
        let decoder = Decoder::new(short.code());
        let n = params.n as usize;
        let others = [vec![], vec![1; n], vec![255; n], vec![0; n + 1], draw::shortened(&mut random, &params).hidden];
        short.params.hidden = others[random.below(others.len())].clone();
        compare_all(&mut random, &short, &decoder);
    }
}

/// A setting of each of the fewer shapes with places hidden, or with none, and faultless input for it.
fn settings_with_input<S: Setting>(
    random: &mut Random,
    drawn: impl Fn(&mut Random, Shape) -> S,
) -> Vec<(S, Code, Input)> {
    let mut settings = Vec::new();
    for shape in draw::fewer_shapes() {
        let whole = drawn(random, shape);
        let short = if random.below(3) == 0 { whole } else { draw::shortened(random, &whole) };
        let decoder = Decoder::new(short.code());
        let input = Input::new(random, &decoder);
        settings.push((short, decoder.code, input));
    }
    settings
}

/// Makes every call on the settings that `marked` makes of each: all of them are to be refused by this number.
fn marks_are_refused(random: &mut Random, number: u32, marked: impl Fn(&mut Random, Shape, &Code) -> Vec<Vec<u8>>) {
    let whole = |random: &mut Random, shape: Shape| code_and_selection(random, shape).0;
    for (short, code, input) in settings_with_input(random, whole) {
        for hidden in marked(random, short.shape(), &code) {
            let refused = Params { hidden, ..short.clone() };
            fitted_or_not(random, &input, &refused).is_refused_by_all(&refused, number);
            is_no_card(&refused, &short, number);
        }
    }
    let selected = |random: &mut Random, shape: Shape| code_and_selection(random, shape).1;
    for (short, code, input) in settings_with_input(random, selected) {
        for hidden in marked(random, short.params.shape(), &code) {
            let refused = Selection { hidden, ..short.clone() };
            fitted_or_not(random, &input, &refused).is_refused_by_all(&refused, number);
        }
    }
}

/// The input with words of as many bytes as there are marks that are 0, be these marks refused or not.
fn fitted(input: &Input, setting: &impl Setting) -> Input {
    let mut fitted = input.clone();
    fitted.resize(places_of(0, setting.hidden()).len());
    Input { roles_length: input.roles_length, ..fitted }
}

/// The input as it is, or fitted: marks that are refused are looked at before the length of a word.
fn fitted_or_not(random: &mut Random, input: &Input, setting: &impl Setting) -> Input {
    if random.below(2) == 0 {
        input.clone()
    } else {
        fitted(input, setting)
    }
}

/// Checks a code that is to be refused by this number, by itself and beside an accepted one.
#[track_caller]
fn is_no_card(code: &Params, accepted: &Params, number: u32) {
    let (mut roots, mut support) = (Lent::marked(code.h.len()), Lent::marked(code.h.len()));
    assert_eq!(library::params::check(code, roots.slice_mut(), support.slice_mut()), Err(number), "{code:?}");
    roots.assert_unchanged();
    support.assert_unchanged();
    for (one, other) in [(code, accepted), (accepted, code), (code, code)] {
        assert_eq!(params::same(one, other), Err(number), "{one:?}, {other:?}");
        assert_eq!(library::params::same(one, other), Err(number), "{one:?}, {other:?}");
    }
}

/// A hidden check column at any place is 20, alone and beside message columns.
#[test]
fn hidden_check_columns() {
    marks_are_refused(&mut Random::new(1607), 20, |random, shape, code| {
        let checks = places_of(0, &code.roles);
        let places = draw::places_to_try(random, shape, checks.len());
        let hiding = |place: usize| {
            let mut hidden = code.hidden.clone();
            hidden[checks[place]] = 1;
            hidden
        };
        let all = vec![1; code.places()];
        draw::all_or_some(random, shape, &places).into_iter().map(hiding).chain([all]).collect()
    });
}

/// A mark other than 0 or 1 at any place is 20, at a message column as at a check column.
#[test]
fn marks_that_are_none() {
    marks_are_refused(&mut Random::new(1608), 20, |random, shape, code| {
        let places = draw::places_to_try(random, shape, code.places());
        let places = draw::all_or_some(random, shape, &places);
        let mut marking = |place: usize| {
            let mut hidden = code.hidden.clone();
            hidden[place] = random.pick(&BAD_BYTES);
            hidden
        };
        places.into_iter().map(&mut marking).collect()
    });
    let mut random = Random::new(1609);
    let input = Input::new(&mut random, &Decoder::new(Code::new(&code_a())));
    for (place, byte) in (0..4).flat_map(|place| (2..=u8::MAX).map(move |byte| (place, byte))) {
        let mut refused = code_a();
        refused.hidden[place] = byte;
        input.is_refused_by_all(&refused, 20);
        is_no_card(&refused, &code_a(), 20);
    }
}

/// Another number of marks than of places is 2, whatever they are.
#[test]
fn marks_of_other_lengths() {
    marks_are_refused(&mut Random::new(1610), 2, |random, shape, code| {
        let lengths = draw::other_lengths(code.places());
        let mut resized = |length: usize| {
            let mut hidden = code.hidden.clone();
            hidden.resize(length, random.pick(&[0, 1, 2]));
            hidden
        };
        let mut lists: Vec<Vec<u8>> = lengths.into_iter().map(&mut resized).collect();
        lists.push(vec![2; 1 + places_of(1, &code.hidden).len()]);
        lists.retain(|list| list.len() != code.places());
        draw::all_or_some(random, shape, &lists)
    });
}

/// Roots and support are what they are with nothing hidden, and codes are the same only if their marks agree.
#[test]
fn checks_and_comparisons() {
    let mut random = Random::new(1611);
    for (m, n, t) in draw::fewer_shapes() {
        let whole = draw::params(&mut random, m, n, t);
        let (short, other) = (draw::shortened(&mut random, &whole), draw::shortened(&mut random, &whole));
        let (expected_roots, expected_support) = params::check(&whole, n as usize, n as usize).expect("accepted");
        let (mut roots, mut support) = (Lent::marked(n as usize), Lent::marked(n as usize));
        assert_eq!(library::params::check(&short, roots.slice_mut(), support.slice_mut()), Ok(()), "{short:?}");
        roots.assert_holds(Some(&expected_roots));
        support.assert_holds(Some(&expected_support));
        for (one, two) in [(&short, &short), (&short, &whole), (&whole, &short), (&short, &other)] {
            assert_eq!(params::same(one, two), Ok(one.hidden == two.hidden));
            assert_eq!(library::params::same(one, two), Ok(one.hidden == two.hidden), "{one:?}, {two:?}");
        }
    }
}

/// Code T: of every two choices of hidden columns, the same alone make one card; and one mark that differs is enough.
#[test]
fn every_two_choices_of_marks() {
    let cards = every_choice(&code_t());
    for (one, two) in cards.iter().flat_map(|one| cards.iter().map(move |two| (one, two))) {
        assert_eq!(library::params::same(one, two), Ok(one.hidden == two.hidden), "{one:?}, {two:?}");
    }
}

/// Two cards of which each has a fault: the lower number is given, be it that of the marks or of the rest.
#[test]
fn faults_of_two_cards() {
    let mut random = Random::new(1612);
    for shape @ (m, n, t) in draw::fewer_shapes() {
        let whole = draw::params(&mut random, m, n, t);
        let roles = Code::new(&whole).roles;
        for of_marks in draw::MARK_FAULTS {
            let mut marked = draw::shortened(&mut random, &whole);
            draw::spoil_marks(&mut random, &mut marked.hidden, &roles, &[of_marks]);
            for of_code in draw::all_or_some(&mut random, shape, &draw::code_faults(m, n)) {
                let damaged = draw::damaged_code(&mut random, m, n, t, &[of_code]);
                let lowest = of_code.number().min(of_marks.number());
                for (one, two) in [(&marked, &damaged), (&damaged, &marked)] {
                    assert_eq!(params::same(one, two), Err(lowest), "{of_marks:?}, {of_code:?}");
                    assert_eq!(library::params::same(one, two), Err(lowest), "{one:?}, {two:?}");
                }
                // Both in one card.
                let mut both = Params { hidden: marked.hidden.clone(), ..damaged };
                let answer = library::params::check(&both, &mut vec![0; n as usize], &mut vec![0; n as usize]);
                assert_eq!(answer, Err(lowest), "{of_marks:?}, {of_code:?}: {both:?}");
                assert_eq!(params::check(&both, n as usize, n as usize), Err(lowest), "{both:?}");
                both.m = 0;
                assert_eq!(library::params::same(&both, &marked), Err(1), "{both:?}");
            }
            let length = draw::other_length(&mut random, n as usize);
            let mut support = Lent::marked(length);
            assert_eq!(library::params::check(&marked, &mut vec![0; n as usize], support.slice_mut()), Err(2));
            support.assert_unchanged();
        }
    }
}

/// Compares the calls on a setting with every fault of its marks, and with each of them and another fault together, or
/// over large fields some: the one that is looked for first is given. Rows don't fit the narrow setting.
#[track_caller]
fn compare_faults<S: Damaged>(random: &mut Random, shape: Shape, wide: S, others: &[Fault]) -> usize {
    let narrow = draw::shortened_to(random, &wide, 4);
    let (wide, narrow) = (Intact::new(random, wide), Intact::new(random, narrow));
    let of_marks = draw::MARK_FAULTS.map(Fault::Marks);
    let all = [&of_marks[..], others].concat();
    let mut sets = draw::one_or_two(&all);
    sets.retain(|faults| faults.iter().any(|fault| matches!(fault, Fault::Marks(_))));
    assert!(sets.contains(&vec![Fault::Marks(MarkFault::NoMark), Fault::Marks(MarkFault::HiddenCheck)]));
    let sets = draw::all_or_some(random, shape, &sets);
    let intact = |faults: &[Fault]| if faults.contains(&Fault::Narrow) { &narrow } else { &wide };
    [vec![]].iter().chain(&sets).map(|faults| intact(faults).compare(random, faults)).sum()
}

#[test]
fn faults_of_whole_codes() {
    let mut random = Random::new(1613);
    let mut refused = 0;
    for shape @ (m, n, t) in draw::fewer_shapes() {
        let params = draw::params(&mut random, m, n, t);
        let others: Vec<Fault> = draw::code_faults(m, n).into_iter().map(Fault::Code).chain(OF_INPUT).collect();
        // With room for rows, where the code has it.
        let k = 5 + random.below(params.n as usize);
        let short = draw::shortened_to(&mut random, &params, k);
        refused += compare_faults(&mut random, shape, short, &others);
        // Where nothing is hidden, all pairs of faults: the length of a word comes after the code.
        let whole = Intact::new(&mut random, params);
        for faults in draw::all_or_some(&mut random, shape, &draw::one_or_two(&others)) {
            if !faults.contains(&Fault::Narrow) {
                refused += whole.compare(&mut random, &faults);
            }
        }
    }
    assert!(refused > 50_000, "only {refused} calls were refused");
}

#[test]
fn faults_of_selections() {
    let mut random = Random::new(1614);
    let mut refused = 0;
    for shape @ (m, n, t) in draw::fewer_shapes() {
        let params = draw::params(&mut random, m, n, t);
        let count = 2 + random.below(block_count(&params) - 1);
        let selection = draw::selection(&mut random, &params, count);
        let short = draw::shortened(&mut random, &selection);
        let of_code = draw::code_faults(m, n).into_iter().map(Fault::Code);
        let others: Vec<Fault> = of_code.chain(OF_LISTS).chain(OF_INPUT).collect();
        refused += compare_faults(&mut random, shape, short, &others);
    }
    assert!(refused > 20_000, "only {refused} calls were refused");
}

/// Words as long as the whole code's, and messages as long as its k, are 2 where a place is hidden; so are words
/// without a place where none is.
#[test]
fn words_and_messages_of_the_whole_code() {
    let mut random = Random::new(1615);
    for (m, n, t) in draw::fewer_shapes() {
        let params = draw::params(&mut random, m, n, t);
        let whole = Code::new(&params);
        let columns = places_of(1, &whole.roles);
        let input = Input::new(&mut random, &Decoder::new(whole));
        if columns.is_empty() {
            continue;
        }
        let short = params.hiding(&[random.pick(&columns)]);
        let shorter = fitted(&input, &short);
        for call in CALLS.into_iter().filter(|&call| call != Call::Roles) {
            input.is_refused(call, &short, 2);
            shorter.is_refused(call, &params, 2);
        }
        for call in [Call::Encode, Call::Message] {
            assert_eq!(shorter.number(call, &short), Some(2));
            shorter.is_refused(call, &short, 2);
        }
        // A byte that is no bit is none of the hidden places', and refused by 8.
        let mut damaged = Input { message: random.bits(columns.len() - 1), ..shorter };
        damaged.word = random.bits(n as usize - 1);
        damaged.word[random.below(n as usize - 1)] = random.pick(&BAD_BYTES);
        for call in [Call::Syndrome, Call::Message, Call::Repair] {
            damaged.is_refused(call, &short, 8);
        }
    }
}

/// Rows with every number of turned places up to t, or over large fields some, with just enough message columns and
/// with more; and messages that are no rows.
#[test]
fn rows_of_short_codes() {
    let mut random = Random::new(1616);
    let mut wide = 0;
    for shape @ (m, n, t) in draw::fewer_shapes() {
        let params = draw::params(&mut random, m, n, t);
        for k in [rows::BITS, rows::BITS + 1, 2 * rows::BITS] {
            let short = draw::shortened_to(&mut random, &params, k);
            let decoder = Decoder::new(short.code());
            let (code, length) = (&decoder.code, decoder.code.length());
            if code.k() < k {
                continue;
            }
            wide += 1;
            for row in draw::all_or_some(&mut random, shape, &rows::rows()) {
                let sent = code.encode(&rows::message(row, k));
                writing_gives(&short, row.gear, row.lamp, length, &Ok(sent.clone()));
                for weight in draw::places_to_try(&mut random, shape, t as usize + 1) {
                    let received = turned(&sent, &random.places(length, weight));
                    let expected = Ok((row, sent.clone(), weight as u32));
                    reading_gives(&short, &received, Lent::marked(length), &expected);
                }
            }
            for (gear, lamp) in [(1, 1), (0, 3), (8, 0), (256, 2), (u32::MAX, u32::MAX)] {
                writing_gives(&short, gear, lamp, length, &Err(11));
            }
            for message in (0..4).map(|_| random.bits(k)) {
                compare_received(&short, &decoder, &code.encode(&message)).expect("a code word");
            }
        }
    }
    assert!(wide > 100, "only {wide} codes were wide enough");
}

/// A code of each of the fewer shapes that has room for rows, with places hidden so that there is still room.
fn short_decoders(random: &mut Random) -> Vec<Decoder> {
    let mut decoders = Vec::new();
    for (m, n, t) in draw::fewer_shapes() {
        let params = draw::params(random, m, n, t);
        let all = Code::new(&params).k();
        if all >= rows::BITS {
            let k = rows::BITS + random.below(all - rows::BITS + 1);
            decoders.push(Decoder::new(draw::shortened_to(random, &params, k).code()));
        }
    }
    decoders
}

/// Rides by lists, by hand and by the Rust crate's steps, with marks for the sent places alone.
#[test]
fn rides() {
    let mut random = Random::new(1617);
    for decoder in short_decoders(&mut random) {
        let (code, params) = (&decoder.code, &decoder.code.params);
        let (n, length, k) = (code.places(), code.length(), code.k());
        for steps in [0, 1, draw::rounds(params.shape(), 8)] {
            let lists = any_ride(&mut random, code, steps);
            compare_steps(&decoder, &lists).0.expect("a ride without a fault");
            let needed = library::ride::room(params, steps);
            assert_eq!(needed, steps * (2 + length), "{params:?}");
            steps_give(params, &steps_of(&lists, length), needed, &ride::ride_steps(&decoder, &lists));
            if steps == 0 {
                continue;
            }
            let step = random.below(steps);
            let (mut no_mark, mut no_row) = (lists.clone(), lists.clone());
            spoil_mark(&mut random, &mut no_mark, length, step);
            spoil_row(&mut random, &mut no_row, step);
            for ended in [no_mark, no_row] {
                let (answer, counts) = compare_steps(&decoder, &ended);
                assert!(answer.is_err() && counts[0] as usize == step, "{answer:?} at step {step}, {counts:?}");
            }
            is_no_ride(params, &lists, needed, length, 2);
            // Marks for all places are 2 where some are hidden, and a hidden check column is 20 before that.
            let wide = Lists { turned: random.bits(steps * n), ..lists.clone() };
            if length < n {
                ride_gives(params, &wide, Lent::marked(COUNTS), &refused(2));
                steps_give(params, &steps_of(&wide, n), library::ride::room(params, steps) + steps * n, &refused(2));
            }
            let mut marked = params.clone();
            draw::spoil_marks(&mut random, &mut marked.hidden, &code.roles, &[MarkFault::HiddenCheck]);
            ride_gives(&marked, &wide, Lent::marked(COUNTS), &refused(20));
            ride_gives(&marked, &lists, Lent::marked(COUNTS), &refused(20));
            steps_give(&marked, &steps_of(&wide, n), 3 * needed + steps * n, &refused(20));
            is_no_ride(&marked, &lists, needed, length, 20);
        }
        // With a message column less than a row needs there is no ride.
        let places = places_of(1, &code.roles).into_iter().filter(|&place| code.hidden[place] == 0);
        let (places, mut narrow) = (places.collect::<Vec<usize>>(), params.clone());
        places[..k - rows::BITS + 1].iter().for_each(|&place| narrow.hidden[place] = 1);
        let lists = any_lists(&mut random, length - (k - rows::BITS + 1), 1);
        ride_gives(&narrow, &lists, Lent::marked(COUNTS), &refused(12));
        ride_gives(&narrow, &Lists::default(), Lent::marked(COUNTS), &refused(12));
    }
}

/// Steps of the Rust crate with a room that is too short, and with marks that are: refused by this number.
#[track_caller]
fn is_no_ride(params: &Params, lists: &Lists, needed: usize, length: usize, number: u32) {
    let mut steps = steps_of(lists, length);
    for room_length in [0, 1, needed - length, needed - 1] {
        steps_give(params, &steps, room_length, &refused(number));
    }
    steps[0].turned = &steps[0].turned[1..];
    steps_give(params, &steps, needed, &refused(number));
}

/// Several senders of short words: plays that are watched from outside, and those of the Rust crate's senders.
#[test]
fn plays() {
    let mut random = Random::new(1618);
    let mut seen = Seen::default();
    let toy = Source::new(&mut random, &code_t().hiding(&[9, 14]));
    for numbers in all_numbers() {
        Play::start(&mut random, &toy, numbers, &mut seen).play(&mut random, 20, &KINDS);
        play_of_the_crate(&mut random, &toy, numbers, 4);
    }
    for shape @ (m, n, t) in draw::fewer_shapes() {
        let params = draw::params(&mut random, m, n, t);
        let short = draw::shortened(&mut random, &params);
        let source = Source::new(&mut random, &short);
        for numbers in [(8, 1), (one_to_eight(&mut random), one_to_eight(&mut random))] {
            Play::start(&mut random, &source, numbers, &mut seen).play(&mut random, draw::rounds(shape, 8), &KINDS);
        }
        let numbers = (one_to_eight(&mut random), one_to_eight(&mut random));
        play_of_the_crate(&mut random, &source, numbers, draw::rounds(shape, 4));
    }
    seen.assert_each(100);
}

/// Words as long as the whole code's are 2 for several senders where a place is hidden, and a hidden check column is 20
/// before that.
#[test]
fn senders_of_longer_words() {
    let mut random = Random::new(1619);
    for (m, n, t) in draw::fewer_shapes() {
        let params = draw::params(&mut random, m, n, t);
        let whole = Source::new(&mut random, &params);
        let columns = places_of(1, &whole.decoder.code.roles);
        let mut given = whole.given(one_to_eight(&mut random), one_to_eight(&mut random));
        let dash = any_dash(&mut random, &whole, given.senders);
        let idle = Dash { waiting: vec![0; given.senders as usize], ..dash.clone() };
        let offer = DashCall::Offer { sender: 0, word: whole.word(&mut random, Kind::Near) };
        if let Some(&column) = columns.first() {
            given.params = params.hiding(&[column]);
            dash_gives(&given, &offer, &idle, &Err(2));
            dash_gives(&given, &DashCall::Round, &dash, &Err(2));
        }
        given.params = params.hiding(&[random.below(t as usize)]);
        for call in [DashCall::Start, offer, DashCall::Round] {
            dash_gives(&given, &call, &dash, &Err(20));
        }
    }
}

/// The marks that the Rust crate has for a code which hides nothing, and the number of sent places that it counts.
#[test]
fn marks_of_the_rust_crate() {
    for n in (0..=520).chain([1024, 65536, 1 << 31, u32::MAX]) {
        assert_eq!(nothing_hidden(n), vec![0; n.min(512) as usize]);
    }
    let mut random = Random::new(1620);
    for shape in draw::fewer_shapes() {
        let (params, selection) = code_and_selection(&mut random, shape);
        let (short, cut) = (draw::shortened(&mut random, &params), draw::shortened(&mut random, &selection));
        assert_eq!(library::code(&short).sent(), short.code().length());
        let (code, blocks, shifts) = (library::code(&params), &cut.blocks, &cut.shifts);
        let of_crate = zovunelith::Selection { code, blocks, shifts, hidden: &cut.hidden };
        assert_eq!(of_crate.sent(), cut.code().length());
    }
    // Marks are counted where they are 0, whatever the others are.
    let counted = |hidden: &[u8]| zovunelith::Code { hidden, ..library::code(&code_a()) }.sent();
    assert_eq!([counted(&[]), counted(&[1, 2, 255]), counted(&[0, 1, 0, 2, 0])], [0, 0, 3]);
}

/// The longest words with places hidden around the steps of a byte, up to all message columns.
#[test]
fn the_longest_words() {
    let mut random = Random::new(1621);
    for (m, t) in [(10, 1), (16, 1), (16, 4), (10, 32), (16, 256)] {
        let params = draw::params(&mut random, m, 512, t);
        let columns = places_of(1, &Code::new(&params).roles);
        let around = |place: &usize| [127, 128, 255, 256, 510, 511].contains(place);
        let some: Vec<usize> = columns.iter().copied().filter(around).collect();
        let but_the_last = &columns[..columns.len().saturating_sub(1)];
        for places in [&some[..], but_the_last, &columns] {
            let short = params.hiding(places);
            let decoder = Decoder::new(short.code());
            compare_all(&mut random, &short, &decoder);
            let sent = decoder.code.encode(&vec![1; decoder.code.k()]);
            let last = [sent.len() - 1];
            comes_back(&short, &sent, &last);
            let column: Vec<Elem> = decoder.code.syndrome(&ones_at(sent.len(), &last));
            syndrome_gives(&short, &ones_at(sent.len(), &last), t as usize, &Ok(column));
        }
    }
}
