//! Formulas of dyadic blocks, against a reading from the outside in and the matrices of blocks.

use zovunelith_tests::canary::{pointer, pointer_mut, Lent};
use zovunelith_tests::draw::{block, dead_block, live_block, strange_entries, BAD_BLOCK_LENGTHS, BAD_WIDTHS};
use zovunelith_tests::library::block as library;
use zovunelith_tests::random::Random;
use zovunelith_tests::reference::block::LENGTHS;
use zovunelith_tests::reference::field;
use zovunelith_tests::reference::formula::{self as reference, Formula, DEEPEST, LETTERS, LONGEST};
use zovunelith_tests::Elem;

/// The blocks of the letters. An empty one isn't lent.
type Blocks = [Vec<Elem>; 4];

fn slices(blocks: &Blocks) -> [&[Elem]; 4] {
    blocks.each_ref().map(Vec::as_slice)
}

/// Makes the call with canaries around every buffer and compares its answer and its buffers with the second
/// implementation's. Gives the answer, for tests that know it beforehand.
#[track_caller]
fn compare(m: u32, text: &[u8], blocks: &Blocks, result_length: usize) -> Result<Vec<Elem>, u32> {
    let expected = reference::formula(m, text, slices(blocks), result_length);
    let text = Lent::holding(text);
    let blocks = blocks.each_ref().map(|block| Lent::holding(block));
    let lent = blocks.each_ref().map(Lent::slice);
    let mut result = Lent::marked(result_length);
    let answer = library::formula(m, text.slice(), lent, result.slice_mut());
    let about = || format!("width {m}, {:?} of {lent:?} into {result_length}", String::from_utf8_lossy(text.slice()));
    assert_eq!(answer, expected.as_ref().map(|_| ()).map_err(|&number| number), "{}", about());
    text.assert_unchanged();
    blocks.iter().for_each(Lent::assert_unchanged);
    result.assert_holds(expected.as_deref().ok());
    expected
}

fn any_blocks(random: &mut Random, m: u32, s: usize) -> Blocks {
    [(); 4].map(|()| block(random, m, s))
}

fn live_blocks(random: &mut Random, m: u32, s: usize) -> Blocks {
    [(); 4].map(|()| live_block(random, m, s))
}

/// D is dead, and the others are not.
fn with_dead_d(random: &mut Random, m: u32, s: usize) -> Blocks {
    let [a, b, c, _] = live_blocks(random, m, s);
    [a, b, c, dead_block(random, m, s)]
}

/// The same blocks, lent where the bit of the letter's place is 1.
fn lent_by(choice: usize, blocks: &Blocks) -> Blocks {
    [0, 1, 2, 3].map(|place| if choice >> place & 1 == 1 { blocks[place].clone() } else { vec![] })
}

/// Counts of the answers of many calls: values, 9 and 16.
#[derive(Debug, Default)]
struct Answers {
    values: usize,
    dead: usize,
    no_formula: usize,
}

impl Answers {
    #[track_caller]
    fn count(&mut self, answer: Result<Vec<Elem>, u32>) {
        match answer {
            Ok(_) => self.values += 1,
            Err(9) => self.dead += 1,
            Err(16) => self.no_formula += 1,
            Err(number) => panic!("refused by {number}"),
        }
    }

    fn each_above(&self, least: usize) -> bool {
        [self.values, self.dead, self.no_formula].iter().all(|&count| count > least)
    }
}

/// How tightly a text holds together, by the operation that is made last.
#[derive(Clone, Copy, PartialEq, PartialOrd)]
enum Rank {
    Sum,
    Product,
    Term,
}

/// A formula that is put together operation by operation, and its text, with brackets where it would be read otherwise.
#[derive(Clone)]
struct Written {
    formula: Formula,
    text: String,
    rank: Rank,
}

impl Written {
    fn letter(place: usize) -> Written {
        let text = char::from(LETTERS[place]).to_string();
        Written { formula: Formula::Block(place), text, rank: Rank::Term }
    }

    fn bracketed(self) -> Written {
        Written { text: format!("({})", self.text), rank: Rank::Term, ..self }
    }

    /// In brackets, unless the text is of this rank or a tighter one.
    fn of_rank(self, rank: Rank) -> Written {
        if self.rank < rank {
            self.bracketed()
        } else {
            self
        }
    }

    fn inverse(self) -> Written {
        let term = self.of_rank(Rank::Term);
        Written { text: term.text + "'", formula: term.formula.inverse(), rank: Rank::Term }
    }

    fn times(self, other: Written) -> Written {
        let (left, right) = (self.of_rank(Rank::Product), other.of_rank(Rank::Term));
        let text = format!("{}*{}", left.text, right.text);
        Written { formula: left.formula.times(right.formula), text, rank: Rank::Product }
    }

    fn over(self, other: Written) -> Written {
        let (left, right) = (self.of_rank(Rank::Product), other.of_rank(Rank::Term));
        let text = format!("{}/{}", left.text, right.text);
        Written { formula: left.formula.times(right.formula.inverse()), text, rank: Rank::Product }
    }

    fn plus(self, other: Written) -> Written {
        let right = other.of_rank(Rank::Product);
        let text = format!("{}+{}", self.text, right.text);
        Written { formula: self.formula.plus(right.formula), text, rank: Rank::Sum }
    }

    fn depth(&self) -> usize {
        reference::depth(self.text.as_bytes()).expect("brackets that pair")
    }

    /// A formula whose brackets nest exactly so deep, of at most `room` bytes, which are enough for a letter in as many
    /// brackets. It grows by one operation after the other, most of them with a letter, some with another drawn formula.
    fn drawn(random: &mut Random, depth: usize, room: usize) -> Written {
        let mut drawn = Written::letter(random.below(4));
        for _ in 0..random.below(room / 2 + 1) {
            let other = if random.below(4) == 0 {
                let deepest = depth.min((room / 4).saturating_sub(1) / 2);
                let depth = random.below(deepest + 1);
                Written::drawn(random, depth, room / 4)
            } else {
                Written::letter(random.below(4))
            };
            let before = drawn.clone();
            let grown = match random.below(8) {
                0 => before.inverse(),
                1 => before.bracketed(),
                2 => before.plus(other),
                3 => other.plus(before),
                4 => before.times(other),
                5 => other.times(before),
                6 => before.over(other),
                _ => other.over(before),
            };
            // With room left for the brackets that are still to come.
            if grown.depth() <= depth && grown.text.len() + 2 * (depth - grown.depth()) <= room {
                drawn = grown;
            }
        }
        while drawn.depth() < depth {
            drawn = drawn.bracketed();
        }
        drawn
    }
}

/// The text of a formula of at most `room` bytes, whose brackets nest as deep as they may or less.
fn drawn_text(random: &mut Random, room: usize) -> String {
    let depth = random.below(DEEPEST + 1);
    Written::drawn(random, depth, room).text
}

/// What a call for blocks writes.
fn written(s: usize, call: impl FnOnce(&mut [Elem]) -> Result<(), u32>) -> Vec<Elem> {
    let mut out = vec![0; s];
    call(&mut out).expect("blocks, and inverses that exist");
    out
}

/// Every width with every length up to 128, and with the longer ones some.
fn widths_and_lengths() -> Vec<(u32, usize)> {
    let all = field::WORDS.into_iter().flat_map(|(m, _)| LENGTHS.map(|s| (m, s)));
    all.filter(|&(m, s)| s <= 128 || (m, s) == (9, 256) || (m, s) == (16, 512)).collect()
}

/// What the rules say of some texts, by the calls for sums, products and inverses.
#[test]
fn readings_by_the_other_calls() {
    let mut random = Random::new(1101);
    for (m, s) in widths_and_lengths().into_iter().filter(|pair| pair.1 <= 256) {
        let blocks = live_blocks(&mut random, m, s);
        let [a, b, c, d] = &blocks;
        let inverse = |x: &[Elem]| written(s, |out| library::inverse(m, x, out));
        let times = |x: &[Elem], y: &[Elem]| written(s, |out| library::product(m, x, y, out));
        let plus = |x: &[Elem], y: &[Elem]| written(s, |out| library::sum(m, x, y, out));
        for (text, value) in [
            ("A", a.clone()),
            ("(D)", d.clone()),
            ("A'", inverse(a)),
            ("A''", a.clone()),
            ("A'''", inverse(a)),
            ("A+B*C'", plus(a, &times(b, &inverse(c)))),
            ("A*B+C*D", plus(&times(a, b), &times(c, d))),
            ("(A+B)*(C+D)", times(&plus(a, b), &plus(c, d))),
            ("A*B'", times(a, &inverse(b))),
            ("(A*B)'", inverse(&times(a, b))),
            ("A/B", times(a, &inverse(b))),
            ("A/B'", times(a, b)),
            ("A/B/C", times(a, &inverse(&times(b, c)))),
            ("A/(B*C)", times(a, &inverse(&times(b, c)))),
            ("A/(B/C)", times(&times(a, c), &inverse(b))),
            ("A/B*C", times(&times(a, c), &inverse(b))),
            ("A*B/C", times(&times(a, b), &inverse(c))),
        ] {
            assert_eq!(compare(m, text.as_bytes(), &blocks, s), Ok(value), "{text}");
        }
    }
}

/// Texts that a wrong order of the operations would take for each other have other values.
#[test]
fn readings_that_differ() {
    let mut random = Random::new(1102);
    let blocks = live_blocks(&mut random, 8, 16);
    for texts in [
        ["A+B*C", "(A+B)*C"],
        ["A*B+C", "A*(B+C)"],
        ["A+B/C", "(A+B)/C"],
        ["A/B*C", "A/(B*C)"],
        ["A/B/C", "A/(B/C)"],
        ["A*B'", "(A*B)'"],
        ["A/B'", "(A/B)'"],
        ["A+B'", "(A+B)'"],
        ["A/B", "A*B"],
        ["A/B", "B/A"],
        ["A''", "A'"],
    ] {
        let [one, other] = texts.map(|text| compare(8, text.as_bytes(), &blocks, 16));
        assert_ne!(one, other, "{texts:?}");
    }
}

#[test]
fn drawn_formulas_of_every_depth() {
    let mut random = Random::new(1103);
    for depth in 0..=DEEPEST {
        let mut answers = Answers::default();
        for dead in [false, true].repeat(200) {
            let ((m, _), s) = (random.pick(&field::WORDS), random.pick(&[1, 2, 4, 8]));
            let blocks = if dead { with_dead_d(&mut random, m, s) } else { any_blocks(&mut random, m, s) };
            let Written { text, formula, .. } = Written::drawn(&mut random, depth, LONGEST);
            let answer = compare(m, text.as_bytes(), &blocks, s);
            assert_eq!(answer, formula.value(m, slices(&blocks), s), "{text} is read as another formula");
            answers.count(answer);
        }
        assert!(answers.values > 25 && answers.dead > 25, "depth {depth}: {answers:?}");
    }
}

#[test]
fn drawn_formulas_of_every_length_and_width() {
    let mut random = Random::new(1104);
    for (m, s) in widths_and_lengths() {
        // The matrices take their time.
        let (count, room) = if s <= 128 { ((128 / s).clamp(2, 20), 40) } else { (2, 20) };
        for _ in 0..count {
            let blocks = live_blocks(&mut random, m, s);
            let text = drawn_text(&mut random, room);
            assert_ne!(compare(m, text.as_bytes(), &blocks, s), Err(16), "{text}");
        }
    }
}

/// Nine brackets inside each other are 16, whatever stands between them; eight are not, and any number may stand side by
/// side.
#[test]
fn the_ninth_bracket() {
    let mut random = Random::new(1105);
    let blocks = live_blocks(&mut random, 5, 2);
    for depth in 0..=LONGEST / 2 - 1 {
        let nested = |text: &str| "(".repeat(depth) + text + &")".repeat(depth);
        let expected = if depth <= DEEPEST { Ok(blocks[0].clone()) } else { Err(16) };
        assert_eq!(compare(5, nested("A").as_bytes(), &blocks, 2), expected, "depth {depth}");
        for text in [nested("A") + "+B", "B*".to_string() + &nested("A"), nested("A") + "/" + &nested("B")] {
            let refused = text.len() > LONGEST || depth > DEEPEST;
            assert_eq!(compare(5, text.as_bytes(), &blocks, 2).err(), refused.then_some(16), "{text}");
        }
    }
    for _ in 0..400 {
        let text = Written::drawn(&mut random, DEEPEST + 1, LONGEST).text;
        assert_eq!(compare(5, text.as_bytes(), &blocks, 2), Err(16), "{text}");
    }
    let beside = ["(A)"; 32].join("*");
    assert_eq!(beside.len(), LONGEST - 1);
    compare(5, beside.as_bytes(), &blocks, 2).expect("brackets side by side");
}

/// Each byte replaced by each other byte or left out, and each byte put in at every place.
#[test]
fn one_byte_away_from_a_formula() {
    let mut random = Random::new(1106);
    let mut texts: Vec<String> = ["A", "A+B*A'", "A/B/(A*D)", "((A'))'*B''"].map(String::from).to_vec();
    texts.extend((0..=DEEPEST).map(|depth| Written::drawn(&mut random, depth, 20).text));
    let mut answers = Answers::default();
    for text in texts.iter().map(String::as_bytes) {
        let blocks = with_dead_d(&mut random, 4, 2);
        for place in 0..=text.len() {
            let (before, behind) = text.split_at(place);
            let without = behind.get(1..);
            for byte in 0..=u8::MAX {
                for behind in [Some(behind), without].into_iter().flatten() {
                    answers.count(compare(4, &[before, &[byte], behind].concat(), &blocks, 2));
                }
            }
            if let Some(behind) = without {
                answers.count(compare(4, &[before, behind].concat(), &blocks, 2));
            }
        }
    }
    assert!(answers.each_above(50), "{answers:?}");
}

/// Every text of up to five bytes of A, D, which is dead, and the signs.
#[test]
fn all_short_texts() {
    let mut random = Random::new(1107);
    let (alphabet, blocks) = (b"AD'*/+()", with_dead_d(&mut random, 3, 2));
    let mut answers = Answers::default();
    for length in 0..=5 {
        for index in 0..alphabet.len().pow(length) {
            let text: Vec<u8> = (0..length).map(|i| alphabet[index / alphabet.len().pow(i) % alphabet.len()]).collect();
            answers.count(compare(3, &text, &blocks, 2));
        }
    }
    assert!(answers.each_above(50), "{answers:?}");
}

#[test]
fn random_texts() {
    let mut random = Random::new(1108);
    let alphabet = b"ABCDDDE'''**//++()";
    let mut answers = Answers::default();
    for _ in 0..50_000 {
        let blocks = lent_by(random.below(16), &with_dead_d(&mut random, 4, 1));
        let text: Vec<u8> = (0..1 + random.below(8)).map(|_| random.pick(alphabet)).collect();
        answers.count(compare(4, &text, &blocks, 1));
    }
    assert!(answers.each_above(50), "{answers:?}");
}

/// Drawn formulas with a few bytes replaced, left out, put in or exchanged; most bytes are ones that formulas have.
#[test]
fn random_damage() {
    let mut random = Random::new(1109);
    let alphabet = b"ABCDE'*/+() \0\xFF";
    let mut answers = Answers::default();
    for _ in 0..10_000 {
        let mut text = drawn_text(&mut random, LONGEST).into_bytes();
        for _ in 0..1 + random.below(3) {
            let place = random.below(text.len());
            let (other, byte) = (random.below(text.len()), random.pick(alphabet));
            match random.below(4) {
                0 => text[place] = byte,
                1 if text.len() > 1 => drop(text.remove(place)),
                2 => text.insert(place, byte),
                _ => text.swap(place, other),
            }
        }
        let blocks = with_dead_d(&mut random, 8, 2);
        answers.count(compare(8, &text, &blocks, 2));
    }
    assert!(answers.each_above(50), "{answers:?}");
}

/// A text of one byte is a letter, with its block lent, or 16.
#[test]
fn every_byte_by_itself() {
    let mut random = Random::new(1110);
    let all = any_blocks(&mut random, 6, 4);
    for choice in 0..16 {
        let blocks = lent_by(choice, &all);
        for byte in 0..=u8::MAX {
            let lent = LETTERS.iter().position(|&letter| letter == byte).filter(|&place| choice >> place & 1 == 1);
            let expected = lent.map(|place| all[place].clone()).ok_or(16);
            assert_eq!(compare(6, &[byte], &blocks, 4), expected, "byte {byte} with {blocks:?}");
        }
    }
}

/// A letter whose block isn't lent is 16 wherever it stands; blocks that aren't named may be lent or not.
#[test]
fn letters_with_no_block_lent() {
    let mut random = Random::new(1111);
    for _ in 0..300 {
        let text = drawn_text(&mut random, 40);
        let all = live_blocks(&mut random, 8, 4);
        let value = compare(8, text.as_bytes(), &all, 4);
        for choice in 0..16 {
            let blocks = lent_by(choice, &all);
            let missing = (0..4).any(|place| choice >> place & 1 == 0 && text.as_bytes().contains(&LETTERS[place]));
            let expected = if missing { Err(16) } else { value.clone() };
            assert_eq!(compare(8, text.as_bytes(), &blocks, 4), expected, "{text} with {blocks:?}");
        }
    }
}

/// Formulas filled up by marks: from 129 bytes on they are 16, as is the empty text. D is dead, which is looked for later.
#[test]
fn lengths_of_texts() {
    let mut random = Random::new(1112);
    let blocks = with_dead_d(&mut random, 7, 4);
    let marked = |text: &str, length: usize| text.to_string() + &"'".repeat(length - text.len());
    assert_eq!(compare(7, b"", &blocks, 4), Err(16));
    let inverse = compare(7, b"A'", &blocks, 4).expect("an inverse");
    for length in 1..=LONGEST {
        let value = if length % 2 == 1 { &blocks[0] } else { &inverse };
        assert_eq!(compare(7, marked("A", length).as_bytes(), &blocks, 4).as_ref(), Ok(value), "{length} bytes");
    }
    assert_eq!(compare(7, marked("D", LONGEST).as_bytes(), &blocks, 4), Err(9));
    // Among them ones that a cut to fewer bits would bring back in.
    for length in [129, 130, 131, 192, 255, 256, 257, 256 + 128, 512, 65535, 65536, 65536 + 1, 65536 + 128] {
        for letter in ["A", "D"] {
            assert_eq!(compare(7, marked(letter, length).as_bytes(), &blocks, 4), Err(16), "{length} bytes");
        }
    }
    for _ in 0..100 {
        let text = drawn_text(&mut random, LONGEST);
        assert_ne!(compare(7, marked(&text, LONGEST).as_bytes(), &blocks, 4), Err(16), "{text}");
        assert_eq!(compare(7, marked(&text, LONGEST + 1).as_bytes(), &blocks, 4), Err(16), "{text}");
    }
}

extern "C" {
    /// As `include/zovunelith.h` declares it.
    fn zov_formula(
        m: u32,
        text: *const u8,
        text_length: usize,
        a: *const Elem,
        a_length: usize,
        b: *const Elem,
        b_length: usize,
        c: *const Elem,
        c_length: usize,
        d: *const Elem,
        d_length: usize,
        out: *mut Elem,
        out_length: usize,
    ) -> i32;
}

/// A null pointer with length 0 is a block that isn't lent, an empty text, or a result of a length that no block has.
#[test]
fn null_pointers() {
    let mut random = Random::new(1113);
    let all = live_blocks(&mut random, 5, 4);
    for (choice, result_length) in (0..16).flat_map(|choice| [(choice, 4), (choice, 0)]) {
        let blocks = lent_by(choice, &all);
        let [a, b, c, d] = slices(&blocks);
        for text in ["", "A", "B", "C", "D", "A+B", "C/D'", "A+B*C'/D"].map(str::as_bytes) {
            let expected = reference::formula(5, text, [a, b, c, d], result_length);
            let mut result: Lent<Elem> = Lent::marked(result_length);
            let out = result.slice_mut();
            // SAFETY: each pointer goes with the length of its slice, which is 0 for a null pointer.
            let returned = unsafe {
                zov_formula(
                    5,
                    pointer(text),
                    text.len(),
                    pointer(a),
                    a.len(),
                    pointer(b),
                    b.len(),
                    pointer(c),
                    c.len(),
                    pointer(d),
                    d.len(),
                    pointer_mut(out),
                    out.len(),
                )
            };
            let number = expected.as_ref().map_or_else(|&number| -(number as i32), |_| 0);
            assert_eq!(returned, number, "{:?} of {blocks:?}", String::from_utf8_lossy(text));
            result.assert_holds(expected.as_deref().ok());
        }
    }
}

/// 9 where the inverse of D is asked for, or of what D makes dead, and of a sum that is zero; wherever else D stands it
/// does no harm.
#[test]
fn dead_blocks() {
    let mut random = Random::new(1114);
    let dead =
        "D' D'' (D)' D'*A A*D' D'+A A+D' D/D A/D A/D' A/D*B A/D/B A/B/D A*B/D A'/D' (A/D)' (A*D)' (D*A)' A/(B*D) \
        A/(D/B) A+B*(C+D') ((((((((D')))))))) (D+D)' (D*A+B*D)' (A+A)' A/(B+B) D*(A+A)' (A+A)*D' (A+A)*B+C/D";
    let alive = "D D*A A*D D+A D/A D*D D*B' A'*D A/B*D D/A/B (D+A)/B (A+D)' A/(B+D) (D*D+A)'";
    for (m, _) in field::WORDS {
        for s in [1, 2, 4, 16] {
            let blocks = with_dead_d(&mut random, m, s);
            for text in dead.split_whitespace() {
                assert_eq!(compare(m, text.as_bytes(), &blocks, s), Err(9), "{text}");
            }
            for text in alive.split_whitespace() {
                compare(m, text.as_bytes(), &blocks, s).expect(text);
            }
        }
    }
}

/// A dead block at each place of a letter in turn. The sum of a block's elements goes through a formula by itself: with
/// the sums as blocks of one element the same number is given, or the sum of the value's elements.
#[test]
fn dead_blocks_at_every_place() {
    let mut random = Random::new(1115);
    let sum = |block: &Vec<Elem>| vec![block.iter().fold(0, |sum, entry| sum ^ entry)];
    let mut answers = Answers::default();
    for _ in 0..300 {
        let text = drawn_text(&mut random, 40).replace('D', "A");
        let blocks = with_dead_d(&mut random, 8, 4);
        for place in (0..text.len()).filter(|&place| LETTERS.contains(&text.as_bytes()[place])) {
            let mut text = text.clone();
            text.replace_range(place..=place, "D");
            let answer = compare(8, text.as_bytes(), &blocks, 4);
            let of_sums = compare(8, text.as_bytes(), &blocks.each_ref().map(sum), 1);
            assert_eq!(answer.as_ref().map(sum).map_err(|&number| number), of_sums, "{text} of {blocks:?}");
            answers.count(answer);
        }
    }
    assert!(answers.values > 100 && answers.dead > 100 && answers.no_formula == 0, "{answers:?}");
}

/// Texts within the rules and outside of them, for faults that are looked for before them.
const TEXTS: [&[u8]; 5] = [b"A", b"A+B*C'/D", b"", b"A+", b"E"];

/// Where no block is lent as where some are.
#[test]
fn lengths_that_no_block_has() {
    let mut random = Random::new(1116);
    for (m, _) in field::WORDS {
        for s in BAD_BLOCK_LENGTHS {
            let all = any_blocks(&mut random, m, s);
            for choice in 0..16 {
                for text in TEXTS {
                    assert_eq!(compare(m, text, &lent_by(choice, &all), s), Err(2), "width {m}, length {s}");
                }
            }
        }
    }
}

/// With no block lent no text is a formula, but it is 2 that a wrong length of the result gives.
#[test]
fn no_block_lent() {
    let mut random = Random::new(1117);
    let none: Blocks = Default::default();
    for result_length in (0..=520).chain([640, 1024, 65536 + 4, 65536 + 512]) {
        let number = if LENGTHS.contains(&result_length) { 16 } else { 2 };
        let drawn = drawn_text(&mut random, LONGEST);
        for text in TEXTS.into_iter().chain([drawn.as_bytes()]) {
            assert_eq!(compare(8, text, &none, result_length), Err(number), "length {result_length}");
        }
    }
}

/// A lent block of another length than the result's is 2, named in the text or not.
#[test]
fn blocks_of_other_lengths() {
    let mut random = Random::new(1118);
    for s in LENGTHS {
        let lengths = [0, s, 2 * s, s / 2, s + 1, 256 + s];
        for index in 0..lengths.len().pow(4) {
            let chosen = [0, 1, 2, 3].map(|place| lengths[index / lengths.len().pow(place) % lengths.len()]);
            let blocks = chosen.map(|length| block(&mut random, 5, length));
            let answer = compare(5, b"A", &blocks, s);
            let wrong = chosen.iter().any(|&length| length != 0 && length != s);
            let number = if wrong { Some(2) } else { (chosen[0] == 0).then_some(16) };
            assert_eq!(answer.err(), number, "{chosen:?} into {s}");
        }
        for letter in 0..4 {
            let mut blocks = any_blocks(&mut random, 5, s);
            blocks[letter].resize(65536 + s, 1);
            assert_eq!(compare(5, b"A", &blocks, s), Err(2), "block {letter} of {s}");
        }
    }
}

/// An element of q or more is 3 at every place of every lent block, named in the text or not.
#[test]
fn strangers_anywhere() {
    let mut random = Random::new(1119);
    for (m, _) in field::WORDS.into_iter().filter(|entry| entry.0 < Elem::BITS) {
        for s in [1, 2, 8, 128, 512] {
            let all = any_blocks(&mut random, m, s);
            let places = if s <= 128 { (0..s).collect() } else { random.places(s, 8) };
            for (letter, &place) in (0..4).flat_map(|letter| places.iter().map(move |place| (letter, place))) {
                let mut blocks = lent_by(random.below(16) | 1 << letter, &all);
                blocks[letter][place] = random.pick(&strange_entries(m));
                for text in TEXTS {
                    assert_eq!(compare(m, text, &blocks, s), Err(3), "width {m}, block {letter}, place {place} of {s}");
                }
            }
        }
    }
}

#[test]
fn widths_outside_the_table() {
    for m in BAD_WIDTHS {
        for blocks in [[vec![1, 2], vec![3, 3], vec![1], vec![]], [vec![1, 2], vec![255, 0], vec![], vec![]]] {
            for (text, result_length) in TEXTS.into_iter().flat_map(|text| [(text, 2), (text, 3)]) {
                assert_eq!(compare(m, text, &blocks, result_length), Err(1), "width {m}");
            }
        }
    }
}

/// The faults 1, 2, 3, 16 and 9 in every choice of them: the one that is looked for first is given.
#[test]
fn faults_together() {
    let mut random = Random::new(1120);
    for (m, _) in field::WORDS {
        for s in [1, 2, 4, 16] {
            for choice in 0..128_u32 {
                let [width, block_length, result_length, stranger, text, letter, dead] =
                    [0, 1, 2, 3, 4, 5, 6].map(|i| choice >> i & 1 == 1);
                if stranger && m >= Elem::BITS {
                    continue;
                }
                let mut blocks = live_blocks(&mut random, m, s);
                if dead {
                    blocks[2] = dead_block(&mut random, m, s);
                }
                if letter {
                    blocks[3].clear();
                }
                if stranger {
                    blocks[random.below(3)][random.below(s)] = Elem::MAX;
                }
                if block_length {
                    blocks[random.below(3)].push(1);
                }
                let mut given = b"A+B/C*D".to_vec();
                if text {
                    let place = random.below(given.len() + 1);
                    given.insert(place, random.pick(b"E ()+*/\0\xFF"));
                }
                let result = if result_length { random.pick(&[3 * s, 4 * s]) } else { s };
                let width_given = if width { random.pick(&BAD_WIDTHS) } else { m };
                let number = match (width, block_length || result_length, stranger, text || letter, dead) {
                    (true, ..) => Some(1),
                    (_, true, ..) => Some(2),
                    (_, _, true, ..) => Some(3),
                    (_, _, _, true, _) => Some(16),
                    (.., true) => Some(9),
                    _ => None,
                };
                assert_eq!(compare(width_given, &given, &blocks, result).err(), number);
            }
        }
    }
}

/// All letters may stand for one and the same slice.
#[test]
fn one_slice_for_all_blocks() {
    let mut random = Random::new(1121);
    for (m, _) in field::WORDS {
        for s in [1, 2, 8, 32] {
            let a = Lent::holding(&live_block(&mut random, m, s));
            let expected = reference::formula(m, b"A*B+C/D", [a.slice(); 4], s);
            let mut result = Lent::marked(s);
            assert_eq!(library::formula(m, b"A*B+C/D", [a.slice(); 4], result.slice_mut()), Ok(()));
            result.assert_holds(expected.as_deref().ok());
            a.assert_unchanged();
        }
    }
}
