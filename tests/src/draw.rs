//! Random blocks, codes and selections: accepted ones of every shape, with places hidden or not, and codes and marks
//! with chosen faults.

use crate::bits::{places_of, BAD_BYTES};
use crate::random::Random;
use crate::reference::columns::{block_count, Selection, Setting};
use crate::reference::essence::is_sum;
use crate::reference::field;
use crate::reference::params::{Params, Shape, LENGTHS, ROWS};
use crate::reference::words::Code;
use crate::Elem;

/// Every shape for which a code can be accepted: n is at most q/2 and t at most n/2.
pub fn shapes() -> Vec<Shape> {
    let mut shapes = Vec::new();
    for (m, _) in field::WORDS {
        for n in LENGTHS.into_iter().filter(|&n| n <= field::size(m) / 2) {
            shapes.extend(ROWS.into_iter().filter(|&t| t <= n / 2).map(|t| (m, n, t)));
        }
    }
    shapes
}

/// The m and n among them, for which a signature can be accepted.
pub fn signature_shapes() -> Vec<(u32, u32)> {
    shapes().into_iter().filter(|shape| shape.2 == 1).map(|(m, n, _)| (m, n)).collect()
}

/// Whether a code is over one of the small fields, for which everything is tried that can be.
pub fn is_small(shape: &Shape) -> bool {
    shape.0 <= 8
}

/// Fewer shapes, for tests with many trials of each. Over small fields there are all. Over large ones every n stands
/// once with every t, and the widths take turns. The widest and longest codes are there with the fewest rows and with
/// the most.
pub fn fewer_shapes() -> Vec<Shape> {
    let (mut fewer, large): (Vec<Shape>, Vec<Shape>) = shapes().into_iter().partition(is_small);
    // The greatest width has every n with every t.
    for (turn, &(_, n, t)) in large.iter().filter(|shape| shape.0 == 16).enumerate() {
        let alike: Vec<Shape> = large.iter().copied().filter(|shape| (shape.1, shape.2) == (n, t)).collect();
        fewer.push(alike[turn % alike.len()]);
    }
    fewer.extend([(16, 512, 1), (16, 512, 256)]);
    fewer
}

/// How often to try a code, if those over small fields are tried `often`: over large ones there are many, and calls on
/// the longest take their time.
pub fn rounds(shape: Shape, often: usize) -> usize {
    if is_small(&shape) {
        often
    } else if shape.1 <= 128 {
        often.div_ceil(4)
    } else {
        often.div_ceil(8)
    }
}

/// Every choice among three things, as bits.
pub const CHOICES: [u32; 8] = [0, 1, 2, 3, 4, 5, 6, 7];

/// All of a list, or over large fields some.
pub fn all_or_some<T: Clone>(random: &mut Random, shape: Shape, list: &[T]) -> Vec<T> {
    let places = random.places(list.len(), rounds(shape, list.len()));
    places.into_iter().map(|place| list[place].clone()).collect()
}

/// Every place below `length`, or over large fields the first, the last and some between.
pub fn every_place(random: &mut Random, shape: Shape, length: usize) -> Vec<usize> {
    if is_small(&shape) {
        (0..length).collect()
    } else {
        places_to_try(random, shape, length)
    }
}

/// Places below `length` to try one by one: all of few, and of many the first, the last and some between.
pub fn places_to_try(random: &mut Random, shape: Shape, length: usize) -> Vec<usize> {
    let between = rounds(shape, 14);
    if length <= 2 * between + 4 {
        return (0..length).collect();
    }
    let between = random.places(length - 2, between).into_iter().map(|place| place + 1);
    [0].into_iter().chain(between).chain([length - 1]).collect()
}

/// An element.
pub fn element(random: &mut Random, m: u32) -> Elem {
    random.below(field::size(m) as usize) as Elem
}

/// An element other than zero.
pub fn nonzero(random: &mut Random, m: u32) -> Elem {
    1 + random.below(field::size(m) as usize - 1) as Elem
}

/// A block.
pub fn block(random: &mut Random, m: u32, s: usize) -> Vec<Elem> {
    (0..s).map(|_| element(random, m)).collect()
}

/// Every list of this many elements there is.
pub fn every_list(m: u32, length: usize) -> impl Iterator<Item = Vec<Elem>> {
    let q = field::size(m) as usize;
    let nth = move |index: usize| (0..length as u32).map(|i| (index / q.pow(i) % q) as Elem).collect();
    (0..q.pow(length as u32)).map(nth)
}

/// A block whose elements have this sum.
fn block_of_sum(random: &mut Random, m: u32, s: usize, sum: Elem) -> Vec<Elem> {
    let mut block = block(random, m, s);
    let total = block.iter().fold(sum, |sum, entry| sum ^ entry);
    block[random.below(s)] ^= total;
    block
}

/// A block whose elements sum to zero, so that it has no inverse.
pub fn dead_block(random: &mut Random, m: u32, s: usize) -> Vec<Elem> {
    block_of_sum(random, m, s, 0)
}

/// A block that has an inverse.
pub fn live_block(random: &mut Random, m: u32, s: usize) -> Vec<Elem> {
    let sum = nonzero(random, m);
    block_of_sum(random, m, s, sum)
}

/// The sum of those of `values` that the bits of `choice` choose.
pub fn chosen(values: &[Elem], choice: usize) -> Elem {
    (0..values.len()).filter(|&bit| choice >> bit & 1 == 1).fold(0, |sum, bit| sum ^ values[bit])
}

/// The signature whose 1/h_i is `first` plus those of `steps` that the bits of i choose. It keeps the rule for 1/h
/// whatever the steps are, with 0 for 1/0 where a choice of them sums to `first`.
pub fn signature_from(m: u32, first: Elem, steps: &[Elem]) -> Vec<Elem> {
    let entry = |i| field::inverse(m, (first ^ chosen(steps, i)).into()).expect("an element") as Elem;
    (0..1 << steps.len()).map(entry).collect()
}

/// An element that is no sum of some of `values`, of which there are fewer than m.
pub fn outside(random: &mut Random, m: u32, values: &[Elem]) -> Elem {
    loop {
        let drawn = element(random, m);
        if !is_sum(values, drawn) {
            return drawn;
        }
    }
}

/// Values of which no two choices have the same sum, at most m.
pub fn independent(random: &mut Random, m: u32, count: u32) -> Vec<Elem> {
    let mut values = Vec::new();
    for _ in 0..count {
        values.push(outside(random, m, &values));
    }
    values
}

/// An accepted signature; n is at most q/2.
pub fn signature(random: &mut Random, m: u32, n: u32) -> Vec<Elem> {
    let steps = independent(random, m, n.ilog2());
    let first = outside(random, m, &steps);
    signature_from(m, first, &steps)
}

/// A signature with a zero at this place that keeps every other rule, if 0 stands for 1/0; n is at most q.
pub fn blank_signature(random: &mut Random, m: u32, n: u32, place: usize) -> Vec<Elem> {
    let steps = independent(random, m, n.ilog2());
    signature_from(m, chosen(&steps, place), &steps)
}

/// A signature with equal entries that keeps the rule for 1/h and has no zero, of any length.
pub fn twin_signature(random: &mut Random, m: u32, n: u32) -> Vec<Elem> {
    let mut steps = independent(random, m, n.ilog2().min(m - 1) - 1);
    let first = outside(random, m, &steps);
    // The steps that are left are sums of the others, so two choices of steps agree.
    while steps.len() < n.ilog2() as usize {
        let (place, choice) = (random.below(steps.len() + 1), random.below(1 << steps.len()));
        steps.insert(place, chosen(&steps, choice));
    }
    signature_from(m, first, &steps)
}

/// An accepted code with a random offset, which hides nothing.
pub fn params(random: &mut Random, m: u32, n: u32, t: u32) -> Params {
    let h = signature(random, m, n);
    Params::new(m, t, element(random, m).into(), h)
}

/// Offsets to try one by one: all of them, or in a large field the first, the last and some between.
pub fn offsets(random: &mut Random, m: u32) -> Vec<u32> {
    if m <= 8 {
        return (0..field::size(m)).collect();
    }
    let between = (0..14).map(|_| element(random, m).into());
    [0].into_iter().chain(between).chain([field::size(m) - 1]).collect()
}

/// A selection of `count` blocks of an accepted code, in any order and with any shifts. It hides nothing.
pub fn selection(random: &mut Random, params: &Params, count: usize) -> Selection {
    let blocks: Vec<u32> = random.choice(block_count(params), count).into_iter().map(|block| block as u32).collect();
    let shifts: Vec<u32> = (0..count).map(|_| random.below(params.t as usize) as u32).collect();
    Selection::new(params, &blocks, &shifts)
}

/// A selection of any number of blocks.
pub fn any_selection(random: &mut Random, params: &Params) -> Selection {
    let count = 1 + random.below(block_count(params));
    selection(random, params, count)
}

/// An accepted setting with message columns hidden, where there are any: one, some or all of them.
pub fn shortened<S: Setting>(random: &mut Random, setting: &S) -> S {
    let columns = places_of(1, &setting.code().roles);
    let counts = [columns.len().min(1), columns.len(), random.below(columns.len() + 1)];
    let count = random.pick(&counts);
    hiding_some(random, setting, &columns, count)
}

/// An accepted setting with so many of its message columns sent, or all where there are no more, and the others hidden.
pub fn shortened_to<S: Setting>(random: &mut Random, setting: &S, k: usize) -> S {
    let columns = places_of(1, &setting.code().roles);
    hiding_some(random, setting, &columns, columns.len().saturating_sub(k))
}

/// The setting with so many of these places hidden.
fn hiding_some<S: Setting>(random: &mut Random, setting: &S, places: &[usize], count: usize) -> S {
    let chosen: Vec<usize> = random.choice(places.len(), count).into_iter().map(|index| places[index]).collect();
    setting.hiding(&chosen)
}

/// A code of each shape with n at most `longest`, beside each the code over a selection of its blocks, and beside both
/// what is left with message columns hidden.
pub fn codes(random: &mut Random, shapes: Vec<Shape>, longest: u32) -> Vec<Code> {
    let mut codes = Vec::new();
    for (m, n, t) in shapes.into_iter().filter(|shape| shape.1 <= longest) {
        let params = params(random, m, n, t);
        let selection = any_selection(random, &params);
        codes.extend([params.code(), selection.code()]);
        codes.extend([shortened(random, &params).code(), shortened(random, &selection).code()]);
    }
    codes
}

/// A fault of a code.
#[derive(Clone, Copy, Debug, PartialEq)]
pub enum CodeFault {
    /// m outside 2 to 16.
    Width,
    /// n is no length of a code, or another than h's.
    Length,
    /// h is shorter or longer than n.
    SignatureLength,
    /// An entry of q or more.
    Entry,
    /// An offset of q or more.
    Offset,
    /// A zero among the entries.
    Blank,
    /// One entry is another than the rule for 1/h asks for.
    Crossed,
    /// Two entries are equal.
    Twin,
    /// t is no power of two from 1 to n/2.
    Rows,
}

impl CodeFault {
    pub fn number(self) -> u32 {
        match self {
            CodeFault::Width => 1,
            CodeFault::Length | CodeFault::SignatureLength => 2,
            CodeFault::Entry | CodeFault::Offset => 3,
            CodeFault::Blank => 4,
            CodeFault::Crossed => 5,
            CodeFault::Twin => 6,
            CodeFault::Rows => 7,
        }
    }
}

/// The faults that a code of this shape can have: a stranger among the entries needs a width whose elements leave
/// room in their type, and with n = 2 the rule for 1/h can't be broken.
pub fn code_faults(m: u32, n: u32) -> Vec<CodeFault> {
    use CodeFault::*;
    let all = [Width, Length, SignatureLength, Entry, Offset, Blank, Crossed, Twin, Rows];
    let possible = |fault: &CodeFault| match fault {
        Entry => field::size(m) <= u32::from(Elem::MAX),
        Crossed => n >= 4,
        _ => true,
    };
    all.into_iter().filter(possible).collect()
}

/// Each fault of a code for itself and every two of them together.
pub fn singles_and_pairs(m: u32, n: u32) -> Vec<Vec<CodeFault>> {
    one_or_two(&code_faults(m, n))
}

/// Each fault for itself and every two of them together.
pub fn one_or_two<Fault: Copy>(faults: &[Fault]) -> Vec<Vec<Fault>> {
    let mut sets: Vec<Vec<Fault>> = faults.iter().map(|&fault| vec![fault]).collect();
    for (index, &one) in faults.iter().enumerate() {
        sets.extend(faults[..index].iter().map(|&other| vec![other, one]));
    }
    sets
}

/// A fault of marks.
#[derive(Clone, Copy, Debug, PartialEq)]
pub enum MarkFault {
    /// Another number of marks than of places.
    Length,
    /// A mark other than 0 or 1.
    NoMark,
    /// A hidden check column.
    HiddenCheck,
}

pub const MARK_FAULTS: [MarkFault; 3] = [MarkFault::Length, MarkFault::NoMark, MarkFault::HiddenCheck];

impl MarkFault {
    pub fn number(self) -> u32 {
        match self {
            MarkFault::Length => 2,
            MarkFault::NoMark | MarkFault::HiddenCheck => 20,
        }
    }
}

/// Makes these faults in marks that have none, for places of these roles.
pub fn spoil_marks(random: &mut Random, hidden: &mut Vec<u8>, roles: &[u8], faults: &[MarkFault]) {
    if faults.contains(&MarkFault::HiddenCheck) {
        hidden[random.pick(&places_of(0, roles))] = 1;
    }
    if faults.contains(&MarkFault::NoMark) {
        hidden[random.below(roles.len())] = random.pick(&BAD_BYTES);
    }
    if faults.contains(&MarkFault::Length) {
        hidden.resize(other_length(random, roles.len()), 0);
    }
}

/// Widths outside the table, among them ones that a cut to fewer bits would bring back in.
pub const BAD_WIDTHS: [u32; 15] =
    [0, 1, 17, 18, 31, 32, 33, 64 + 5, 255, 256 + 5, 256 + 16, 65536 + 5, 65536 + 16, 1 << 31, u32::MAX];

/// Lengths that no block has.
pub const BAD_BLOCK_LENGTHS: [usize; 18] =
    [0, 3, 5, 6, 7, 12, 24, 96, 127, 129, 192, 255, 257, 384, 511, 513, 640, 1024];

/// Numbers n that no code has, among them ones that a cut to fewer bits would bring back in.
pub const BAD_LENGTHS: [u32; 19] =
    [0, 1, 3, 6, 24, 127, 129, 255, 257, 256 + 16, 384, 511, 513, 640, 1024, 65536 + 4, 65536 + 512, 1 << 31, u32::MAX];

/// Numbers of q or more, which are no elements; among them ones that a cut to fewer bits would bring back in.
pub fn strangers(m: u32) -> Vec<u32> {
    let q = field::size(m);
    let mut strangers = vec![q, q + 1, 2 * q - 1, 2 * q, 255, 256, 257, 65535, 65536, 65537, 1 << 31, u32::MAX];
    strangers.retain(|&number| number >= q);
    strangers
}

/// Those of them that a signature or a block can hold.
pub fn strange_entries(m: u32) -> Vec<Elem> {
    strangers(m).into_iter().filter_map(|number| number.try_into().ok()).collect()
}

/// Lengths that are not this one, among them ones that a cut to fewer bits would bring back to it.
pub fn other_lengths(length: usize) -> Vec<usize> {
    let all = [0, length.saturating_sub(1), length + 1, length / 2, 2 * length, 256 + length, 65536 + length];
    all.into_iter().filter(|&other| other != length).collect()
}

/// One of them; seldom the longest, which takes its time.
pub fn other_length(random: &mut Random, length: usize) -> usize {
    let mut others = other_lengths(length);
    if random.below(16) > 0 {
        others.pop();
    }
    random.pick(&others)
}

/// A code with exactly these faults. The lower its number, the later a fault is made: it can then cover one with a
/// higher number, which is not the one to be given, but is never covered itself.
pub fn damaged_code(random: &mut Random, m: u32, n: u32, t: u32, faults: &[CodeFault]) -> Params {
    let mut params = params(random, m, n, t);
    let has = |fault: CodeFault| faults.contains(&fault);
    if has(CodeFault::Rows) {
        params.t = random.pick(&[0, 3, n - 1, n, 2 * n, 96, 384, 256 + t, 65536 + t, u32::MAX]);
        if params.t.is_power_of_two() && params.t <= n / 2 {
            params.t = 0;
        }
    }
    if has(CodeFault::Twin) {
        params.h = twin_signature(random, m, n);
    }
    if has(CodeFault::Crossed) {
        let place = random.below(n as usize);
        let before = params.h[place];
        while params.h[place] == before {
            params.h[place] = nonzero(random, m);
        }
    }
    if has(CodeFault::Blank) {
        let place = random.below(n as usize);
        params.h[place] = 0;
    }
    if has(CodeFault::Offset) {
        params.omega = random.pick(&strangers(m));
    }
    if has(CodeFault::Entry) {
        let place = random.below(n as usize);
        let room = usize::from(Elem::MAX) + 1 - field::size(m) as usize;
        params.h[place] = Elem::MAX - random.below(room) as Elem;
    }
    if has(CodeFault::SignatureLength) {
        params.h.resize(other_length(random, n as usize), 1);
    }
    if has(CodeFault::Length) {
        params.n = random.pick(&BAD_LENGTHS);
        if random.below(2) == 0 && params.n <= 1024 {
            params.h.resize(params.n as usize, 1);
            params.hidden.resize(params.n as usize, 0);
        }
    }
    if has(CodeFault::Width) {
        params.m = random.pick(&BAD_WIDTHS);
    }
    params
}

#[cfg(test)]
mod tests {
    use super::*;

    #[test]
    fn every_shape() {
        let shapes = shapes();
        assert_eq!(shapes.len(), 435);
        assert_eq!(shapes.iter().filter(|shape| is_small(shape)).count(), 84);
        assert!(shapes.contains(&(2, 2, 1)) && shapes.contains(&(16, 512, 256)) && !shapes.contains(&(9, 512, 1)));
    }

    #[test]
    fn fewer_shapes_leave_no_number_out() {
        let (all, fewer) = (shapes(), fewer_shapes());
        assert!(fewer.iter().all(|shape| all.contains(shape)));
        assert!(all.iter().filter(|shape| is_small(shape)).all(|shape| fewer.contains(shape)));
        for &(m, n, t) in &all {
            let large = |shape: &Shape| !is_small(shape) && (shape.1, shape.2) == (n, t);
            assert!(fewer.iter().any(large), "n {n}, t {t}");
            assert!(n < 256 || fewer.iter().any(|shape| (shape.0, shape.1) == (m, n)), "m {m}, n {n}");
        }
    }
}
