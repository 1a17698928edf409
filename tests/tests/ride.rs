//! Rides, against the list of their steps' ends, and against the same steps made by hand.

use std::collections::BTreeSet;
use zovunelith::{Lamp, Step};
use zovunelith_tests::bits::{bits, ones_at, BAD_BYTES};
use zovunelith_tests::canary::{pointer, pointer_mut, Lent};
use zovunelith_tests::draw::{self, other_length, other_lengths, CodeFault, MarkFault, BAD_LENGTHS, BAD_WIDTHS};
use zovunelith_tests::expect::ride_gives;
use zovunelith_tests::library::ride as library;
use zovunelith_tests::random::Random;
use zovunelith_tests::reference::columns::Setting;
use zovunelith_tests::reference::params::{code_a, code_t, Params, Shape};
use zovunelith_tests::reference::repair::Decoder;
use zovunelith_tests::reference::ride::{self as reference, counts, End, Lists, Ridden, COUNTS, LONGEST};
use zovunelith_tests::reference::rows::{self, message, Row};
use zovunelith_tests::reference::words::Code;
use zovunelith_tests::rides::{
    any_lists, any_ride, compare, compare_steps, done, marks_towards, push, refused, spoil_mark, spoil_row, steps_give,
    steps_of, NO_ROWS,
};
use zovunelith_tests::Elem;

/// A code of each shape.
fn codes(random: &mut Random, shapes: Vec<Shape>) -> Vec<Code> {
    shapes.into_iter().map(|(m, n, t)| Code::new(&draw::params(random, m, n, t))).collect()
}

/// One of each of the fewer shapes that has room for rows.
fn decoders(random: &mut Random) -> Vec<Decoder> {
    let wide = codes(random, draw::fewer_shapes()).into_iter().filter(|code| code.k() >= rows::BITS);
    let decoders: Vec<Decoder> = wide.map(Decoder::new).collect();
    assert!(decoders.len() >= 35, "only {} shapes were wide enough", decoders.len());
    decoders
}

#[test]
fn cases() {
    let ride = |steps: &[(u8, u8, &[usize])]| {
        let mut lists = Lists::default();
        steps.iter().for_each(|&(gear, lamp, places)| lists.push(gear, lamp, &ones_at(16, places)));
        lists
    };
    let gives = |lists: &Lists, answer: Result<(), u32>, counts: [u32; COUNTS]| {
        ride_gives(&code_t(), lists, Lent::marked(COUNTS), &Ridden { answer, counts: Some(counts) });
    };
    gives(&ride(&[]), Ok(()), [0, 0, 0, 0]);
    gives(&ride(&[(1, 0, &[0, 8]), (1, 0, &[0, 1, 2]), (7, 1, &[])]), Ok(()), [3, 2, 1, 0]);
    // Neutral, dark is sent as zeros. With the ones of first, dark turned it is read as that, and the other way round.
    let ones = [1, 2, 5, 6, 7, 8];
    gives(&ride(&[(0, 0, &ones), (1, 0, &ones)]), Ok(()), [2, 0, 0, 2]);
    gives(&ride(&[(1, 0, &[]), (1, 1, &[]), (1, 0, &[])]), Err(11), [1, 1, 0, 0]);
    let mut lists = ride(&[(1, 0, &[]), (1, 0, &[0, 1, 2]), (1, 1, &[])]);
    lists.turned[2 * 16 + 15] = 2;
    gives(&lists, Err(8), [2, 1, 1, 0]);
    // One message column is too narrow for a ride, be it one of no steps.
    ride_gives(&code_a(), &Lists::default(), Lent::marked(COUNTS), &refused(12));
}

/// Code T: every row, turned into a word of every message but for up to two places. It is right if the message is the
/// row's, wrong if it is another row's, and held if it is none's.
#[test]
fn every_row_towards_every_message() {
    let mut random = Random::new(1201);
    let code = Code::new(&code_t());
    let of_rows: Vec<Vec<u8>> = rows::rows().into_iter().map(|row| message(row, 6)).collect();
    for row in rows::rows() {
        for carried in (0..64).map(|number| bits(number, 6)) {
            let end = match of_rows.contains(&carried) {
                true if carried == message(row, 6) => End::Right,
                true => End::Wrong,
                false => End::Held,
            };
            for weight in 0..=2 {
                let mut lists = Lists::default();
                push(&mut lists, row, &marks_towards(&code, row, &carried, &random.places(16, weight)));
                ride_gives(&code_t(), &lists, Lent::marked(COUNTS), &done(&[end]));
            }
        }
    }
}

/// A short ride on every shape that has room for rows.
#[test]
fn rides_of_every_shape() {
    let mut random = Random::new(1215);
    for code in codes(&mut random, draw::shapes()).into_iter().filter(|code| code.k() >= rows::BITS) {
        let lists = any_ride(&mut random, &code, draw::rounds(code.params.shape(), 8));
        compare_steps(&Decoder::new(code), &lists).0.expect("a ride without a fault");
    }
}

/// Rides on codes with room for rows or without. In some of them there are steps that end the ride, and in some a
/// length that is one off. Every end of a step and of a ride is met.
#[test]
fn drawn_rides() {
    let mut random = Random::new(1202);
    let (mut numbers, mut sums) = (BTreeSet::new(), [0; COUNTS]);
    for code in codes(&mut random, draw::fewer_shapes()) {
        let (n, narrow) = (code.length(), code.k() < rows::BITS);
        let decoder = Decoder::new(code);
        let shape = decoder.code.params.shape();
        for _ in 0..draw::rounds(shape, 30) {
            let steps = random.below(if n <= 128 { 12 } else { 4 });
            let mut lists =
                if narrow { any_lists(&mut random, n, steps) } else { any_ride(&mut random, &decoder.code, steps) };
            for step in 0..steps {
                match random.below(40) {
                    0 => spoil_mark(&mut random, &mut lists, n, step),
                    1 => spoil_row(&mut random, &mut lists, step),
                    _ => {}
                }
            }
            let mut counts_length = COUNTS;
            let off = random.below(24);
            match off {
                0 => lists.gears.push(0),
                1 => lists.lamps.push(0),
                2 => lists.turned.push(0),
                3 => counts_length -= 1,
                _ => {}
            }
            if narrow || off <= 3 {
                let ridden = compare(&decoder.code.params, &lists, counts_length);
                assert_eq!(ridden, refused(if off <= 3 { 2 } else { 12 }));
                numbers.insert(ridden.answer.err());
            } else {
                let (answer, counts) = compare_steps(&decoder, &lists);
                numbers.insert(answer.err());
                sums.iter_mut().zip(counts).for_each(|(sum, count)| *sum += count);
            }
        }
    }
    assert_eq!(numbers, BTreeSet::from([None, Some(2), Some(8), Some(11), Some(12)]));
    assert!(sums.iter().all(|&sum| sum > 100), "steps, right, held, wrong: {sums:?}");
}

/// What the library counts, by itself: right, held and wrong add up to the steps, and right are the steps that turn at
/// most t places, since no two code words are that near to one word.
#[test]
fn counts_add_up() {
    let mut random = Random::new(1203);
    for code in decoders(&mut random).into_iter().map(|decoder| decoder.code) {
        for steps in [0, 1, 2, draw::rounds(code.params.shape(), 30)] {
            let lists = any_ride(&mut random, &code, steps);
            let mut ridden = [7; COUNTS];
            let answer = library::lists(&code.params, [&lists.gears, &lists.lamps, &lists.turned], &mut ridden);
            let [all, right, held, wrong] = ridden.map(|count| count as usize);
            assert_eq!((answer, all, right + held + wrong), (Ok(()), steps, steps), "{:?}", code.params);
            let few = |marks: &[u8]| marks.iter().filter(|&&mark| mark == 1).count() <= code.params.t as usize;
            assert_eq!(right, lists.turned.chunks(code.length()).filter(|marks| few(marks)).count());
        }
    }
}

/// With at most t places turned in every step, all are right.
#[test]
fn at_most_t_places() {
    let mut random = Random::new(1204);
    for decoder in decoders(&mut random) {
        let (n, t) = (decoder.code.length(), decoder.code.params.t as usize);
        let mut lists = Lists::default();
        let shape = decoder.code.params.shape();
        for weight in draw::every_place(&mut random, shape, t + 1) {
            for row in draw::all_or_some(&mut random, shape, &rows::rows()) {
                push(&mut lists, row, &ones_at(n, &random.places(n, weight)));
            }
        }
        let steps = lists.gears.len() as u32;
        assert_eq!(compare_steps(&decoder, &lists), (Ok(()), [steps, steps, 0, 0]));
    }
}

/// Code T: every gear and lamp that a byte holds.
#[test]
fn every_gear_and_lamp() {
    for (gear, lamp) in (0..=u8::MAX).flat_map(|gear| (0..=u8::MAX).map(move |lamp| (gear, lamp))) {
        let mut lists = Lists::default();
        lists.push(7, 1, &[0; 16]);
        lists.push(gear, lamp, &[0; 16]);
        let expected = if rows::rows().contains(&Row { gear: gear.into(), lamp: lamp.into() }) {
            done(&[End::Right; 2])
        } else {
            Ridden { answer: Err(11), counts: Some(counts(&[End::Right])) }
        };
        ride_gives(&code_t(), &lists, Lent::marked(COUNTS), &expected);
    }
}

/// A mark other than 0 or 1 is 8, at every place of a step and whatever the byte; with no row to be sent as with one.
#[test]
fn every_mark() {
    let mut random = Random::new(1205);
    for decoder in decoders(&mut random) {
        let n = decoder.code.length();
        let bytes = if n == 16 { (2..=u8::MAX).collect() } else { BAD_BYTES.to_vec() };
        for place in draw::every_place(&mut random, decoder.code.params.shape(), n) {
            let mut lists = any_ride(&mut random, &decoder.code, 1);
            let expected = Ridden { answer: Err(8), ..reference::ride_steps(&decoder, &lists) };
            (0..2).for_each(|_| lists.push(1, 0, &vec![0; n]));
            for &byte in &bytes {
                lists.turned[n + place] = byte;
                for (gear, lamp) in [(1, 0), random.pick(&NO_ROWS)] {
                    (lists.gears[1], lists.lamps[1]) = (gear, lamp);
                    ride_gives(&decoder.code.params, &lists, Lent::marked(COUNTS), &expected);
                }
            }
        }
    }
}

/// A step with a mark that is none and a step with a row that is none, at every two places of a ride: the earlier ends
/// it, and in one step the mark. The steps before are counted.
#[test]
fn the_first_fault_ends_the_ride() {
    let mut random = Random::new(1206);
    for decoder in decoders(&mut random) {
        let n = decoder.code.length();
        let right = any_ride(&mut random, &decoder.code, 6);
        let pairs: Vec<(usize, usize)> = (0..6).flat_map(|mark| (0..6).map(move |row| (mark, row))).collect();
        for (mark, row) in draw::all_or_some(&mut random, decoder.code.params.shape(), &pairs) {
            let mut lists = right.clone();
            spoil_mark(&mut random, &mut lists, n, mark);
            spoil_row(&mut random, &mut lists, row);
            let (answer, [steps, ..]) = compare_steps(&decoder, &lists);
            assert_eq!(answer, Err(if mark <= row { 8 } else { 11 }), "mark in step {mark}, row in step {row}");
            assert_eq!(steps as usize, mark.min(row));
        }
    }
}

/// Up to a thousand steps are ridden; more are 2, be they many more.
#[test]
fn numbers_of_steps() {
    assert_eq!(library::LONGEST, LONGEST);
    let mut random = Random::new(1207);
    let toy = Decoder::new(Code::new(&code_t()));
    for steps in [0, 1, 2, 255, 256, 257, LONGEST - 1, LONGEST] {
        let lists = any_ride(&mut random, &toy.code, steps);
        let (answer, counts) = compare_steps(&toy, &lists);
        assert_eq!((answer, counts[0] as usize), (Ok(()), steps));
    }
    for steps in [LONGEST + 1, LONGEST + 2, 1024, 2 * LONGEST, 65536, 65536 + 1, 65536 + LONGEST] {
        let lists = any_lists(&mut random, 16, steps);
        assert_eq!(compare(&code_t(), &lists, COUNTS), refused(2), "{steps} steps");
    }
    for decoder in decoders(&mut random) {
        let params = &decoder.code.params;
        let mut lists = any_lists(&mut random, decoder.code.length(), LONGEST + 1);
        assert_eq!(compare(params, &lists, COUNTS), refused(2), "{params:?}");
        if params.n > 128 {
            continue; // a thousand steps take their time
        }
        // The last of a thousand steps is ridden, and ends the ride.
        lists.gears.pop();
        lists.lamps.pop();
        lists.turned.fill(0);
        lists.turned.truncate(LONGEST * decoder.code.length());
        lists.gears[LONGEST - 1] = 8;
        let expected = Ridden { answer: Err(11), counts: Some(counts(&[End::Right; LONGEST - 1])) };
        ride_gives(params, &lists, Lent::marked(COUNTS), &expected);
    }
}

/// Each length that is wrong is 2 by itself, with no steps as with some, and before 12.
#[test]
fn lengths_alone() {
    let mut random = Random::new(1208);
    for code in codes(&mut random, draw::fewer_shapes()) {
        let (params, n) = (&code.params, code.length());
        for steps in [0, 1, 3] {
            let right = any_lists(&mut random, n, steps);
            let is_refused = |params: &Params, lists: &Lists, counts_length: usize| {
                assert_eq!(compare(params, lists, counts_length), refused(2), "{params:?}, {steps} steps");
            };
            for length in other_lengths(steps) {
                let (mut gears, mut lamps) = (right.clone(), right.clone());
                gears.gears.resize(length, 0);
                lamps.lamps.resize(length, 0);
                let both = Lists { lamps: lamps.lamps.clone(), ..gears.clone() };
                [gears, lamps, both].iter().for_each(|lists| is_refused(params, lists, COUNTS));
            }
            for length in other_lengths(steps * n).into_iter().chain([(steps + 1) * n]) {
                let mut lists = right.clone();
                lists.turned.resize(length, 0);
                is_refused(params, &lists, COUNTS);
            }
            other_lengths(COUNTS).into_iter().for_each(|length| is_refused(params, &right, length));
            for length in other_lengths(n) {
                let mut params = params.clone();
                params.h.resize(length, 1);
                is_refused(&params, &right, COUNTS);
            }
            for length in BAD_LENGTHS {
                let params = Params { n: length, ..params.clone() };
                is_refused(&params, &right, COUNTS);
                if length <= 1024 {
                    let h = vec![1; length as usize];
                    is_refused(&Params { h, ..params }, &any_lists(&mut random, length as usize, steps), COUNTS);
                }
            }
        }
    }
}

extern "C" {
    /// As `include/zovunelith.h` declares it.
    fn zov_ride(
        m: u32,
        n: u32,
        t: u32,
        omega: u32,
        h: *const Elem,
        h_length: usize,
        hidden: *const u8,
        hidden_length: usize,
        gears: *const u8,
        gears_length: usize,
        lamps: *const u8,
        lamps_length: usize,
        turned: *const u8,
        turned_length: usize,
        counts: *mut u32,
        counts_length: usize,
    ) -> i32;
}

/// Makes a ride as C may, with a null pointer for each empty list, and compares with the second implementation.
#[track_caller]
fn compare_pointers(params: &Params, lists: &Lists, counts_length: usize) -> Ridden {
    let expected = reference::ride(params, lists, counts_length);
    let Params { m, n, t, omega, ref h, ref hidden } = *params;
    let Lists { gears, lamps, turned } = lists;
    let mut counts = Lent::marked(counts_length);
    let out = counts.slice_mut();
    // SAFETY: each pointer goes with the length of its slice, which is 0 for a null pointer.
    let returned = unsafe {
        zov_ride(
            m,
            n,
            t,
            omega,
            pointer(h),
            h.len(),
            pointer(hidden),
            hidden.len(),
            pointer(gears),
            gears.len(),
            pointer(lamps),
            lamps.len(),
            pointer(turned),
            turned.len(),
            pointer_mut(out),
            out.len(),
        )
    };
    let number = expected.answer.map_or_else(|number| -(number as i32), |()| 0);
    assert_eq!(returned, number, "{params:?}, {lists:?}, {counts_length} counts");
    counts.assert_holds(expected.counts.as_ref().map(|counts| counts.as_slice()));
    expected
}

/// A null pointer with length 0 is a list of no steps, or counts, a signature or marks of a wrong length.
#[test]
fn null_pointers() {
    let none = Lists::default();
    assert_eq!(compare_pointers(&code_t(), &none, COUNTS), done(&[]));
    assert_eq!(compare_pointers(&Params { h: vec![], ..code_t() }, &none, COUNTS), refused(2));
    assert_eq!(compare_pointers(&Params { hidden: vec![], ..code_t() }, &none, COUNTS), refused(2));
    assert_eq!(compare_pointers(&code_t(), &none, 0), refused(2));
    assert_eq!(compare_pointers(&code_a(), &none, COUNTS), refused(12));
    // Some of the lists have a step, and the others are null.
    for choice in 1..8 {
        let list = |bit: u32, length: usize| vec![0; length * (choice >> bit & 1)];
        let lists = Lists { gears: list(0, 1), lamps: list(1, 1), turned: list(2, 16) };
        let expected = if choice == 7 { done(&[End::Right]) } else { refused(2) };
        assert_eq!(compare_pointers(&code_t(), &lists, COUNTS), expected);
        assert_eq!(compare_pointers(&code_t(), &lists, 0), refused(2));
    }
}

/// A code with fewer than five message columns is 12, with no steps as with some, and whatever their faults are.
#[test]
fn narrow_codes() {
    let mut random = Random::new(1209);
    let mut narrow = 0;
    for code in codes(&mut random, draw::fewer_shapes()).into_iter().filter(|code| code.k() < rows::BITS) {
        narrow += 1;
        for steps in [0, 1, 2, 5, LONGEST] {
            let mut lists = any_lists(&mut random, code.length(), steps);
            assert_eq!(compare(&code.params, &lists, COUNTS), refused(12), "{:?}", code.params);
            if steps > 0 {
                spoil_mark(&mut random, &mut lists, code.length(), 0);
                assert_eq!(compare(&code.params, &lists, COUNTS), refused(12), "{:?}", code.params);
                spoil_row(&mut random, &mut lists, 0);
                assert_eq!(compare(&code.params, &lists, COUNTS), refused(12), "{:?}", code.params);
                lists.turned.fill(0);
                assert_eq!(compare(&code.params, &lists, COUNTS), refused(12), "{:?}", code.params);
            }
        }
    }
    assert!(narrow >= 40, "only {narrow} shapes were narrow");
}

/// What is counted does not depend on the offset.
#[test]
fn every_offset() {
    let mut random = Random::new(1210);
    for decoder in decoders(&mut random) {
        let code = &decoder.code;
        let lists = any_ride(&mut random, code, 4);
        let mut ended = lists.clone();
        spoil_row(&mut random, &mut ended, 2);
        for lists in [lists, ended] {
            let expected = reference::ride_steps(&decoder, &lists);
            let offsets = draw::offsets(&mut random, code.params.m);
            for omega in draw::all_or_some(&mut random, code.params.shape(), &offsets) {
                ride_gives(&Params { omega, ..code.params.clone() }, &lists, Lent::marked(COUNTS), &expected);
            }
        }
    }
}

/// Earlier counts have no part in the answer, and stay where nothing is written.
#[test]
fn counts_of_another_ride() {
    let mut random = Random::new(1211);
    let decoder = Decoder::new(Code::new(&code_t()));
    for contents in [[0; COUNTS], [u32::MAX; COUNTS], [3, 1, 1, 1], [1000, 0, 0, 1000]] {
        for steps in [0, 1, 7] {
            let mut lists = any_ride(&mut random, &decoder.code, steps);
            let gives = |params: &Params, lists: &Lists, expected: &Ridden| {
                ride_gives(params, lists, Lent::holding(&contents), expected);
            };
            gives(&code_t(), &lists, &reference::ride_steps(&decoder, &lists));
            gives(&Params { t: 3, ..code_t() }, &lists, &refused(7));
            gives(&Params { t: 8, ..code_t() }, &lists, &refused(12));
            if steps > 0 {
                spoil_row(&mut random, &mut lists, steps - 1);
                gives(&code_t(), &lists, &reference::ride_steps(&decoder, &lists));
            }
            lists.lamps.push(0);
            gives(&code_t(), &lists, &refused(2));
        }
    }
}

/// A fault of a ride.
#[derive(Clone, Copy, Debug, PartialEq)]
enum Fault {
    Code(CodeFault),
    Marks(MarkFault),
    /// More than a thousand steps.
    Long,
    /// Another number of lamps than of gears.
    Lamps,
    /// Another number of marks than one for each sent place and each step.
    Turned,
    /// A buffer for another number of counts than four.
    Counts,
    /// A mark that is no bit.
    Mark,
    /// A row that is none.
    NoRow,
}

/// Every fault by itself and every two of them together, or over large fields some: 1 to 7, then 20, then 2 for the
/// marks of the steps, then 12, then 8 and 11 in the order of the steps.
#[test]
fn faults_together() {
    use Fault::*;
    let mut random = Random::new(1212);
    for shape @ (m, n, t) in draw::fewer_shapes() {
        let of_code = draw::code_faults(m, n).into_iter().map(Code);
        let of_marks = draw::MARK_FAULTS.map(Marks);
        let all: Vec<Fault> = of_code.chain(of_marks).chain([Long, Lamps, Turned, Counts, Mark, NoRow]).collect();
        let sets = draw::all_or_some(&mut random, shape, &draw::one_or_two(&all));
        for faults in [vec![]].into_iter().chain(sets) {
            let has = |fault: Fault| faults.contains(&fault);
            let of_code = faults.iter().filter_map(|fault| if let Code(fault) = fault { Some(*fault) } else { None });
            let of_code: Vec<CodeFault> = of_code.collect();
            let of_marks = faults.iter().filter_map(|fault| if let Marks(fault) = fault { Some(*fault) } else { None });
            let of_marks: Vec<MarkFault> = of_marks.collect();
            let mut params = draw::damaged_code(&mut random, m, n, t, &of_code);
            let k = if of_code.is_empty() { params.code().k() } else { 0 };
            // The first block has check columns alone.
            params.hidden.resize(n as usize, 0);
            let roles = [vec![0; t as usize], vec![1; (n - t) as usize]].concat();
            draw::spoil_marks(&mut random, &mut params.hidden, &roles, &of_marks);
            let (n, steps) = (n as usize, if has(Long) { LONGEST + 1 } else { 4 });
            // With a fault in the marks there is a place less.
            let n = if has(Marks(MarkFault::NoMark)) || has(Marks(MarkFault::HiddenCheck)) { n - 1 } else { n };
            let mut lists = any_lists(&mut random, n, steps);
            let (mark, row) = (random.below(4), random.below(4));
            if has(Mark) {
                spoil_mark(&mut random, &mut lists, n, mark);
            }
            if has(NoRow) {
                spoil_row(&mut random, &mut lists, row);
            }
            if has(Lamps) {
                lists.lamps.resize(other_length(&mut random, steps), 0);
            }
            if has(Turned) {
                lists.turned.resize(other_length(&mut random, steps * n), 0);
            }
            let counts_length = if has(Counts) { other_length(&mut random, COUNTS) } else { COUNTS };

            let length = [Long, Lamps, Counts, Marks(MarkFault::Length)].into_iter().any(has).then_some(2);
            let of_card = of_code.iter().map(|fault| fault.number()).chain(length).min();
            let of_marks = of_marks.iter().map(|fault| fault.number()).min();
            let ending = match (has(Mark), has(NoRow)) {
                _ if k < rows::BITS => Some(12),
                (true, true) => Some(if mark <= row { 8 } else { 11 }),
                (mark, row) => mark.then_some(8).or(row.then_some(11)),
            };
            let number = of_card.or(of_marks).or(has(Turned).then_some(2)).or(ending);
            let ridden = compare(&params, &lists, counts_length);
            assert_eq!(ridden.answer.err(), number, "{faults:?}: {params:?}");
            assert_eq!(ridden.counts.is_some(), matches!(number, None | Some(8 | 11)), "{faults:?}: {params:?}");
        }
    }
}

/// The Rust crate lays steps out in a room and rides them, as the second implementation does. A room may be longer than
/// it has to be.
#[test]
fn steps_in_a_room() {
    let mut random = Random::new(1213);
    for decoder in decoders(&mut random) {
        let (params, n) = (&decoder.code.params, decoder.code.length());
        for steps in [0, 1, 2, 3, draw::rounds(params.shape(), 8)] {
            let mut lists = any_ride(&mut random, &decoder.code, steps);
            let needed = library::room(params, steps);
            assert_eq!(needed, steps * (2 + n));
            for room_length in [needed, needed + 1, 2 * needed + 300] {
                let expected = reference::ride_steps(&decoder, &lists);
                steps_give(params, &steps_of(&lists, n), room_length, &expected);
            }
            if steps > 0 {
                let step = random.below(steps);
                let mut no_mark = lists.clone();
                spoil_mark(&mut random, &mut no_mark, n, step);
                (lists.gears[step], lists.lamps[step]) = random.pick(&[(1, 1), (8, 0), (255, 2)]);
                for lists in [lists, no_mark] {
                    let expected = reference::ride_steps(&decoder, &lists);
                    assert!(expected.answer.is_err());
                    steps_give(params, &steps_of(&lists, n), needed, &expected);
                }
            }
        }
    }
}

/// A thousand and one steps are 2, after 1 and before all else; a room that is too short, and marks of another length
/// than the word's, are 2 once the code is accepted.
#[test]
fn steps_of_other_lengths() {
    let mut random = Random::new(1214);
    for (m, n, t) in draw::fewer_shapes() {
        let params = draw::params(&mut random, m, n, t);
        let bad_width = Params { m: random.pick(&BAD_WIDTHS), ..params.clone() };
        let bad_rows = Params { t: 3, ..params.clone() };
        let is_refused = |steps: &[Step], room_length: usize| {
            let number = if steps.len() > LONGEST { 2 } else { 7 };
            steps_give(&params, steps, room_length, &refused(2));
            steps_give(&bad_rows, steps, room_length, &refused(number));
            steps_give(&bad_width, steps, room_length, &refused(1));
        };
        let n = n as usize;
        let lists = any_lists(&mut random, n, 4);
        let needed = library::room(&params, 4);
        let right = steps_of(&lists, n);
        for room_length in [0, 1, 4, 8, needed - n, needed - 1] {
            is_refused(&right, room_length);
        }
        // Among them two steps whose marks are as long together as they should be.
        let (shorter, longer) = (vec![0; n - 1], vec![0; n + 1]);
        for marks in [[&shorter, &shorter], [&longer, &longer], [&shorter, &longer], [&longer, &shorter]] {
            for places in [[0, 0], [3, 3], [0, 3], [1, 2]] {
                let mut steps = right.clone();
                places.into_iter().zip(marks).for_each(|(place, marks)| steps[place].turned = marks);
                is_refused(&steps, needed);
                is_refused(&steps, needed + 300);
            }
        }
        let none = right.iter().map(|step| Step { turned: &[], ..*step }).collect::<Vec<Step>>();
        is_refused(&none, needed);
        let long = vec![right[0]; LONGEST + 1];
        is_refused(&long, library::room(&params, LONGEST + 1));
        is_refused(&long, library::room(&params, LONGEST));
    }
}

/// An n that no code has is 2, after 1: with marks of that length, as with others.
#[test]
fn steps_of_no_code() {
    for n in BAD_LENGTHS {
        let params = Params { n, ..code_t() };
        let bad_width = Params { m: 17, ..params.clone() };
        for length in [0, 16, n.min(1024) as usize] {
            let marks = vec![0; length];
            let step = Step { row: zovunelith::Row { gear: 1, lamp: Lamp::Dark }, turned: &marks };
            for steps in [&[][..], &[step], &[step, step]] {
                for room_length in [0, 2 * (2 + 16), 2 * (2 + 1024)] {
                    steps_give(&params, steps, room_length, &refused(2));
                    steps_give(&bad_width, steps, room_length, &refused(1));
                }
            }
        }
    }
    // No sum and no product runs over.
    assert_eq!(library::room(&Params { n: u32::MAX, ..code_t() }, usize::MAX), usize::MAX);
    assert_eq!(library::room(&code_t(), usize::MAX / 17), usize::MAX);
}

/// A gear that no byte holds is no gear, and no other gear's number.
#[test]
fn steps_with_large_gears() {
    for gear in [256, 256 + 1, 512 + 7, 65536, 65536 + 3, 1 << 31, u32::MAX] {
        let step = |gear: u32| Step { row: zovunelith::Row { gear, lamp: Lamp::Dark }, turned: &[0; 16] };
        let expected = Ridden { answer: Err(11), counts: Some(counts(&[End::Right])) };
        steps_give(&code_t(), &[step(1), step(gear), step(2)], 3 * (2 + 16), &expected);
    }
}
