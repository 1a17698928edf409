//! The bench sheet, compared with the second implementation's listing byte by byte.

use zovunelith_tests::canary::Lent;
use zovunelith_tests::draw;
use zovunelith_tests::library::sheet::{self as library, LONGEST, NO_ROOM};
use zovunelith_tests::random::Random;
use zovunelith_tests::reference::field;
use zovunelith_tests::reference::params::{code_a, code_t, Params, LENGTHS};
use zovunelith_tests::reference::sheet as reference;
use zovunelith_tests::Elem;

/// Asks for the listing of a text with canaries around both buffers and compares it with the second implementation's.
/// What lies behind the listing in its buffer is unchanged; after a refusal the whole buffer is.
#[track_caller]
fn compare_lent(text: &[u8], room: usize) -> Result<Vec<u8>, u32> {
    let expected = reference::listing(text);
    let expected = expected.and_then(|listing| if listing.len() > room { Err(NO_ROOM) } else { Ok(listing) });
    let text = Lent::holding(text);
    let mut out: Lent<u8> = Lent::marked(room);
    let behind = out.slice().to_vec();
    let answer = library::listing(text.slice(), out.slice_mut());
    let expected_answer = expected.as_ref().map(|listing| listing.len()).map_err(|&number| number);
    assert_eq!(answer, expected_answer, "{:?}", String::from_utf8_lossy(text.slice()));
    text.assert_unchanged();
    let written = expected.as_ref().ok().map(|listing| [listing, &behind[listing.len()..]].concat());
    out.assert_holds(written.as_deref());
    expected
}

/// The same with room for the listing, which is less than five times as long as its sheet.
#[track_caller]
fn compare(text: &[u8]) -> Result<Vec<u8>, u32> {
    compare_lent(text, LONGEST.min(5 * text.len()))
}

#[test]
fn cases() {
    let sheet = "     3     4     1     0\n     7     2     3     4\n";
    let listing = concat!(
        "     3     4     1     0     3     1\n",
        "     0     7     0     0\n",
        "     1     2     1     0\n",
        "     2     3     2     0\n",
        "     3     4     3     1\n",
    );
    assert_eq!(compare(sheet.as_bytes()), Ok(listing.as_bytes().to_vec()));
    assert_eq!(compare(b"     3     4     1     0\n     7     2     3     5\n"), Err(5));
    let listing = compare(&reference::sheet(&code_t())).expect("a listing");
    assert_eq!(listing[..37], *b"     5    16     2    24    10     6\n");
    assert_eq!(listing[37..62], *b"     0    12    24     0\n");
}

/// Numbers in four columns, as cards A and T would stand there.
#[test]
fn four_columns() {
    let a = "   3   4   1   0\n   7   2   3   4\n";
    let t = "   5  16   2  24\n  12   8  10  22  26   9  16  21  14   5  17   4  30  23  25  31\n";
    for text in [a, t] {
        assert_eq!(compare(text.as_bytes()), Err(13), "{text:?}");
    }
}

#[test]
fn sheets_of_every_shape() {
    let mut random = Random::new(701);
    for shape @ (m, n, t) in draw::shapes() {
        for _ in 0..draw::rounds(shape, 5) {
            compare(&reference::sheet(&draw::params(&mut random, m, n, t))).expect("a listing");
        }
    }
}

/// The longest listing fills its buffer, and every listing fits into one of its own length; into no shorter one.
#[test]
fn room_for_the_listing() {
    let mut random = Random::new(702);
    let longest = compare(&reference::sheet(&draw::params(&mut random, 16, 512, 8))).expect("a listing");
    assert_eq!(longest.len(), LONGEST);
    for (m, n, t) in draw::fewer_shapes().into_iter().filter(|shape| shape.2 == 1) {
        let sheet = reference::sheet(&draw::params(&mut random, m, n, t));
        let length = 37 + 25 * n as usize;
        compare_lent(&sheet, length).expect("a listing");
        compare_lent(&sheet, length + 1).expect("a listing");
        for room in [0, 1, 6, 7, 37, length - 25, length - 1] {
            assert_eq!(compare_lent(&sheet, room), Err(NO_ROOM));
        }
    }
}

/// Sheets whose code is refused: each fault that sheet numbers can tell, singly and in pairs.
#[test]
fn sheets_with_damaged_codes() {
    let mut random = Random::new(703);
    for (m, n, t) in draw::fewer_shapes() {
        for faults in draw::singles_and_pairs(m, n) {
            let params = draw::damaged_code(&mut random, m, n, t, &faults);
            let answer = compare(&reference::sheet(&params));
            let told = params.n <= 512 && [params.m, params.t, params.omega].iter().all(|&number| number <= 65535);
            let lowest = if told && params.h.len() == params.n as usize {
                faults.iter().map(|fault| fault.number()).min().expect("a fault")
            } else {
                13
            };
            assert_eq!(answer, Err(lowest), "{faults:?}: {params:?}");
        }
    }
}

/// Line two has as many entries as line one says, whatever that is up to 512; the code is judged once the text is a
/// sheet.
#[test]
fn every_length() {
    let mut random = Random::new(704);
    for n in 0..=512_u32 {
        let h: Vec<Elem> = (0..n).map(|_| draw::nonzero(&mut random, 5)).collect();
        let params = Params::new(5, 1, 0, h);
        let answer = compare(&reference::sheet(&params));
        if !LENGTHS.contains(&n) {
            assert_eq!(answer, Err(2), "n {n}");
        }
        assert_eq!(compare(&reference::sheet(&Params { m: 1, ..params.clone() })), Err(1));
        let mut longer = params.clone();
        longer.h.push(1);
        assert_eq!(compare(&reference::sheet(&longer)), Err(13), "n {n}");
        assert_eq!(compare(&reference::sheet(&Params { m: 1, ..longer })), Err(13), "n {n}");
        if n > 0 {
            let mut shorter = params.clone();
            shorter.h.pop();
            assert_eq!(compare(&reference::sheet(&shorter)), Err(13), "n {n}");
        }
    }
}

/// An n above 512 stands on no sheet, whatever stands in line two: as many entries, some of them, or none.
#[test]
fn lengths_above_the_longest() {
    let mut random = Random::new(707);
    for n in (513..=530).chain([640, 768, 1000, 1023, 1024, 1025, 4096, 9999, 10000, 65534, 65535]) {
        let h: Vec<Elem> = (0..n).map(|_| draw::nonzero(&mut random, 16)).collect();
        let params = Params::new(16, 1, 0, h);
        for length in [0, 1, 4, 512, 513, n as usize - 1, n as usize] {
            let mut params = params.clone();
            params.h.truncate(length);
            assert_eq!(compare(&reference::sheet(&params)), Err(13), "n {n}, {length} entries");
            assert_eq!(compare(&reference::sheet(&Params { m: 1, ..params })), Err(13), "n {n}, {length} entries");
        }
    }
    // A sheet of the longest length, whose n is another.
    let params = draw::params(&mut random, 16, 512, 1);
    compare(&reference::sheet(&params)).expect("a listing");
    for n in [256, 511, 513, 1024, 65535] {
        assert_eq!(compare(&reference::sheet(&Params { n, ..params.clone() })), Err(13), "n {n}");
    }
}

/// Each of the four numbers of line one, over a part of its range that holds all limits, and some beyond.
#[test]
fn every_number_of_line_one() {
    let spread = (1100..65535).step_by(997).chain([9999, 10000, 32767, 32768, 65535, 65536, 99999, 100_000, 999_999]);
    for value in (0..=1100).chain(spread) {
        for params in [code_a(), code_t()] {
            compare(&reference::sheet(&Params { m: value, ..params.clone() })).ok();
            compare(&reference::sheet(&Params { t: value, ..params.clone() })).ok();
            let answer = compare(&reference::sheet(&Params { n: value, ..params.clone() }));
            assert_eq!(answer.err(), (value != params.n).then_some(13));
            let answer = compare(&reference::sheet(&Params { omega: value, ..params.clone() }));
            let number = if value > 65535 { Some(13) } else { (value >= field::size(params.m)).then_some(3) };
            assert_eq!(answer.err(), number);
        }
    }
}

/// Every number as an entry, in a sheet whose code is refused for it or is not.
#[test]
fn every_number_of_line_two() {
    let params = Params::new(16, 1, 0, vec![1, 0]);
    for value in 0..=Elem::MAX {
        let number = match value {
            0 => Some(4),
            1 => Some(6),
            _ => None,
        };
        let sheet = reference::sheet(&Params { h: vec![1, value], ..params.clone() });
        assert_eq!(compare_lent(&sheet, 37 + 2 * 25).err(), number, "entry {value}");
    }
    for value in [65536, 65537, 65536 + 255, 99999, 100_000, 131_071, 999_999] {
        let sheet = format!("    16     2     1     0\n     1{}\n", reference::number(value));
        assert_eq!(compare(sheet.as_bytes()), Err(13), "{sheet}");
    }
}

/// Each byte of code A's sheet replaced by each other byte, left out or doubled, and each byte put in before it.
#[test]
fn one_byte_away_from_a_sheet() {
    let sheet = reference::sheet(&code_a());
    for place in 0..sheet.len() {
        for byte in 0..=u8::MAX {
            let mut changed = sheet.clone();
            changed[place] = byte;
            compare(&changed).ok();
            let mut longer = sheet.clone();
            longer.insert(place, byte);
            assert_eq!(compare(&longer), Err(13), "{longer:?}");
        }
        let mut shorter = sheet.clone();
        shorter.remove(place);
        assert_eq!(compare(&shorter), Err(13), "{shorter:?}");
        assert_eq!(compare(&sheet[..place]), Err(13), "{place} bytes");
    }
    for byte in 0..=u8::MAX {
        let longer = [sheet.as_slice(), &[byte]].concat();
        assert_eq!(compare(&longer), Err(13), "{longer:?}");
    }
}

/// Six columns that hold no number as a sheet writes it, in each place for a number.
#[test]
fn columns_that_hold_no_number() {
    let sheet = reference::sheet(&code_a());
    let starts = [0, 6, 12, 18, 25, 31, 37, 43];
    for start in starts {
        for columns in [
            b"      ",
            b"3     ",
            b" 3    ",
            b"    3 ",
            b"    03",
            b"   003",
            b" 00003",
            b"000003",
            b"    00",
            b"000000",
            b"   0 3",
            b"3    3",
            b"  3  3",
            b" 65536",
            b" 65600",
            b" 66000",
            b" 70000",
            b" 99999",
            b"100000",
            b"100003",
            b"165535",
            b"655350",
            b"999999",
            b"065535",
            b"    +3",
            b"    -3",
            b"    -0",
            b"   0x3",
            b"     a",
            b"   3.0",
            b"     \t",
            b"\t\t\t\t\t3",
            b"\x00\x00\x00\x00\x003",
            b"     \x00",
            b"\xC2\xA0   3",
        ] {
            let mut changed = sheet.clone();
            changed[start..start + 6].copy_from_slice(columns);
            assert_eq!(compare(&changed), Err(13), "{:?}", String::from_utf8_lossy(&changed));
        }
    }
}

#[test]
fn other_texts() {
    let a = reference::sheet(&code_a());
    let (first, second) = a.split_at(25);
    let texts: Vec<Vec<u8>> = vec![
        vec![],
        b"\n".to_vec(),
        b"\n\n".to_vec(),
        b"\n\n\n".to_vec(),
        b"     3     4     1     0".to_vec(),
        first.to_vec(),
        second.to_vec(),
        [second, first].concat(),
        [a.as_slice(), &a].concat(),
        [a.as_slice(), b"\n"].concat(),
        [b"\n", a.as_slice()].concat(),
        [first, b"\n", second].concat(),
        [a.as_slice(), &[b' '; 100_000]].concat(),
        [a.as_slice(), &[b'\n'; 100_000]].concat(),
        [first, &[b' '; 100_000], b"\n"].concat(),
        [first, &b"     1".repeat(600), b"\n"].concat(),
        [&b"     4".repeat(600)[..], b"\n", second].concat(),
        [&b"     4".repeat(5)[..], b"\n", second].concat(),
        [&b"     4".repeat(3)[..], b"\n", second].concat(),
        b"     3     4     1     0\r\n     7     2     3     4\r\n".to_vec(),
        b"     3     4     1     0\n     7     2     3     4\r\n".to_vec(),
        b"     3     4     1\n     0     7     2     3     4\n".to_vec(),
        b"3 4 1 0\n7 2 3 4\n".to_vec(),
        b"    17     4     1     0\n     7     2     3     4".to_vec(),
        b"     3     3     1     0\n     7     2     3     4\n".to_vec(),
    ];
    for text in texts {
        assert_eq!(compare(&text), Err(13), "{:?}", String::from_utf8_lossy(&text[..text.len().min(100)]));
    }
    // These are sheets; their codes are refused.
    assert_eq!(compare(&[first, first].concat()), Err(4));
    assert_eq!(compare(b"     3     0     1     0\n\n"), Err(2));
    assert_eq!(compare(b"     0     0     0     0\n\n"), Err(1));
}

/// Random sheets with a few bytes replaced, left out, put in or exchanged; most bytes are ones that sheets have.
#[test]
fn random_damage() {
    let mut random = Random::new(705);
    let alphabet = b"  \n\n0123456789\r\t-\0\xFF";
    let shapes = draw::shapes();
    let mut answers = [0; 14];
    for _ in 0..20_000 {
        let (m, n, t) = random.pick(&shapes);
        let n = n.min(16);
        let mut text = reference::sheet(&draw::params(&mut random, m, n, t.min(n / 2)));
        for _ in 0..1 + random.below(3) {
            let place = random.below(text.len());
            let byte = random.pick(alphabet);
            match random.below(4) {
                0 => text[place] = byte,
                1 => drop(text.remove(place)),
                2 => text.insert(place, byte),
                _ => {
                    let other = random.below(text.len());
                    text.swap(place, other);
                }
            }
        }
        answers[compare(&text).map_or_else(|number| number as usize, |_| 0)] += 1;
    }
    // Texts that are no sheets, and sheets with accepted and with refused codes, were among them.
    assert!(answers[13] > 1000 && answers[0] > 100 && answers[1..8].iter().sum::<usize>() > 100, "{answers:?}");
}

/// Right in form, with random numbers.
#[test]
fn random_numbers() {
    let mut random = Random::new(706);
    let mut answers = [0; 14];
    for _ in 0..20_000 {
        let m = random.pick(&[0, 1, 2, 2, 3, 3, 4, 5, 8, 9, 16, 17, 65535]);
        let n = random.pick(&[0, 1, 2, 2, 2, 3, 4, 4, 8, 16]);
        let t = random.pick(&[0, 1, 1, 2, 3, 4, 65535]);
        let omega = random.below(65536) as u32 >> random.below(16);
        let bits = random.below(17);
        let h = (0..n).map(|_| (random.below(65536) >> bits) as Elem).collect();
        let answer = compare(&reference::sheet(&Params::new(m, t, omega, h)));
        answers[answer.map_or_else(|number| number as usize, |_| 0)] += 1;
    }
    assert!(answers[..8].iter().all(|&count| count > 10) && answers[13] == 0, "{answers:?}");
}
