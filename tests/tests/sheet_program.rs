//! The built program `sheet`, fed with good, damaged and random sheets: what it prints is compared byte by byte.

use std::io::{ErrorKind, Write};
use std::path::Path;
use std::process::{Command, Stdio};
use std::thread;
use zovunelith_tests::draw;
use zovunelith_tests::random::Random;
use zovunelith_tests::reference::params::{code_a, code_t, Params};
use zovunelith_tests::reference::sheet as reference;

/// Runs the program on a text and compares.
#[track_caller]
fn compare(text: &[u8]) -> Vec<u8> {
    let program = Path::new(env!("CARGO_MANIFEST_DIR")).join("../target/bin/sheet");
    let mut child = Command::new(&program)
        .stdin(Stdio::piped())
        .stdout(Stdio::piped())
        .spawn()
        .unwrap_or_else(|error| panic!("{}: {error}; `.ci/sheet` builds it", program.display()));
    let mut input = child.stdin.take().expect("a pipe");
    let sent = text.to_vec();
    let writer = thread::spawn(move || match input.write_all(&sent) {
        Err(error) if error.kind() != ErrorKind::BrokenPipe => panic!("{error}"),
        _ => (),
    });
    let output = child.wait_with_output().expect("the program ends");
    writer.join().expect("the text was written");
    assert!(output.status.success(), "{}", output.status);
    assert_eq!(output.stdout, reference::printed(text), "{:?}", String::from_utf8_lossy(&text[..text.len().min(200)]));
    output.stdout
}

#[test]
fn cases() {
    let listing = concat!(
        "     3     4     1     0     3     1\n",
        "     0     7     0     0\n",
        "     1     2     1     0\n",
        "     2     3     2     0\n",
        "     3     4     3     1\n",
    );
    assert_eq!(compare(b"     3     4     1     0\n     7     2     3     4\n"), listing.as_bytes());
    assert_eq!(compare(b"     3     4     1     0\n     7     2     3     5\n"), b"     5\n");
    assert_eq!(compare(b"     3     4     1     0\n     7     2     3     4"), b"    13\n");
    assert_eq!(compare(b"     3     0     1     0\n\n"), b"     2\n");
    // Four columns.
    assert_eq!(compare(b"   3   4   1   0\n   7   2   3   4\n"), b"    13\n");
    compare(&reference::sheet(&code_t()));
}

#[test]
fn sheets_of_every_shape() {
    let mut random = Random::new(801);
    for shape @ (m, n, t) in draw::fewer_shapes() {
        compare(&reference::sheet(&draw::params(&mut random, m, n, t)));
        for faults in draw::singles_and_pairs(m, n).iter().take(draw::rounds(shape, 6)) {
            compare(&reference::sheet(&draw::damaged_code(&mut random, m, n, t, faults)));
        }
    }
}

/// The longest sheets, longer texts, and much longer ones.
#[test]
fn long_texts() {
    let of_length = |n: u32| Params::new(16, 1, 65535, vec![65535; n as usize]);
    assert_eq!(compare(&reference::sheet(&of_length(511))), b"     2\n");
    let longest = reference::sheet(&of_length(512));
    assert_eq!(longest.len(), (4 * 6 + 1) + (512 * 6 + 1));
    assert_eq!(compare(&longest), b"     6\n");
    for n in [513, 1024, 65535] {
        assert_eq!(compare(&reference::sheet(&of_length(n))), b"    13\n");
    }
    for more in [1, 2, 1000, 1_000_000] {
        let mut text = longest.clone();
        text.resize(longest.len() + more, b' ');
        assert_eq!(compare(&text), b"    13\n");
        text[longest.len()..].fill(b'\n');
        assert_eq!(compare(&text), b"    13\n");
    }
    let sheet = reference::sheet(&code_a());
    assert_eq!(compare(&sheet.repeat(30_000)), b"    13\n");
    assert_eq!(compare(&[sheet.as_slice(), &[0; 1_000_000]].concat()), b"    13\n");
}

#[test]
fn random_texts() {
    let mut random = Random::new(802);
    let alphabet = b"  \n0123456789\r\t\xFF";
    for _ in 0..500 {
        let mut text = reference::sheet(&code_a());
        for _ in 0..random.below(3) {
            let place = random.below(text.len());
            text[place] = random.pick(alphabet);
        }
        compare(&text);
        let length = random.below(60);
        let noise: Vec<u8> = (0..length).map(|_| random.pick(alphabet)).collect();
        compare(&noise);
    }
}
