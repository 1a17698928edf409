//! Turns for several senders, against the second implementation: plays from the start on, which are watched from
//! outside, and calls on states of every kind.

use std::collections::BTreeSet;
use zovunelith::{Refusal, Senders};
use zovunelith_tests::bits::{turned, BAD_BYTES};
use zovunelith_tests::canary::{pointer, pointer_mut, Lent};
use zovunelith_tests::draw::{self, other_length, other_lengths, CodeFault, MarkFault, BAD_LENGTHS, BAD_WIDTHS};
use zovunelith_tests::expect::dash_gives;
use zovunelith_tests::library;
use zovunelith_tests::plays::{
    all_numbers, any_bytes, any_dash, compare, idle_dash, offer, one_to_eight, play_of_the_crate, put, Kind, Play,
    Seen, Source, KINDS,
};
use zovunelith_tests::random::Random;
use zovunelith_tests::reference::params::{code_a, code_t, Params};
use zovunelith_tests::reference::senders::{self as reference, Call, Dash, Given, MOST, NONE, TOO_FAR};
use zovunelith_tests::Elem;

/// The toy example with three senders, by hand.
#[test]
fn cases() {
    let mut random = Random::new(1501);
    let source = Source::new(&mut random, &code_t());
    let first_dark = source.decoder.code.encode(&[1, 0, 0, 0, 0, 0]);
    let (one, two, three) = (turned(&first_dark, &[3]), turned(&first_dark, &[0, 8]), turned(&first_dark, &[0, 1, 2]));
    let given = source.given(3, 1);
    let earlier = Dash { handed: vec![7; 48], ..idle_dash(&mut random, 16, 3) };
    let mut dash = source.compare(&given, &Call::Start, &earlier).expect("a start");
    let call = |dash: &mut Dash, call: &Call| {
        *dash = source.compare(&given, call, dash).expect("not refused");
    };
    for (sender, word) in [(2, &two), (1, &one), (0, &three)] {
        call(&mut dash, &offer(sender, word));
    }
    assert_eq!(source.compare(&given, &offer(1, &first_dark), &dash), Err(19));
    assert_eq!(source.compare(&given, &offer(3, &first_dark), &dash), Err(18));
    // The turn is at 0, whose word is too far.
    call(&mut dash, &Call::Round);
    assert_eq!((&dash.answers[..], &dash.waiting[..], dash.next[0]), (&[TOO_FAR, NONE, NONE][..], &[0, 1, 1][..], 1));
    assert_eq!(dash.handed, [7; 48]);
    // A code word of 0 is handed out at once, and 1 has the turn all the same.
    call(&mut dash, &offer(0, &first_dark));
    call(&mut dash, &Call::Round);
    assert_eq!((&dash.answers[..], &dash.waiting[..], dash.next[0]), (&[0, 1, NONE][..], &[0, 0, 1][..], 2));
    assert_eq!(dash.handed, [&first_dark[..], &first_dark, &[7; 16]].concat());
    // Another word of 0 does not take the turn of 2, which is the last before it comes round again.
    call(&mut dash, &offer(0, &one));
    call(&mut dash, &Call::Round);
    assert_eq!((&dash.answers[..], &dash.waiting[..], dash.next[0]), (&[NONE, NONE, 2][..], &[1, 0, 0][..], 0));
    call(&mut dash, &Call::Round);
    assert_eq!((&dash.answers[..], &dash.waiting[..], dash.next[0]), (&[1, NONE, NONE][..], &[0, 0, 0][..], 1));
    // Nobody waits.
    call(&mut dash, &Call::Round);
    assert_eq!((&dash.answers[..], &dash.waiting[..], dash.next[0]), (&[NONE; 3][..], &[0, 0, 0][..], 1));
}

/// Plays with every number of senders and of repairs, on the toy example and on small codes.
#[test]
fn plays_of_all_numbers() {
    let mut random = Random::new(1502);
    let mut seen = Seen::default();
    let mut sources = vec![Source::new(&mut random, &code_a()), Source::new(&mut random, &code_t())];
    sources.extend([(2, 2, 1), (4, 8, 2), (6, 32, 4)].map(|shape| Source::drawn(&mut random, shape)));
    for source in &sources {
        for numbers in all_numbers() {
            let mut play = Play::start(&mut random, source, numbers, &mut seen);
            play.play(&mut random, 60, &KINDS);
            play.play(&mut random, 60, &[Kind::Near, Kind::Near, Kind::TooFar, Kind::CodeWord]);
        }
    }
    seen.assert_each(1000);
}

/// Plays with codes of many shapes, and with drawn numbers. One sender with eight repairs, and eight with one, are
/// among them for each.
#[test]
fn plays_of_many_shapes() {
    let mut random = Random::new(1503);
    let mut seen = Seen::default();
    for shape in draw::fewer_shapes() {
        let source = Source::drawn(&mut random, shape);
        let drawn = (one_to_eight(&mut random), one_to_eight(&mut random));
        for numbers in [(1, 8), (8, 1), drawn] {
            let mut play = Play::start(&mut random, &source, numbers, &mut seen);
            play.play(&mut random, draw::rounds(shape, 40), &KINDS);
        }
    }
    seen.assert_each(100);
}

/// Every sender offers a word that is to be repaired as soon as it may. The repairs then go round and round without a
/// gap, and the limit is reached and not passed.
#[track_caller]
fn greatest_pressure(random: &mut Random, source: &Source, (senders, repairs): (u32, u32), rounds: usize) -> u32 {
    let mut seen = Seen::default();
    let mut play = Play::start(random, source, (senders, repairs), &mut seen);
    let (senders, repairs) = (senders as usize, repairs.min(senders) as usize);
    let mut longest = 0;
    for round in 0..rounds {
        for sender in 0..senders {
            if play.arrived[sender].is_none() {
                let word = source.word(random, Kind::Near);
                play.offer(sender, word);
            }
        }
        let arrived: Vec<u32> = play.arrived.iter().flatten().map(|(_, arrived)| *arrived).collect();
        let mut tried: Vec<usize> = (0..repairs).map(|i| (round * repairs + i) % senders).collect();
        tried.sort_unstable();
        assert_eq!(play.round(random), tried, "round {round}: {:?}", play.given);
        longest = tried.iter().fold(longest, |longest, &sender| longest.max(play.rounds - arrived[sender]));
    }
    longest
}

#[test]
fn words_to_be_repaired_all_the_time() {
    let mut random = Random::new(1504);
    let toy = Source::new(&mut random, &code_t());
    for (senders, repairs) in all_numbers() {
        let longest = greatest_pressure(&mut random, &toy, (senders, repairs), 2 * senders as usize + 2);
        assert_eq!(longest, senders.div_ceil(repairs), "{senders} senders, {repairs} repairs");
    }
    for shape in draw::fewer_shapes() {
        let source = Source::drawn(&mut random, shape);
        assert_eq!(greatest_pressure(&mut random, &source, (8, 1), 8), 8);
        assert_eq!(greatest_pressure(&mut random, &source, (1, 8), 2), 1);
        assert_eq!(greatest_pressure(&mut random, &source, (5, 2), 3), 3);
    }
}

/// A round, by counting: a word that is no code word leaves if fewer than R such words stand before it in turn.
#[track_caller]
fn compare_turns(random: &mut Random, source: &Source, kinds: &[Option<Kind>], next: usize, repairs: u32) {
    let senders = kinds.len();
    let mut dash = Dash { next: vec![next as u32], ..idle_dash(random, source.length(), senders) };
    for (sender, kind) in kinds.iter().enumerate() {
        if let Some(kind) = kind {
            put(&mut dash, sender, &source.word(random, *kind));
        }
    }
    let after = source.compare(&source.given(senders as u32, repairs), &Call::Round, &dash).expect("a round");
    let place = |sender: usize| (sender + senders - next) % senders;
    let damaged = |sender: &usize| matches!(kinds[*sender], Some(Kind::Near | Kind::TooFar));
    let before = |sender: usize| (0..senders).filter(damaged).filter(|&other| place(other) < place(sender)).count();
    let tried: Vec<usize> = (0..senders).filter(damaged).filter(|&sender| before(sender) < repairs as usize).collect();
    for sender in 0..senders {
        let kind = kinds[sender].filter(|kind| *kind == Kind::CodeWord || tried.contains(&sender));
        let right = match kind {
            None => after.answers[sender] == NONE,
            Some(Kind::CodeWord) => after.answers[sender] == 0,
            Some(Kind::TooFar) => after.answers[sender] == TOO_FAR,
            Some(_) => after.answers[sender] > 0,
        };
        assert!(right, "{kinds:?}, the turn at {next}, {repairs} repairs: {:?}", after.answers);
        assert_eq!(after.waiting[sender], u8::from(kinds[sender].is_some() && kind.is_none()));
    }
    let last = tried.into_iter().max_by_key(|&sender| place(sender));
    assert_eq!(after.next, [last.map_or(next, |sender| (sender + 1) % senders) as u32]);
}

/// Every choice of senders with no word, with a code word and with another, for every S, every turn and every R.
#[test]
fn all_turns() {
    let mut random = Random::new(1505);
    let source = Source::new(&mut random, &code_a());
    for senders in 1..=MOST as usize {
        for choice in 0..3_usize.pow(senders as u32) {
            let kinds: Vec<Option<Kind>> = (0..senders)
                .map(|sender| match choice / 3_usize.pow(sender as u32) % 3 {
                    0 => None,
                    1 => Some(Kind::CodeWord),
                    _ => Some(random.pick(&[Kind::Near, Kind::TooFar])),
                })
                .collect();
            for (next, repairs) in (0..senders).flat_map(|next| (1..=MOST).map(move |repairs| (next, repairs))) {
                compare_turns(&mut random, &source, &kinds, next, repairs);
            }
        }
    }
}

/// More code words than R all leave in one round and do not move the turn; with a word to be repaired among them, the
/// turn comes after that one's sender.
#[test]
fn code_words_do_not_move_the_turn() {
    let mut random = Random::new(1506);
    for shape in draw::fewer_shapes() {
        let source = Source::drawn(&mut random, shape);
        let (n, senders) = (source.length(), 2 + random.below(7));
        let given = source.given(senders as u32, 1);
        let mut dash = idle_dash(&mut random, n, senders);
        (0..senders).for_each(|sender| put(&mut dash, sender, &source.word(&mut random, Kind::CodeWord)));
        for next in 0..senders {
            dash.next[0] = next as u32;
            let after = source.compare(&given, &Call::Round, &dash).expect("a round");
            assert_eq!((&after.answers, &after.waiting), (&vec![0; senders], &vec![0; senders]));
            assert_eq!((&after.handed, after.next[0] as usize), (&dash.words, next));
        }
        let sender = random.below(senders);
        put(&mut dash, sender, &source.word(&mut random, Kind::Near));
        let after = source.compare(&given, &Call::Round, &dash).expect("a round");
        assert_eq!((&after.waiting, after.next[0] as usize), (&vec![0; senders], (sender + 1) % senders));
    }
}

/// A word that is too far takes a turn like any other: it leaves with 10, and its part of the words stays.
#[test]
fn words_that_are_too_far() {
    let mut random = Random::new(1507);
    for shape in draw::fewer_shapes() {
        let source = Source::drawn(&mut random, shape);
        let (n, senders) = (source.length(), 2 + random.below(7));
        let given = source.given(senders as u32, 1);
        let mut dash = idle_dash(&mut random, n, senders);
        let (sender, behind) = (senders - 2, senders - 1);
        dash.next[0] = sender as u32;
        for sender in 0..senders {
            let kind = if sender == behind { Kind::Near } else { Kind::TooFar };
            put(&mut dash, sender, &source.word(&mut random, kind));
        }
        let after = source.compare(&given, &Call::Round, &dash).expect("a round");
        let mut answers = vec![NONE; senders];
        answers[sender] = TOO_FAR;
        assert_eq!((&after.answers, &after.handed), (&answers, &dash.handed));
        assert_eq!((after.waiting[sender], after.next[0] as usize), (0, behind));
        let after = source.compare(&given, &Call::Round, &after).expect("a round");
        assert!(after.answers[behind] > 0 && after.next == [0], "{after:?}");
        // All of the others in one round, which refuses each of them.
        let given = source.given(senders as u32, 8);
        let left = source.compare(&given, &Call::Round, &after).expect("a round");
        assert_eq!((&left.waiting, &left.handed), (&vec![0; senders], &after.handed));
    }
}

/// S and R outside 1 to 8, and senders and turns of S or more, are 18, with buffers of the lengths that go with S.
/// Among them are numbers that a cut to fewer bits would bring back in.
#[test]
fn numbers_out_of_range() {
    let mut random = Random::new(1508);
    let source = Source::new(&mut random, &code_a());
    let word = source.word(&mut random, Kind::Near);
    for senders in [0, 1, 2, 7, 8, 9, 10, 16, 255, 256, 256 + 1, 256 + 8, 65536, 65536 + 8] {
        let idle = idle_dash(&mut random, 4, senders as usize);
        for repairs in [0, 1, 2, 7, 8, 9, 10, 16, 255, 256, 256 + 1, 65536, 65536 + 8, 1 << 31, u32::MAX] {
            let given = source.given(senders, repairs);
            let counted = (1..=8).contains(&senders) && (1..=8).contains(&repairs);
            let number = |right: bool| (!right).then_some(18);
            assert_eq!(source.compare(&given, &Call::Start, &idle).err(), number(counted), "{given:?}");
            let around = [senders.saturating_sub(1), senders, senders + 1, 2 * senders];
            for sender in around.into_iter().chain([0, 8, 256, 256 + senders / 2, 65536, 1 << 31, u32::MAX]) {
                let number = number(counted && sender < senders);
                let offer = Call::Offer { sender, word: word.clone() };
                assert_eq!(source.compare(&given, &offer, &idle).err(), number, "sender {sender}, {given:?}");
                let dash = Dash { next: vec![sender], ..idle.clone() };
                assert_eq!(source.compare(&given, &Call::Round, &dash).err(), number, "turn {sender}, {given:?}");
            }
        }
    }
    // No buffers are as many as this.
    for senders in [1 << 31, (1 << 31) + 3, u32::MAX - 1, u32::MAX] {
        for length in [0, 1, 3, 8] {
            let idle = idle_dash(&mut random, 4, length);
            for call in [Call::Start, offer(0, &word), Call::Round] {
                assert_eq!(source.compare(&source.given(senders, 1), &call, &idle), Err(2), "{senders} senders");
            }
        }
    }
}

/// A buffer that a call is lent.
#[derive(Clone, Copy, Debug, PartialEq)]
enum Buffer {
    Waiting,
    Words,
    Next,
    Answers,
    Handed,
    Word,
}

const BUFFERS: [Buffer; 6] =
    [Buffer::Waiting, Buffer::Words, Buffer::Next, Buffer::Answers, Buffer::Handed, Buffer::Word];

impl Buffer {
    fn is_lent_to(self, call: &Call) -> bool {
        match call {
            Call::Start => [Buffer::Waiting, Buffer::Next].contains(&self),
            Call::Offer { .. } => [Buffer::Waiting, Buffer::Words, Buffer::Word].contains(&self),
            Call::Round => self != Buffer::Word,
        }
    }

    /// Whether its length follows from the marks.
    fn holds_words(self) -> bool {
        [Buffer::Words, Buffer::Handed, Buffer::Word].contains(&self)
    }

    /// Its length in a call that is not refused by 2.
    fn length(self, senders: usize, n: usize) -> usize {
        match self {
            Buffer::Waiting | Buffer::Answers => senders,
            Buffer::Words | Buffer::Handed => senders * n,
            Buffer::Next => 1,
            Buffer::Word => n,
        }
    }

    /// Gives it another length. Only an offer has a word.
    fn resize(self, call: &mut Call, dash: &mut Dash, length: usize) {
        match (self, call) {
            (Buffer::Waiting, _) => dash.waiting.resize(length, 0),
            (Buffer::Words, _) => dash.words.resize(length, 0),
            (Buffer::Next, _) => dash.next.resize(length, 0),
            (Buffer::Answers, _) => dash.answers.resize(length, 0),
            (Buffer::Handed, _) => dash.handed.resize(length, 0),
            (Buffer::Word, Call::Offer { word, .. }) => word.resize(length, 0),
            (Buffer::Word, _) => {}
        }
    }
}

/// Each length that is wrong is 2 by itself, where S and R are in range as where they aren't.
#[test]
fn lengths_alone() {
    let mut random = Random::new(1509);
    for shape in draw::fewer_shapes() {
        let source = Source::drawn(&mut random, shape);
        let n = source.length();
        for (senders, repairs) in [(one_to_eight(&mut random), 1), (8, 8), (1, 0), (0, 1), (9, 9)] {
            let given = source.given(senders, repairs);
            let senders = senders as usize;
            let dash = idle_dash(&mut random, n, senders);
            let word = source.word(&mut random, Kind::Near);
            for call in [Call::Start, offer(0, &word), Call::Round] {
                let counted = (1..=8).contains(&senders) && (1..=8).contains(&repairs);
                let number = (!counted).then_some(18);
                assert_eq!(source.compare(&given, &call, &dash).err(), number, "{given:?}");
                for buffer in BUFFERS.into_iter().filter(|buffer| buffer.is_lent_to(&call)) {
                    let right = buffer.length(senders, n);
                    let further = [right + n, right.saturating_sub(n)].into_iter().filter(|&length| length != right);
                    let lengths: Vec<usize> = other_lengths(right).into_iter().chain(further).collect();
                    for length in draw::all_or_some(&mut random, shape, &lengths) {
                        let (mut call, mut dash) = (call.clone(), dash.clone());
                        buffer.resize(&mut call, &mut dash, length);
                        let answer = source.compare(&given, &call, &dash);
                        assert_eq!(answer, Err(2), "{buffer:?} of {length}: {given:?}");
                    }
                }
            }
        }
    }
}

/// An n that no code has, and a signature of another length, are 2, with buffers that go with that n as with others.
#[test]
fn lengths_of_no_code() {
    let mut random = Random::new(1510);
    for n in BAD_LENGTHS {
        for length in [0, 16, n.min(1024) as usize] {
            let dash = idle_dash(&mut random, length, 3);
            for h in [code_t().h, vec![1; length]] {
                let params = Params { n, h, ..code_t() };
                for call in [Call::Start, offer(0, &vec![0; length]), Call::Round] {
                    let given = Given { params: params.clone(), senders: 3, repairs: 1 };
                    assert_eq!(compare(&given, &call, &dash), Err(2), "n {n}, words of {length}");
                    let params = Params { m: random.pick(&BAD_WIDTHS), ..params.clone() };
                    assert_eq!(compare(&Given { params, ..given }, &call, &dash), Err(1), "n {n}, words of {length}");
                }
            }
        }
    }
}

/// S times n is a number like any other: where it runs over 16 bits or 32, buffers of what is left of it are 2.
#[test]
fn products_that_run_over() {
    let mut random = Random::new(1511);
    for n in [256, 512] {
        let source = Source::drawn(&mut random, (16, n, 2));
        let (n, word) = (n as usize, source.word(&mut random, Kind::Near));
        for further in [0, 1, 3, 8] {
            let senders = (1 << 16) / n + further;
            let given = source.given(senders as u32, 1);
            let right = idle_dash(&mut random, n, senders);
            let (mut words, mut handed) = (right.clone(), right.clone());
            words.words.truncate(further * n);
            handed.handed.truncate(further * n);
            let both = Dash { handed: handed.handed.clone(), ..words.clone() };
            assert_eq!(source.compare(&given, &offer(0, &word), &right), Err(18), "{senders} senders");
            assert_eq!(source.compare(&given, &offer(0, &word), &words), Err(2), "{senders} senders");
            assert_eq!(source.compare(&given, &Call::Round, &right), Err(18), "{senders} senders");
            for dash in [words, handed, both] {
                assert_eq!(source.compare(&given, &Call::Round, &dash), Err(2), "{senders} senders");
            }
        }
    }
    let source = Source::drawn(&mut random, (16, 512, 2));
    let word = source.word(&mut random, Kind::Near);
    for further in [0, 3] {
        let senders = (1 << 32) / 512 + further;
        let lists = idle_dash(&mut random, 512, further);
        let dash = Dash { waiting: vec![0; senders], answers: vec![0; senders], ..lists };
        for call in [offer(0, &word), Call::Round] {
            let answer = source.compare(&source.given(senders as u32, 1), &call, &dash);
            assert_eq!(answer, Err(2), "{senders} senders");
        }
    }
}

/// A fault of a call on a dash.
#[derive(Clone, Copy, Debug, PartialEq)]
enum Fault {
    Code(CodeFault),
    Marks(MarkFault),
    /// Another length of a buffer.
    Length(Buffer),
    /// S outside 1 to 8.
    Senders,
    /// R outside 1 to 8.
    Repairs,
    /// A sender of S or more.
    Sender,
    /// A turn of S or more.
    Turn,
    /// An offer of a sender whose word waits.
    Waits,
    /// A byte of those that say who waits, which is neither 0 nor 1.
    WaitingByte,
    /// A byte that is no bit in the word of an offer, or in a word that waits for a round.
    NoBit,
}

impl Fault {
    /// When it is looked for, and its number. Of several faults the one with the smallest pair is given.
    fn rank(self) -> (u32, u32) {
        match self {
            Fault::Code(fault) => (0, fault.number()),
            Fault::Marks(MarkFault::Length) => (0, 2),
            Fault::Marks(fault) => (1, fault.number()),
            Fault::Length(buffer) => (if buffer.holds_words() { 2 } else { 0 }, 2),
            Fault::Senders | Fault::Repairs | Fault::Sender | Fault::Turn => (3, 18),
            Fault::Waits => (4, 19),
            Fault::WaitingByte | Fault::NoBit => (5, 8),
        }
    }

    /// Whether a call can have it.
    fn concerns(self, call: &Call) -> bool {
        match self {
            Fault::Code(_) | Fault::Marks(_) | Fault::Senders | Fault::Repairs => true,
            Fault::Length(buffer) => buffer.is_lent_to(call),
            Fault::Sender | Fault::Waits => matches!(call, Call::Offer { .. }),
            Fault::Turn | Fault::WaitingByte => matches!(call, Call::Round),
            Fault::NoBit => !matches!(call, Call::Start),
        }
    }
}

/// A call with exactly these faults. The earlier a fault is looked for, the later it is made: it can then cover
/// another, which is not the one to be given, but is never covered itself.
fn damaged(random: &mut Random, source: &Source, mut call: Call, faults: &[Fault]) -> (Given, Call, Dash) {
    let has = |fault: Fault| faults.contains(&fault);
    let n = source.length();
    let mut given = source.given(one_to_eight(random), one_to_eight(random));
    let mut dash = any_dash(random, source, given.senders);
    let mut senders = given.senders as usize;
    let place = random.below(senders);
    // In a round the word of this place waits; in an offer it is the sender's own.
    put(&mut dash, place, &source.word(random, Kind::Near));
    if let Call::Offer { sender, .. } = &mut call {
        *sender = place as u32;
        dash.waiting[place] = 0;
    }
    let (bit, bad, waiting_byte) = (random.below(n), random.pick(&BAD_BYTES), random.below(senders));
    if has(Fault::NoBit) {
        match &mut call {
            Call::Offer { word, .. } => word[bit] = bad,
            _ => dash.words[place * n + bit] = bad,
        }
    }
    if has(Fault::WaitingByte) {
        dash.waiting[waiting_byte] = random.pick(&BAD_BYTES);
    }
    if has(Fault::Waits) {
        dash.waiting[place] = random.pick(&[1, 2, 128, 255]);
    }
    let beyond = [given.senders, given.senders + 1, 256 + place as u32, 65536 + place as u32, u32::MAX];
    if has(Fault::Turn) {
        dash.next[0] = random.pick(&beyond);
    }
    if let (true, Call::Offer { sender, .. }) = (has(Fault::Sender), &mut call) {
        *sender = random.pick(&beyond);
    }
    if has(Fault::Repairs) {
        given.repairs = random.pick(&[0, 9, 10, 256 + given.repairs, 65536 + given.repairs, u32::MAX]);
    }
    if has(Fault::Senders) {
        senders = random.pick(&[0, 9, 10, 256 + senders]);
        given.senders = senders as u32;
        for buffer in [Buffer::Waiting, Buffer::Words, Buffer::Answers, Buffer::Handed] {
            buffer.resize(&mut call, &mut dash, buffer.length(senders, n));
        }
    }
    for buffer in BUFFERS.into_iter().filter(|&buffer| has(Fault::Length(buffer))) {
        let length = other_length(random, buffer.length(senders, n));
        buffer.resize(&mut call, &mut dash, length);
    }
    let of_code = faults.iter().filter_map(|fault| if let Fault::Code(fault) = fault { Some(*fault) } else { None });
    let of_code: Vec<CodeFault> = of_code.collect();
    if !of_code.is_empty() {
        let (m, n, t) = given.params.shape();
        given.params = draw::damaged_code(random, m, n, t, &of_code);
        given.params.hidden.resize(n as usize, 0);
    }
    let of_marks = faults.iter().filter_map(|fault| if let Fault::Marks(fault) = fault { Some(*fault) } else { None });
    let of_marks: Vec<MarkFault> = of_marks.collect();
    draw::spoil_marks(random, &mut given.params.hidden, &source.decoder.code.roles, &of_marks);
    (given, call, dash)
}

/// Every fault by itself and every two of them together, or over large fields some, in every call that can have them: 1
/// to 7, then 20, then 2 for words, then 18, then 19, then 8.
#[test]
fn faults_together() {
    use Fault::*;
    let mut random = Random::new(1512);
    let mut refused = 0;
    for shape @ (m, n, _) in draw::fewer_shapes() {
        let source = Source::drawn(&mut random, shape);
        let of_code = draw::code_faults(m, n).into_iter().map(Code);
        let all: Vec<Fault> = of_code
            .chain(draw::MARK_FAULTS.map(Marks))
            .chain(BUFFERS.map(Length))
            .chain([Senders, Repairs, Sender, Turn, Waits, WaitingByte, NoBit])
            .collect();
        for call in [Call::Start, offer(0, &source.word(&mut random, Kind::Near)), Call::Round] {
            let own: Vec<Fault> = all.iter().copied().filter(|fault| fault.concerns(&call)).collect();
            let sets = draw::all_or_some(&mut random, shape, &draw::one_or_two(&own));
            for faults in [vec![]].into_iter().chain(sets) {
                let (given, call, dash) = damaged(&mut random, &source, call.clone(), &faults);
                let number = faults.iter().map(|fault| fault.rank()).min().map(|rank| rank.1);
                assert_eq!(compare(&given, &call, &dash).err(), number, "{faults:?}: {given:?}, {call:?}");
                refused += usize::from(number.is_some());
            }
        }
    }
    assert!(refused > 20_000, "only {refused} calls were refused");
}

/// Every byte that can say whether a word waits, in every place: an offer of that sender is 19 unless it is 0, that of
/// another goes through whatever it is, and a round is 8 unless it is 0 or 1.
#[test]
fn every_waiting_byte() {
    let mut random = Random::new(1513);
    let source = Source::new(&mut random, &code_a());
    for senders in [1, 2, 5, 8] {
        let given = source.given(senders, 2);
        for place in 0..senders as usize {
            for byte in 0..=u8::MAX {
                let mut dash = any_dash(&mut random, &source, senders);
                put(&mut dash, place, &source.word(&mut random, Kind::Near));
                dash.waiting[place] = byte;
                let number = (byte > 1).then_some(8);
                assert_eq!(source.compare(&given, &Call::Round, &dash).err(), number, "byte {byte}");
                let word = source.word(&mut random, Kind::Any);
                let number = (byte > 0).then_some(19);
                assert_eq!(source.compare(&given, &offer(place, &word), &dash).err(), number, "byte {byte}");
                let other = random.below(senders as usize);
                if other != place {
                    dash.waiting[other] = 0;
                    source.compare(&given, &offer(other, &word), &dash).expect("an offer");
                }
                source.compare(&given, &Call::Start, &dash).expect("a start");
            }
        }
    }
}

/// A byte other than 0 or 1 at any place of a word that waits is 8, and so is one in the word of an offer. In a word
/// that does not wait it has no part in a round.
#[test]
fn bytes_that_are_no_bits() {
    let mut random = Random::new(1514);
    for shape in draw::fewer_shapes() {
        let source = Source::drawn(&mut random, shape);
        let (n, senders) = (source.length(), one_to_eight(&mut random));
        let given = source.given(senders, one_to_eight(&mut random));
        let right = any_dash(&mut random, &source, senders);
        for place in draw::places_to_try(&mut random, shape, n) {
            let sender = random.below(senders as usize);
            for kind in [Kind::CodeWord, Kind::Near] {
                let mut word = source.word(&mut random, kind);
                word[place] = random.pick(&BAD_BYTES);
                let mut dash = right.clone();
                put(&mut dash, sender, &word);
                assert_eq!(source.compare(&given, &Call::Round, &dash), Err(8), "place {place} of {sender}");
                dash.waiting[sender] = 0;
                let after = source.compare(&given, &Call::Round, &dash).expect("a round");
                assert_eq!(after.answers[sender], NONE);
                assert_eq!(source.compare(&given, &offer(sender, &word), &dash), Err(8), "place {place}");
            }
        }
    }
}

/// States that no play comes to, with any bytes and any turn: one thing is wrong in some of them, and hardly anything
/// right in others.
#[test]
fn any_states_at_all() {
    let mut random = Random::new(1515);
    let (mut offers, mut rounds) = (BTreeSet::new(), BTreeSet::new());
    for shape in draw::fewer_shapes() {
        let source = Source::drawn(&mut random, shape);
        let n = source.length();
        for _ in 0..draw::rounds(shape, 80) {
            let senders = random.pick(&[1, 2, 3, 5, 7, 8, 8, 9]);
            let given = source.given(senders, random.pick(&[1, 1, 2, 3, 7, 8, 8, 9]));
            let mut dash = any_dash(&mut random, &source, senders);
            let (sender, kind) = (random.below(senders as usize), random.pick(&KINDS));
            let mut word = source.word(&mut random, kind);
            match random.below(8) {
                0 => dash.waiting[sender] = random.pick(&BAD_BYTES),
                1 => dash.words[sender * n + random.below(n)] = random.pick(&BAD_BYTES),
                2 => dash.next[0] = random.pick(&[senders, senders + 1, 256, 65536, u32::MAX]),
                3 => word = any_bytes(&mut random, n),
                4 | 5 => {
                    dash.waiting.iter_mut().for_each(|byte| *byte = random.draw() as u8);
                    dash.words.iter_mut().for_each(|byte| *byte = random.draw() as u8);
                    dash.next[0] = random.draw() as u32 >> random.pick(&[0, 16, 29, 30]);
                }
                _ => {}
            }
            offers.insert(source.compare(&given, &offer(sender, &word), &dash).err());
            rounds.insert(source.compare(&given, &Call::Round, &dash).err());
            let start = source.compare(&given, &Call::Start, &dash);
            assert_eq!(start.is_ok(), senders <= 8 && given.repairs <= 8, "{given:?}");
        }
    }
    assert_eq!(offers, BTreeSet::from([None, Some(8), Some(18), Some(19)]));
    assert_eq!(rounds, BTreeSet::from([None, Some(8), Some(18)]));
}

/// What becomes of words does not depend on the offset.
#[test]
fn every_offset() {
    let mut random = Random::new(1516);
    for shape in draw::fewer_shapes() {
        let source = Source::drawn(&mut random, shape);
        let given = source.given(one_to_eight(&mut random), one_to_eight(&mut random));
        let dash = any_dash(&mut random, &source, given.senders);
        let after = source.compare(&given, &Call::Round, &dash);
        let offsets = draw::offsets(&mut random, shape.0);
        for omega in draw::all_or_some(&mut random, shape, &offsets) {
            let params = Params { omega, ..given.params.clone() };
            dash_gives(&Given { params, ..given.clone() }, &Call::Round, &dash, &after);
        }
    }
}

// As `include/zovunelith.h` declares them.
extern "C" {
    fn zov_senders_start(
        m: u32,
        n: u32,
        t: u32,
        omega: u32,
        h: *const Elem,
        h_length: usize,
        hidden: *const u8,
        hidden_length: usize,
        senders: u32,
        repairs: u32,
        waiting: *mut u8,
        waiting_length: usize,
        next: *mut u32,
        next_length: usize,
    ) -> i32;
    fn zov_senders_offer(
        m: u32,
        n: u32,
        t: u32,
        omega: u32,
        h: *const Elem,
        h_length: usize,
        hidden: *const u8,
        hidden_length: usize,
        senders: u32,
        repairs: u32,
        sender: u32,
        word: *const u8,
        word_length: usize,
        waiting: *mut u8,
        waiting_length: usize,
        words: *mut u8,
        words_length: usize,
    ) -> i32;
    fn zov_senders_round(
        m: u32,
        n: u32,
        t: u32,
        omega: u32,
        h: *const Elem,
        h_length: usize,
        hidden: *const u8,
        hidden_length: usize,
        senders: u32,
        repairs: u32,
        waiting: *mut u8,
        waiting_length: usize,
        words: *const u8,
        words_length: usize,
        next: *mut u32,
        next_length: usize,
        answers: *mut i32,
        answers_length: usize,
        handed: *mut u8,
        handed_length: usize,
    ) -> i32;
}

/// Makes a call as C may, with a null pointer for each empty buffer. What it leaves is to be what is expected, or with
/// a number what stood there.
#[track_caller]
fn pointers_give(given: &Given, call: &Call, dash: &Dash, expected: &Result<Dash, u32>) {
    let Given { params: Params { m, n, t, omega, ref h, ref hidden }, senders, repairs } = *given;
    let mut after = dash.clone();
    let Dash { waiting, words, next, answers, handed } = &mut after;
    // SAFETY: each pointer goes with the length of its list, which is 0 for a null pointer.
    let returned = unsafe {
        match call {
            Call::Start => zov_senders_start(
                m,
                n,
                t,
                omega,
                pointer(h),
                h.len(),
                pointer(hidden),
                hidden.len(),
                senders,
                repairs,
                pointer_mut(waiting),
                waiting.len(),
                pointer_mut(next),
                next.len(),
            ),
            Call::Offer { sender, word } => zov_senders_offer(
                m,
                n,
                t,
                omega,
                pointer(h),
                h.len(),
                pointer(hidden),
                hidden.len(),
                senders,
                repairs,
                *sender,
                pointer(word),
                word.len(),
                pointer_mut(waiting),
                waiting.len(),
                pointer_mut(words),
                words.len(),
            ),
            Call::Round => zov_senders_round(
                m,
                n,
                t,
                omega,
                pointer(h),
                h.len(),
                pointer(hidden),
                hidden.len(),
                senders,
                repairs,
                pointer_mut(waiting),
                waiting.len(),
                pointer(words),
                words.len(),
                pointer_mut(next),
                next.len(),
                pointer_mut(answers),
                answers.len(),
                pointer_mut(handed),
                handed.len(),
            ),
        }
    };
    let number = expected.as_ref().map_or_else(|&number| -(number as i32), |_| 0);
    assert_eq!(returned, number, "{given:?}, {call:?} on {dash:?}");
    assert_eq!(&after, expected.as_ref().unwrap_or(dash), "{given:?}, {call:?} on {dash:?}");
}

/// A null pointer with length 0 is a buffer of no entries: that of no senders, and else of a wrong length.
#[test]
fn null_pointers() {
    let mut random = Random::new(1517);
    let source = Source::new(&mut random, &code_t());
    let word = source.word(&mut random, Kind::Near);
    for senders in [0, 1, 3] {
        let right = idle_dash(&mut random, 16, senders);
        let given = source.given(senders as u32, 1);
        for call in [Call::Start, offer(0, &word), Call::Round] {
            for choice in 0..1 << BUFFERS.len() {
                let chosen = BUFFERS.into_iter().enumerate().filter(|(bit, _)| choice >> bit & 1 == 1);
                let (mut damaged, mut dash) = (call.clone(), right.clone());
                let mut short = false;
                for (_, buffer) in chosen {
                    short |= buffer.is_lent_to(&call) && buffer.length(senders, 16) > 0;
                    buffer.resize(&mut damaged, &mut dash, 0);
                }
                let expected = reference::made(&given, &damaged, &dash);
                let number = if short { Some(2) } else { (senders == 0).then_some(18) };
                assert_eq!(expected.as_ref().err(), number.as_ref(), "{call:?}, {senders} senders, {choice:06b}");
                pointers_give(&given, &damaged, &dash, &expected);
            }
            for params in [Params { h: vec![], ..code_t() }, Params { hidden: vec![], ..code_t() }] {
                pointers_give(&Given { params, ..given.clone() }, &call, &right, &Err(2));
            }
        }
    }
}

#[test]
fn plays_of_the_rust_crate() {
    assert_eq!((zovunelith::MOST_SENDERS, zovunelith::NONE), (MOST as usize, NONE));
    let mut random = Random::new(1518);
    let toy = Source::new(&mut random, &code_t());
    all_numbers().for_each(|numbers| play_of_the_crate(&mut random, &toy, numbers, 12));
    for shape in draw::fewer_shapes() {
        let source = Source::drawn(&mut random, shape);
        let numbers = (one_to_eight(&mut random), one_to_eight(&mut random));
        play_of_the_crate(&mut random, &source, numbers, draw::rounds(shape, 8));
    }
}

/// The Rust crate's senders with buffers of other lengths and numbers out of range. The words are looked at with the
/// first offer or round, and what is refused leaves everything alone.
#[test]
fn refusals_of_the_rust_crate() {
    let mut random = Random::new(1519);
    let params = code_t();
    let code = library::code(&params);
    let source = Source::new(&mut random, &params);
    let word = source.word(&mut random, Kind::Near);
    let narrow = zovunelith::Code { t: 3, ..code };
    for (code, senders, repairs, length, number) in [
        (narrow, 3, 1, 3, 7),
        (code, 3, 1, 2, 2),
        (code, 3, 1, 4, 2),
        (code, 3, 0, 3, 18),
        (code, 3, 9, 3, 18),
        (code, 0, 1, 0, 18),
        (code, 9, 1, 9, 18),
        (code, u32::MAX, 1, 3, 2),
    ] {
        let (mut waiting, mut words) = (Lent::marked(length), Lent::marked(length * 16));
        let answer = Senders::start(code, senders, repairs, waiting.slice_mut(), words.slice_mut());
        assert_eq!(answer.err().map(Refusal::number), Some(number), "{senders} senders, {repairs} repairs");
        waiting.assert_unchanged();
        words.assert_unchanged();
    }
    for length in other_lengths(48) {
        let (mut waiting, mut words, mut handed) = (Lent::marked(3), Lent::marked(length), Lent::marked(48));
        let mut played = Senders::start(code, 3, 1, waiting.slice_mut(), words.slice_mut()).expect("a start");
        assert_eq!(played.offer(0, &word), Err(Refusal::Length), "words of {length}");
        assert_eq!(played.round(handed.slice_mut()), Err(Refusal::Length), "words of {length}");
        waiting.assert_holds(Some(&[0; 3]));
        words.assert_unchanged();
        handed.assert_unchanged();

        let (mut waiting, mut words, mut handed) = (Lent::marked(3), Lent::marked(48), Lent::marked(length));
        let mut played = Senders::start(code, 3, 1, waiting.slice_mut(), words.slice_mut()).expect("a start");
        played.offer(0, &word).expect("an offer");
        assert_eq!(played.offer(1, &word[1..]), Err(Refusal::Length));
        assert_eq!(played.round(handed.slice_mut()), Err(Refusal::Length), "words of {length} handed out");
        assert!(played.waits(0) && !played.waits(1));
        handed.assert_unchanged();
    }
}
