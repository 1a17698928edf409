//! Plays for several senders: words of every kind, calls on a dash from the start on, which are watched from outside,
//! and the same by the Rust crate's senders.

use crate::bits::{turned, BAD_BYTES};
use crate::canary::Lent;
use crate::draw;
use crate::expect::dash_gives;
use crate::library::{self, repair::repair as repair_alone};
use crate::random::Random;
use crate::reference::params::{Params, Shape};
use crate::reference::repair::Decoder;
use crate::reference::senders::{self as reference, Call, Dash, Given, MOST, NONE, TOO_FAR};
use crate::reference::words::Code;
use zovunelith::{Refusal, Senders};

/// A kind of words, by what a round can make of them.
#[derive(Clone, Copy, Debug, PartialEq)]
pub enum Kind {
    CodeWord,
    /// With 1 to t places turned.
    Near,
    /// With more turned, so that it can be anything.
    Any,
    TooFar,
}

pub const KINDS: [Kind; 4] = [Kind::CodeWord, Kind::Near, Kind::Any, Kind::TooFar];

/// An accepted code that words come from.
pub struct Source {
    pub decoder: Decoder,
    too_far: Vec<u8>,
}

impl Source {
    pub fn new(random: &mut Random, params: &Params) -> Source {
        let decoder = Decoder::new(Code::new(params));
        // No code of even length is perfect with t from 1 to n/2: there are such words, and one is soon met. The more
        // so with places hidden, since there are as many check columns, but fewer words are near a code word.
        let too_far = loop {
            let word = random.bits(decoder.code.length());
            if decoder.repair(&word).is_none() {
                break word;
            }
        };
        Source { decoder, too_far }
    }

    pub fn drawn(random: &mut Random, (m, n, t): Shape) -> Source {
        let params = draw::params(random, m, n, t);
        Source::new(random, &params)
    }

    pub fn length(&self) -> usize {
        self.decoder.code.length()
    }

    pub fn given(&self, senders: u32, repairs: u32) -> Given {
        Given { params: self.decoder.code.params.clone(), senders, repairs }
    }

    pub fn word(&self, random: &mut Random, kind: Kind) -> Vec<u8> {
        let (code, n, t) = (&self.decoder.code, self.length(), self.decoder.code.params.t as usize);
        let sent = code.encode(&random.bits(code.k()));
        let (few, many) = (1 + random.below(t), t + 1 + random.below(n - t));
        match kind {
            Kind::CodeWord => sent,
            Kind::Near => turned(&sent, &random.places(n, few)),
            Kind::Any => turned(&sent, &random.places(n, many)),
            // What is added to all code words is as far from all of them.
            Kind::TooFar => sent.iter().zip(&self.too_far).map(|(bit, other)| bit ^ other).collect(),
        }
    }

    /// Makes a call and compares with the second implementation.
    #[track_caller]
    pub fn compare(&self, given: &Given, call: &Call, dash: &Dash) -> Result<Dash, u32> {
        let expected = reference::made_on(&self.decoder, given, call, dash);
        dash_gives(given, call, dash, &expected);
        expected
    }
}

/// The same for a code that may have faults.
#[track_caller]
pub fn compare(given: &Given, call: &Call, dash: &Dash) -> Result<Dash, u32> {
    let expected = reference::made(given, call, dash);
    dash_gives(given, call, dash, &expected);
    expected
}

pub fn offer(sender: usize, word: &[u8]) -> Call {
    Call::Offer { sender: sender as u32, word: word.to_vec() }
}

/// Bytes that are no bits, so that a place which a call forgets can't pass for one that it wrote.
pub fn any_bytes(random: &mut Random, length: usize) -> Vec<u8> {
    (0..length).map(|_| 2 + random.below(254) as u8).collect()
}

fn any_answers(random: &mut Random, length: usize) -> Vec<i32> {
    (0..length).map(|_| random.draw() as i32).collect()
}

/// A dash of so many senders with words of n bytes. None waits, the turn is 0, and all else is anything.
pub fn idle_dash(random: &mut Random, n: usize, senders: usize) -> Dash {
    let [words, handed] = [(); 2].map(|()| any_bytes(random, senders * n));
    Dash { waiting: vec![0; senders], words, next: vec![0], answers: any_answers(random, senders), handed }
}

/// The part of a sender, in words or in what is handed out.
fn part(list: &[u8], n: usize, sender: usize) -> &[u8] {
    &list[sender * n..(sender + 1) * n]
}

/// Has a sender's word wait.
pub fn put(dash: &mut Dash, sender: usize, word: &[u8]) {
    dash.waiting[sender] = 1;
    dash.words[sender * word.len()..][..word.len()].copy_from_slice(word);
}

/// A number of senders, or of repairs, from 1 to 8.
pub fn one_to_eight(random: &mut Random) -> u32 {
    1 + random.below(MOST as usize) as u32
}

/// Every number of senders with every number of repairs.
pub fn all_numbers() -> impl Iterator<Item = (u32, u32)> {
    (1..=MOST).flat_map(|senders| (1..=MOST).map(move |repairs| (senders, repairs)))
}

/// A dash whose senders have words of drawn kinds, or none, and whose turn is anyone's.
pub fn any_dash(random: &mut Random, source: &Source, senders: u32) -> Dash {
    let mut dash = idle_dash(random, source.length(), senders as usize);
    dash.next[0] = random.below(senders as usize) as u32;
    for sender in 0..senders as usize {
        if random.below(4) > 0 {
            let kind = random.pick(&KINDS);
            put(&mut dash, sender, &source.word(random, kind));
        }
    }
    dash
}

/// How often something came to pass in plays.
#[derive(Debug, Default)]
pub struct Seen {
    handed_out: usize,
    repaired: usize,
    too_far: usize,
    /// Words that left in the last round in which they may, there being more than one.
    latest: usize,
    refused_by_18: usize,
    refused_by_19: usize,
    refused_by_8: usize,
}

impl Seen {
    /// Fails unless each of them came to pass so often.
    #[track_caller]
    pub fn assert_each(&self, least: usize) {
        let Seen { handed_out, repaired, too_far, latest, refused_by_18, refused_by_19, refused_by_8 } = self;
        let counts = [handed_out, repaired, too_far, latest, refused_by_18, refused_by_19, refused_by_8];
        assert!(counts.iter().all(|&&count| count >= least), "{self:?}");
    }
}

/// A play from the start on. What is to become of a word is known by when it came, and by repair alone.
pub struct Play<'a> {
    source: &'a Source,
    pub given: Given,
    dash: Dash,
    pub rounds: u32,
    /// For each sender the word that waits, and the number of rounds before it came.
    pub arrived: Vec<Option<(Vec<u8>, u32)>>,
    seen: &'a mut Seen,
}

impl<'a> Play<'a> {
    #[track_caller]
    pub fn start(
        random: &mut Random,
        source: &'a Source,
        (senders, repairs): (u32, u32),
        seen: &'a mut Seen,
    ) -> Play<'a> {
        let given = source.given(senders, repairs);
        let earlier = Dash {
            waiting: any_bytes(random, senders as usize),
            next: vec![random.draw() as u32],
            ..idle_dash(random, source.length(), senders as usize)
        };
        let dash = source.compare(&given, &Call::Start, &earlier).expect("a start");
        assert_eq!((dash.waiting.as_slice(), dash.next.as_slice()), (&vec![0; senders as usize][..], &[0][..]));
        Play { source, given, dash, rounds: 0, arrived: vec![None; senders as usize], seen }
    }

    /// The rounds within which a word is to leave.
    fn limit(&self) -> u32 {
        self.given.senders.div_ceil(self.given.repairs)
    }

    /// Offers a word of a sender that has none waiting.
    #[track_caller]
    pub fn offer(&mut self, sender: usize, word: Vec<u8>) {
        self.dash = self.source.compare(&self.given, &offer(sender, &word), &self.dash).expect("an offer");
        assert_eq!(part(&self.dash.words, word.len(), sender), word);
        self.arrived[sender] = Some((word, self.rounds));
    }

    /// Makes an offer that is to be refused: that of a sender which there is none of, that of one whose word waits, or
    /// that of a word with a byte that is no bit. The first two may have such a byte as well.
    #[track_caller]
    fn refused_offer(&mut self, random: &mut Random) {
        let (n, senders) = (self.source.length(), self.arrived.len());
        let (mut sender, kind) = (random.below(senders), random.pick(&KINDS));
        let mut word = self.source.word(random, kind);
        let waits = self.arrived[sender].is_some();
        let number = if random.below(3) == 0 {
            sender = random.pick(&[senders, senders + 1, 256 + sender, 65536 + sender, u32::MAX as usize]);
            self.seen.refused_by_18 += 1;
            18
        } else if waits {
            self.seen.refused_by_19 += 1;
            19
        } else {
            self.seen.refused_by_8 += 1;
            8
        };
        if number == 8 || random.below(2) == 0 {
            word[random.below(n)] = random.pick(&BAD_BYTES);
        }
        assert_eq!(self.source.compare(&self.given, &offer(sender, &word), &self.dash), Err(number));
    }

    /// Makes a round and looks at what became of each word. Gives the senders whose words left.
    #[track_caller]
    pub fn round(&mut self, random: &mut Random) -> Vec<usize> {
        let (n, limit) = (self.source.length(), self.limit());
        // Other buffers than in the last round.
        let handed = any_bytes(random, self.dash.handed.len());
        self.dash.handed = handed.clone();
        self.dash.answers = any_answers(random, self.dash.answers.len());
        self.dash = self.source.compare(&self.given, &Call::Round, &self.dash).expect("a round");
        self.rounds += 1;
        let mut left = Vec::new();
        for (sender, &answer) in self.dash.answers.iter().enumerate() {
            let mut told = part(&handed, n, sender).to_vec();
            match self.arrived[sender].take() {
                Some((word, arrived)) if answer != NONE => {
                    let alone = repair_alone(&self.given.params, &word, &mut told);
                    assert_eq!(answer, alone.map_or_else(|number| -(number as i32), |count| count as i32));
                    match answer {
                        0 => self.seen.handed_out += 1,
                        TOO_FAR => self.seen.too_far += 1,
                        _ => self.seen.repaired += 1,
                    }
                    let waited = self.rounds - arrived;
                    // A code word has no turn to wait for.
                    let limit = if answer == 0 { 1 } else { limit };
                    assert!(waited <= limit, "sender {sender} waited for {waited} rounds: {:?}", self.given);
                    self.seen.latest += usize::from(limit > 1 && waited == limit);
                    left.push(sender);
                }
                Some((word, arrived)) => {
                    let waits = self.rounds - arrived;
                    assert!(waits < limit, "sender {sender} waits after {waits} rounds: {:?}", self.given);
                    assert_eq!(part(&self.dash.words, n, sender), word);
                    self.arrived[sender] = Some((word, arrived));
                }
                None => assert_eq!(answer, NONE),
            }
            // What repair alone leaves in such a buffer, which is nothing with 10.
            assert_eq!(part(&self.dash.handed, n, sender), told);
            assert_eq!(self.dash.waiting[sender], u8::from(self.arrived[sender].is_some()));
        }
        left
    }

    /// Plays rounds, before each of which some senders offer words of these kinds, and some offers are refused.
    #[track_caller]
    pub fn play(&mut self, random: &mut Random, rounds: usize, kinds: &[Kind]) {
        let eagerness = 1 + random.below(4);
        for _ in 0..rounds {
            for sender in random.choice(self.arrived.len(), self.arrived.len()) {
                if random.below(8) == 0 {
                    self.refused_offer(random);
                }
                if self.arrived[sender].is_none() && random.below(4) < eagerness {
                    let kind = random.pick(kinds);
                    let word = self.source.word(random, kind);
                    self.offer(sender, word);
                }
            }
            self.round(random);
        }
    }
}

/// A play of the Rust crate's senders, who keep their state, beside the same calls by the second implementation.
#[track_caller]
pub fn play_of_the_crate(random: &mut Random, source: &Source, (senders, repairs): (u32, u32), rounds: usize) {
    let given = source.given(senders, repairs);
    let code = library::code(&given.params);
    let earlier = idle_dash(random, source.length(), senders as usize);
    let (mut waiting, mut words) = (Lent::marked(senders as usize), Lent::holding(&earlier.words));
    let mut dash = reference::made(&given, &Call::Start, &earlier).expect("a start");
    let mut played = Senders::start(code, senders, repairs, waiting.slice_mut(), words.slice_mut()).expect("a start");
    for _ in 0..rounds {
        for _ in 0..senders {
            let (sender, kind) = (random.below(senders as usize + 1), random.pick(&KINDS));
            let mut word = source.word(random, kind);
            if random.below(12) == 0 {
                word[0] = random.pick(&BAD_BYTES);
            }
            let call = offer(sender, &word);
            let expected = reference::made_on(&source.decoder, &given, &call, &dash);
            let answer = played.offer(sender as u32, &word).map_err(Refusal::number);
            assert_eq!(answer, expected.as_ref().map(|_| ()).map_err(|&number| number), "{given:?}, {call:?}");
            dash = expected.unwrap_or(dash);
        }
        let waits: Vec<bool> = (0..=MOST).map(|sender| played.waits(sender)).collect();
        let by_reference = (0..=MOST as usize).map(|sender| dash.waiting.get(sender) == Some(&1));
        assert!(by_reference.eq(waits.iter().copied()), "{waits:?} on {dash:?}");
        let mut handed = Lent::holding(&dash.handed);
        let answers = played.round(handed.slice_mut()).expect("a round");
        dash = reference::made_on(&source.decoder, &given, &Call::Round, &dash).expect("a round");
        handed.assert_holds(Some(&dash.handed));
        let told = |sender: usize| match dash.answers.get(sender) {
            None | Some(&NONE) => None,
            Some(&TOO_FAR) => Some(Err(Refusal::TooFar)),
            Some(&count) => Some(Ok(count as u32)),
        };
        (0..=MOST as usize)
            .for_each(|sender| assert_eq!(answers.of(sender), told(sender), "{given:?}, sender {sender}"));
        let left = (0..senders as usize).filter_map(|sender| Some((sender, told(sender)?)));
        assert!(answers.iter().eq(left), "{answers:?} for {:?}", dash.answers);
    }
    waiting.assert_holds(Some(&dash.waiting));
    words.assert_holds(Some(&dash.words));
}
