//! Calls on words with faults: of a whole code or of a selection, with hidden places or without.

use crate::bits::{ones_at, BAD_BYTES};
use crate::calls::{Call, Input, CALLS};
use crate::draw::{self, CodeFault, MarkFault};
use crate::random::Random;
use crate::reference::columns::{block_count, Selection, Setting};
use crate::reference::params::Params;
use crate::reference::repair::Decoder;
use crate::reference::rows::{self, Row};

/// A fault of a call on words.
#[derive(Clone, Copy, Debug, PartialEq)]
pub enum Fault {
    Code(CodeFault),
    SyndromeLength,
    RolesLength,
    NoBlocks,
    TooManyBlocks,
    ShiftsLength,
    BeyondTheLast,
    NamedTwice,
    Shift,
    Marks(MarkFault),
    WordLength,
    RepairedLength,
    MessageLength,
    Narrow,
    NoBit,
    TooFar,
    NoRow,
}

/// The faults of a call's own input: those that do not lie in the setting.
pub const OF_INPUT: [Fault; 9] = {
    use Fault::*;
    [SyndromeLength, RolesLength, WordLength, RepairedLength, MessageLength, Narrow, NoBit, TooFar, NoRow]
};

/// The faults of a selection's lists.
pub const OF_LISTS: [Fault; 6] = {
    use Fault::*;
    [NoBlocks, TooManyBlocks, ShiftsLength, BeyondTheLast, NamedTwice, Shift]
};

impl Fault {
    /// When it is looked for, and its number: those of the code by their numbers, then the others one after the other.
    /// Of several faults the one with the smallest pair is given. How many places a selection has is known later than
    /// for a whole code.
    fn rank(self, setting: &impl Setting) -> (u32, u32) {
        use Fault::*;
        match self {
            Code(fault) => (0, fault.number()),
            SyndromeLength => (0, 2),
            RolesLength | Marks(MarkFault::Length) => (u32::from(setting.lists().is_some()), 2),
            NoBlocks | TooManyBlocks | ShiftsLength => (1, 2),
            BeyondTheLast | NamedTwice => (2, 14),
            Shift => (3, 15),
            Marks(fault) => (4, fault.number()),
            WordLength | RepairedLength | MessageLength => (5, 2),
            Narrow => (6, 12),
            NoBit => (7, 8),
            TooFar => (8, 10),
            NoRow => (9, 11),
        }
    }

    /// Whether a call can have it.
    fn concerns(self, call: Call) -> bool {
        use Call::*;
        match self {
            Fault::SyndromeLength => call == Syndrome,
            Fault::RolesLength => call == Roles,
            Fault::WordLength => call != Roles,
            Fault::RepairedLength | Fault::TooFar => [Repair, ReadRow].contains(&call),
            Fault::MessageLength => [Encode, Message].contains(&call),
            Fault::Narrow | Fault::NoRow => [WriteRow, ReadRow].contains(&call),
            Fault::NoBit => ![Roles, WriteRow].contains(&call),
            _ => true,
        }
    }
}

/// The faults of one kind among these.
fn of_kind<T>(faults: &[Fault], kind: impl Fn(Fault) -> Option<T>) -> Vec<T> {
    faults.iter().filter_map(|&fault| kind(fault)).collect()
}

/// Numbers of `bound` or more, among them ones that a cut to fewer bits would take to `good`.
pub fn too_great(bound: u32, good: u32) -> Vec<u32> {
    let all = [bound, bound + 1, 2 * bound, 256 + good, 512 + good, 65536 + good, (1 << 31) + good, u32::MAX];
    all.into_iter().filter(|&number| number >= bound).collect()
}

/// Messages of k bits that are no rows: green in first gear, lamp 3, and a further bit.
pub fn no_rows(k: usize) -> Vec<Vec<u8>> {
    let further = (rows::BITS < k).then(|| ones_at(k, &[k - 1]));
    let pairs = [Row { gear: 1, lamp: 1 }, Row { gear: 0, lamp: 3 }];
    pairs.into_iter().map(|row| rows::message(row, k)).chain(further).collect()
}

/// A setting whose lists can be damaged.
pub trait Damaged: Setting {
    /// Makes those of these faults that lie in its lists of blocks and shifts.
    fn spoil_lists(&mut self, random: &mut Random, faults: &[Fault]);
}

/// A whole code has no lists.
impl Damaged for Params {
    fn spoil_lists(&mut self, _: &mut Random, _: &[Fault]) {}
}

/// A selection of two blocks or more: a single one can't be named twice.
impl Damaged for Selection {
    fn spoil_lists(&mut self, random: &mut Random, faults: &[Fault]) {
        let has = |fault: Fault| faults.contains(&fault);
        let (count, most) = (self.blocks.len(), block_count(&self.params));
        let place = random.below(count);
        if has(Fault::Shift) {
            self.shifts[place] = random.pick(&too_great(self.params.t, self.shifts[place]));
        }
        if has(Fault::NamedTwice) {
            self.blocks[place] = self.blocks[(place + 1) % count];
        }
        if has(Fault::BeyondTheLast) {
            self.blocks[place] = random.pick(&too_great(most as u32, self.blocks[place]));
        }
        if has(Fault::TooManyBlocks) {
            self.blocks.resize(most + 1, 0);
            self.shifts.resize(most + 1, 0);
        }
        if has(Fault::NoBlocks) {
            self.blocks.clear();
            self.shifts.clear();
        }
        if has(Fault::ShiftsLength) {
            let right = self.shifts.len();
            self.shifts.resize(draw::other_length(random, right), 0);
        }
    }
}

/// A setting to be damaged.
pub struct Intact<S> {
    setting: S,
    decoder: Decoder,
    /// A word that is too far from every code word, if one was met.
    too_far: Option<Vec<u8>>,
}

impl<S: Damaged> Intact<S> {
    pub fn new(random: &mut Random, setting: S) -> Intact<S> {
        let decoder = Decoder::new(setting.code());
        let mut words = (0..100).map(|_| random.bits(decoder.code.length()));
        let too_far = words.find(|word| decoder.repair(word).is_none());
        Intact { setting, decoder, too_far }
    }

    /// The setting and input for every call, with these faults if it can have them. The earlier a fault is looked for,
    /// the later it is made: it can then cover another, which is not the one to be given, but is never covered itself.
    fn damaged(&self, random: &mut Random, faults: &[Fault]) -> Option<(S, Input)> {
        let has = |fault: Fault| faults.contains(&fault);
        let (mut setting, mut input) = (self.setting.clone(), Input::new(random, &self.decoder));
        let (length, k) = (self.decoder.code.length(), input.message.len());
        if has(Fault::NoRow) {
            input.row = random.pick(&[Row { gear: 1, lamp: 1 }, Row { gear: 8, lamp: 0 }, Row { gear: 0, lamp: 3 }]);
            if k >= rows::BITS {
                input.word = self.decoder.code.encode(&no_rows(k)[random.below(2)]);
            }
        }
        if has(Fault::TooFar) {
            input.word = self.too_far.clone()?;
        }
        if has(Fault::MessageLength) {
            input.message = random.bits(k + 1);
        }
        if has(Fault::NoBit) {
            for list in [&mut input.word, &mut input.message] {
                let place = random.below(list.len().max(1));
                list.iter_mut().skip(place).take(1).for_each(|byte| *byte = random.pick(&BAD_BYTES));
            }
        }
        let marks = of_kind(faults, |fault| if let Fault::Marks(fault) = fault { Some(fault) } else { None });
        let of_place: Vec<MarkFault> = marks.iter().copied().filter(|&fault| fault != MarkFault::Length).collect();
        draw::spoil_marks(random, setting.hidden_mut(), &self.decoder.code.roles, &of_place);
        setting.spoil_lists(random, faults);
        if setting.places() != self.setting.places() {
            // Marks and buffers for as many places, of which none is hidden.
            *setting.hidden_mut() = vec![0; setting.places()];
            input.resize(setting.places());
        }
        let wrong = draw::other_length(random, length);
        if has(Fault::WordLength) {
            input.word.resize(wrong, 0);
        }
        if has(Fault::RepairedLength) {
            input.repaired_length = wrong;
        }
        let wrong = draw::other_length(random, setting.places());
        if has(Fault::RolesLength) {
            input.roles_length = wrong;
        }
        if has(Fault::Marks(MarkFault::Length)) {
            setting.hidden_mut().resize(wrong, 0);
        }
        let of_code = of_kind(faults, |fault| if let Fault::Code(fault) = fault { Some(fault) } else { None });
        if !of_code.is_empty() {
            let ((m, n, t), marks) = (setting.params().shape(), setting.hidden().to_vec());
            *setting.params_mut() = draw::damaged_code(random, m, n, t, &of_code);
            *setting.hidden_mut() = marks;
        }
        // As long as t, damaged or not, where so much can be lent.
        let rows = setting.params().t.min(4096) as usize;
        input.syndrome_length = if has(Fault::SyndromeLength) { rows + 1 } else { rows };
        Some((setting, input))
    }

    /// The number to be given for faults that were made, and for those that a call has without: too few message columns
    /// for a row, and a syndrome that can't be as long as a damaged t. An empty message has no byte that could be no
    /// bit.
    fn first_number(&self, call: Call, faults: &[Fault], setting: &S, input: &Input) -> Option<u32> {
        let narrow = (self.decoder.code.k() < rows::BITS).then_some(Fault::Narrow);
        let as_long_as_t = input.syndrome_length as u64 == u64::from(setting.params().t);
        let syndrome = (!as_long_as_t).then_some(Fault::SyndromeLength);
        let possible = |fault: &Fault| *fault != Fault::NoBit || call != Call::Encode || !input.message.is_empty();
        let faults = faults.iter().copied().filter(possible).chain(narrow).chain(syndrome);
        let ranks = faults.filter(|fault| fault.concerns(call)).map(|fault| fault.rank(setting));
        ranks.min().map(|rank| rank.1)
    }

    /// Makes every call that can have these faults: the one that is looked for first is to be given. Gives the number
    /// of calls that were refused.
    #[track_caller]
    pub fn compare(&self, random: &mut Random, faults: &[Fault]) -> usize {
        let Some((setting, input)) = self.damaged(random, faults) else {
            return 0;
        };
        let mut refused = 0;
        for call in CALLS.into_iter().filter(|&call| faults.iter().all(|fault| fault.concerns(call))) {
            // Judged by the order of the faults as well as by the second implementation.
            let number = self.first_number(call, faults, &setting, &input);
            assert_eq!(input.number(call, &setting), number, "{call:?}, {faults:?}: {setting:?}, {input:?}");
            if let Some(number) = number {
                input.is_refused(call, &setting, number);
                refused += 1;
            }
        }
        refused
    }
}
