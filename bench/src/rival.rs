//! An unproved implementation for comparison: products by tables of logarithms, formulas by recursive descent, rows of
//! the parity check matrix packed into 64-bit words, and the same pass for repair. It makes the same tests as the
//! product's calls.

use std::borrow::Cow;
use std::ops::Range;
use zovunelith::{Elem, MOST_SENDERS};

/// The longest word, and the longest block.
pub const LONGEST: usize = 512;

/// The most roots of a code.
const MOST_ROOTS: usize = LONGEST / 2;

/// The reduction word of each width, at the width. All are primitive: the powers of u, the number 2, are all elements
/// but 0.
const WORDS: [u32; 17] =
    [0, 0, 0x7, 0xB, 0x13, 0x25, 0x43, 0x83, 0x11D, 0x211, 0x409, 0x805, 0x1053, 0x201B, 0x4443, 0x8003, 0x1100B];

/// The field of 2^m elements by its logarithms. The tables are as long as the widest field needs, so that no index has
/// to be tested; a narrow field uses the front of them.
pub struct Field {
    m: u32,
    /// The powers of u twice over, so that a sum of two logarithms is an index.
    exp: Box<[Elem; 1 << 17]>,
    log: Box<[u16; 1 << 16]>,
}

impl Field {
    pub fn new(m: u32) -> Field {
        let order = (1 << m) - 1;
        let mut field = Field { m, exp: Box::new([0; 1 << 17]), log: Box::new([0; 1 << 16]) };
        let mut power = 1_u32;
        for e in 0..order {
            field.exp[e] = power as Elem;
            field.exp[e + order] = power as Elem;
            field.log[power as usize] = e as u16;
            power <<= 1;
            if power >> m != 0 {
                power ^= WORDS[m as usize];
            }
        }
        field
    }

    #[inline]
    pub fn product(&self, a: Elem, b: Elem) -> Elem {
        if a == 0 || b == 0 {
            return 0;
        }
        self.exp[usize::from(self.log[usize::from(a)]) + usize::from(self.log[usize::from(b)])]
    }

    /// The inverse of an element other than 0.
    #[inline]
    fn reciprocal(&self, a: Elem) -> Elem {
        self.exp[(1 << self.m) - 1 - usize::from(self.log[usize::from(a)])]
    }

    /// The inverse, and 0 for 0.
    #[inline]
    pub fn inverse(&self, a: Elem) -> Elem {
        if a == 0 {
            return 0;
        }
        self.reciprocal(a)
    }

    fn has(&self, a: Elem) -> bool {
        u32::from(a) >> self.m == 0
    }
}

/// The product of two blocks, by the definition of the matrix product's first row.
pub fn block_product(field: &Field, a: &[Elem], b: &[Elem], out: &mut [Elem]) {
    for (i, entry) in out.iter_mut().enumerate() {
        *entry = (0..a.len()).fold(0, |sum, k| sum ^ field.product(a[k], b[i ^ k]));
    }
}

/// The inverse of a block; none where its elements sum to zero.
pub fn block_inverse(field: &Field, a: &[Elem], out: &mut [Elem]) -> bool {
    let sum = a.iter().fold(0, |sum, &entry| sum ^ entry);
    if sum == 0 {
        return false;
    }
    let scale = field.reciprocal(field.product(sum, sum));
    for (entry, &old) in out.iter_mut().zip(a) {
        *entry = field.product(old, scale);
    }
    true
}

/// The longest text of a formula.
const LONGEST_TEXT: usize = 128;

/// How deep its brackets may nest.
const DEEPEST: usize = 8;

/// The value of a formula; none where the product's call is refused.
pub fn formula(field: &Field, text: &[u8], blocks: [&[Elem]; 4], out: &mut [Elem]) -> Option<()> {
    let length = out.len();
    let is_block = |block: &[Elem]| block.len() == length && block.iter().all(|&entry| field.has(entry));
    if !length.is_power_of_two() || length > LONGEST || !blocks.iter().all(|block| block.is_empty() || is_block(block))
    {
        return None;
    }
    if text.len() > LONGEST_TEXT {
        return None;
    }
    let mut formula = Formula { field, blocks, rest: text, open: 0, dead: false };
    let value = formula.sum()?;
    if !formula.rest.is_empty() || formula.dead {
        return None;
    }
    out.copy_from_slice(&value);
    Some(())
}

/// A block that is lent for a letter, or one that was worked out.
type Value<'a> = Cow<'a, [Elem]>;

/// A formula that is worked out while it is read.
struct Formula<'a> {
    field: &'a Field,
    blocks: [&'a [Elem]; 4],
    /// What is left of the text.
    rest: &'a [u8],
    /// The number of open brackets.
    open: usize,
    /// Whether an inverse did not exist. The text is read to its end all the same.
    dead: bool,
}

impl<'a> Formula<'a> {
    /// Whether the text goes on with this byte, which is then behind.
    fn take(&mut self, byte: u8) -> bool {
        let taken = self.rest.first() == Some(&byte);
        self.rest = &self.rest[usize::from(taken)..];
        taken
    }

    fn sum(&mut self) -> Option<Value<'a>> {
        let mut sum = self.product()?;
        while self.take(b'+') {
            let added = self.product()?;
            sum.to_mut().iter_mut().zip(added.iter()).for_each(|(entry, added)| *entry ^= added);
        }
        Some(sum)
    }

    fn product(&mut self) -> Option<Value<'a>> {
        let mut left = self.term()?;
        loop {
            let factor = if self.take(b'*') {
                self.term()?
            } else if self.take(b'/') {
                let divisor = self.term()?;
                self.inverse(&divisor)
            } else {
                return Some(left);
            };
            let mut product = vec![0; left.len()];
            block_product(self.field, &left, &factor, &mut product);
            left = product.into();
        }
    }

    fn term(&mut self) -> Option<Value<'a>> {
        let mut term: Value;
        if self.take(b'(') {
            self.open += 1;
            if self.open > DEEPEST {
                return None;
            }
            term = self.sum()?;
            if !self.take(b')') {
                return None;
            }
            self.open -= 1;
        } else {
            let letter = (0..4).find(|&letter| self.take(b"ABCD"[letter]))?;
            if self.blocks[letter].is_empty() {
                return None;
            }
            term = self.blocks[letter].into();
        }
        while self.take(b'\'') {
            term = self.inverse(&term);
        }
        Some(term)
    }

    fn inverse(&mut self, value: &[Elem]) -> Value<'a> {
        let mut inverse = vec![0; value.len()];
        self.dead |= !block_inverse(self.field, value, &mut inverse);
        inverse.into()
    }
}

/// If a signature is accepted as a code's, its inverses are at the front of `inverses`.
fn check_signature(field: &Field, h: &[Elem], inverses: &mut [Elem]) -> Option<()> {
    let n = h.len();
    if !n.is_power_of_two() || !(2..=LONGEST).contains(&n) {
        return None;
    }
    if h.iter().any(|&entry| entry == 0 || !field.has(entry)) {
        return None;
    }
    let inverses = &mut inverses[..n];
    for (inverse, &entry) in inverses.iter_mut().zip(h) {
        *inverse = field.reciprocal(entry);
    }
    for i in 0..n {
        for j in 0..n {
            if inverses[i ^ j] != inverses[i] ^ inverses[j] ^ inverses[0] {
                return None;
            }
        }
    }
    let distinct = (1..n).all(|i| h[i] != h[0]);
    distinct.then_some(())
}

/// The most values of an essence.
const MOST_VALUES: usize = LONGEST.ilog2() as usize + 1;

/// The essence of a signature; none where the product's call is refused.
pub fn essence(field: &Field, h: &[Elem], out: &mut [Elem]) -> Option<()> {
    let mut inverses = [0; LONGEST];
    check_signature(field, h, &mut inverses)?;
    let (last, others) = out.split_last_mut()?;
    if others.len() != h.len().ilog2() as usize {
        return None;
    }
    for (s, value) in others.iter_mut().enumerate() {
        *value = inverses[1 << s] ^ inverses[0];
    }
    *last = inverses[0];
    Some(())
}

/// Whether no choice of the values, of one or more, sums to zero. There are at most `MOST_VALUES`.
fn independent(values: &[Elem]) -> bool {
    let mut rows = [0; MOST_VALUES];
    for (count, &value) in values.iter().enumerate() {
        // The lesser of both has a zero where the row has its leading one. So have the rows after that row.
        rows[count] = rows[..count].iter().fold(value, |rest, row| rest.min(rest ^ row));
        if rows[count] == 0 {
            return false;
        }
    }
    true
}

/// The signature of an essence; none where the product's call is refused.
pub fn signature(field: &Field, essence: &[Elem], out: &mut [Elem]) -> Option<()> {
    let (&last, others) = essence.split_last()?;
    if !(2..=MOST_VALUES).contains(&essence.len()) || out.len() != 1 << others.len() {
        return None;
    }
    if essence.iter().any(|&value| !field.has(value)) || !independent(essence) {
        return None;
    }
    out[0] = last;
    for (s, value) in others.iter().enumerate() {
        let (sums, further) = out.split_at_mut(1 << s);
        further.iter_mut().zip(sums).for_each(|(further, sum)| *further = *sum ^ value);
    }
    out.iter_mut().for_each(|entry| *entry = field.reciprocal(*entry));
    Some(())
}

/// A code that is checked anew by each call, as the product's calls do.
#[derive(Clone, Copy)]
pub struct Code<'a> {
    pub field: &'a Field,
    pub t: usize,
    pub omega: Elem,
    pub h: &'a [Elem],
    pub hidden: &'a [u8],
}

impl<'a> Code<'a> {
    /// If the code is accepted, the inverses of its signature are at the front of `inverses`. Whether a check column is
    /// hidden is left to `marked_basis`: with nothing hidden none is.
    pub fn check(&self, inverses: &mut [Elem]) -> Option<()> {
        if !self.t.is_power_of_two() || self.t > self.h.len() / 2 || self.hidden.len() != self.h.len() {
            return None;
        }
        check_signature(self.field, self.h, inverses)?;
        are_bits(self.hidden).then_some(())
    }

    /// The words over all columns.
    pub fn whole(self) -> Words<'a, impl Fn(usize) -> usize> {
        Words { code: self, length: self.h.len(), column: |place| place }
    }

    /// An echelon basis over all columns, if no check column is hidden.
    pub fn marked_basis(self) -> Option<Basis> {
        let basis = self.whole().basis();
        let mut marks = self.hidden.iter().enumerate();
        marks.all(|(place, &mark)| mark == 0 || !basis.leads(place)).then_some(basis)
    }

    /// The words over the columns that are sent.
    pub fn sent(self) -> Words<'a, impl Fn(usize) -> usize> {
        let columns: Vec<usize> = (0..self.h.len()).filter(|&place| self.hidden[place] == 0).collect();
        Words { code: self, length: columns.len(), column: move |place: usize| columns[place] }
    }

    /// The words over some blocks of columns, if these are blocks, each at most once, and the shifts are below t. There
    /// are to be marks, of which none hides a place.
    pub fn selected(self, blocks: &[u32], shifts: &[u32], hidden: &[u8]) -> Option<Words<'a, impl Fn(usize) -> usize>> {
        let count = self.h.len() / self.t;
        if blocks.is_empty() || blocks.len() > count || shifts.len() != blocks.len() {
            return None;
        }
        if hidden.len() != blocks.len() * self.t || hidden.iter().any(|&mark| mark != 0) {
            return None;
        }
        let mut named: Packed = [0; MOST_WORDS];
        for &block in blocks {
            let block = block as usize;
            if block >= count || bit(&named, block) == 1 {
                return None;
            }
            mark(&mut named, block, 1);
        }
        if shifts.iter().any(|&shift| shift as usize >= self.t) {
            return None;
        }
        let mut columns = Vec::with_capacity(blocks.len() * self.t);
        for (&block, &shift) in blocks.iter().zip(shifts) {
            columns.extend((0..self.t).map(|r| block as usize * self.t + (r ^ shift as usize)));
        }
        Some(Words { code: self, length: columns.len(), column: move |place: usize| columns[place] })
    }
}

/// The places in a word of a packed row.
const PLACES: usize = u64::BITS as usize;

/// The words of the longest row.
const MOST_WORDS: usize = LONGEST / PLACES;

/// A row of bits, the first place in the lowest bit of the first word.
type Packed = [u64; MOST_WORDS];

/// The places of a word, in a row of so many.
fn places(word: usize, length: usize) -> Range<usize> {
    word * PLACES..length.min((word + 1) * PLACES)
}

#[inline]
fn bit(row: &[u64], place: usize) -> u64 {
    row[place / PLACES] >> (place % PLACES) & 1
}

/// Sets a bit that was 0.
#[inline]
fn mark(row: &mut [u64], place: usize, bit: u64) {
    row[place / PLACES] |= bit << (place % PLACES);
}

/// The words over some columns of a code, place j of a word being column `column(j)`.
pub struct Words<'a, Column> {
    code: Code<'a>,
    length: usize,
    column: Column,
}

/// An echelon basis of the parity rows by their leftmost one. Its rows stand at their leading places; the other places
/// are those of the message. Rows have no more words than their places need.
pub struct Basis {
    words: usize,
    rows: Vec<u64>,
    /// 1 for each leading place.
    leads: Packed,
}

impl Basis {
    fn leads(&self, place: usize) -> bool {
        bit(&self.leads, place) == 1
    }

    /// The places of the message.
    fn free(&self, length: usize) -> impl Iterator<Item = usize> + '_ {
        (0..length).filter(|&place| !self.leads(place))
    }

    /// Brings a row in, which is used up, and says whether the basis has one row more.
    fn insert(&mut self, row: &mut [u64]) -> bool {
        for w in 0..self.words {
            while row[w] != 0 {
                let lead = w * PLACES + row[w].trailing_zeros() as usize;
                let leading = &mut self.rows[lead * self.words..][..self.words];
                if bit(&self.leads, lead) == 0 {
                    mark(&mut self.leads, lead, 1);
                    leading.copy_from_slice(row);
                    return true;
                }
                // The words before this one are zero in both.
                row[w..].iter_mut().zip(&leading[w..]).for_each(|(bits, added)| *bits ^= added);
            }
        }
        false
    }

    fn encode(&self, message: impl IntoIterator<Item = u8>, word: &mut [u8]) {
        let mut packed: Packed = [0; MOST_WORDS];
        for (place, bit) in self.free(word.len()).zip(message) {
            mark(&mut packed, place, bit.into());
        }
        // The other places, from right to left.
        for w in (0..self.words).rev() {
            let (mut bits, later) = (packed[w], &packed[w + 1..]);
            for place in places(w, word.len()).rev().filter(|&place| self.leads(place)) {
                let row = &self.rows[place * self.words + w..][..self.words - w];
                let sum = row[1..].iter().zip(later).fold(row[0] & bits, |sum, (row, word)| sum ^ (row & word));
                bits |= u64::from(sum.count_ones() % 2) << (place % PLACES);
            }
            packed[w] = bits;
        }
        for (place, entry) in word.iter_mut().enumerate() {
            *entry = bit(&packed, place) as u8;
        }
    }

    /// The same with 0 at the hidden places, which the word leaves out.
    pub fn encode_sent(&self, hidden: &[u8], message: &[u8], word: &mut [u8]) {
        let (mut bits, mut wide) = (message.iter(), [0; LONGEST]);
        let wide = &mut wide[..hidden.len()];
        // The basis takes a bit for each free place.
        let free = self.free(hidden.len()).map(|place| match hidden[place] {
            0 => bits.next().copied().unwrap_or(0),
            _ => 0,
        });
        self.encode(free, wide);
        let sent = wide.iter().zip(hidden).filter(|(_, &mark)| mark == 0);
        word.iter_mut().zip(sent).for_each(|(entry, (&bit, _))| *entry = bit);
    }

    fn message<'a>(&'a self, word: &'a [u8]) -> impl Iterator<Item = u8> + 'a {
        self.free(word.len()).map(|place| word[place])
    }

    /// The bits of the message after these five are 0.
    pub fn write_row(&self, gear: u8, lamp: u8, word: &mut [u8]) {
        self.encode((0..5).map(|place| (gear | lamp << 3) >> place & 1), word);
    }
}

impl<Column: Fn(usize) -> usize> Words<'_, Column> {
    /// The entry of the parity check matrix in row i at a place.
    fn entry(&self, i: usize, place: usize) -> Elem {
        self.code.h[i ^ (self.column)(place)]
    }

    pub fn syndrome(&self, word: &[u8], out: &mut [Elem]) {
        for (i, row) in out.iter_mut().enumerate() {
            *row = (0..word.len()).fold(0, |sum, j| if word[j] == 1 { sum ^ self.entry(i, j) } else { sum });
        }
    }

    fn is_code_word(&self, word: &[u8]) -> bool {
        let mut syndrome = [0; MOST_ROOTS];
        let syndrome = &mut syndrome[..self.code.t];
        self.syndrome(word, syndrome);
        syndrome.iter().all(|&row| row == 0)
    }

    /// Bit b of the entries of row i, over the places.
    fn parity_row(&self, i: usize, b: u32, row: &mut [u64]) {
        for (w, bits) in row.iter_mut().enumerate() {
            let entries = places(w, self.length).rev().map(|j| self.entry(i, j));
            *bits = entries.fold(0, |bits, entry| bits << 1 | u64::from(entry >> b & 1));
        }
    }

    pub fn basis(&self) -> Basis {
        let words = self.length.div_ceil(PLACES);
        let mut basis = Basis { words, rows: vec![0; self.length * words], leads: [0; MOST_WORDS] };
        let (mut row, mut rank) = ([0; MOST_WORDS], 0);
        for i in 0..self.code.t {
            for b in 0..self.code.field.m {
                // Where a row leads at each place, the rest says nothing new.
                if rank == self.length {
                    return basis;
                }
                self.parity_row(i, b, &mut row[..words]);
                rank += usize::from(basis.insert(&mut row[..words]));
            }
        }
        basis
    }

    pub fn roles(&self, out: &mut [u8]) -> u32 {
        let basis = self.basis();
        for (place, role) in out.iter_mut().enumerate() {
            *role = u8::from(!basis.leads(place));
        }
        out.iter().map(|&role| u32::from(role)).sum()
    }

    pub fn encode(&self, message: &[u8], word: &mut [u8]) {
        self.basis().encode(message.iter().copied(), word);
    }

    pub fn message(&self, word: &[u8], message: &mut [u8]) {
        message.iter_mut().zip(self.basis().message(word)).for_each(|(entry, bit)| *entry = bit);
    }

    fn evaluate(&self, half: &[Elem], y: Elem) -> Elem {
        half.iter().rev().fold(0, |value, &coefficient| self.code.field.product(value, y) ^ coefficient)
    }

    /// The number of places turned, if the word can be repaired.
    pub fn repair(&self, inverses: &[Elem], received: &[u8], repaired: &mut [u8]) -> Option<u32> {
        let Code { field, t, omega, .. } = self.code;
        let mut syndrome = [0; MOST_ROOTS];
        self.syndrome(received, &mut syndrome[..t]);
        if syndrome[..t].iter().all(|&row| row == 0) {
            repaired.copy_from_slice(received);
            return Some(0);
        }
        // Two pairs of halves, the even one first, and the bounds of their degrees.
        let mut pairs = [[[0; MOST_ROOTS + 2]; 2]; 2];
        pairs[0][0][0] = 1;
        pairs[1][1][0] = 1;
        let mut degrees = [0, 1];
        let lengths = |degree: usize| [degree / 2 + 1, degree.div_ceil(2)];
        for i in 0..t {
            let (z, s) = (inverses[i] ^ omega, syndrome[i]);
            let y = field.product(z, z);
            let discrepancy = [0, 1].map(|p: usize| {
                let [even, odd] = lengths(degrees[p]);
                let slope = self.evaluate(&pairs[p][1][..odd], y);
                let level = self.evaluate(&pairs[p][0][..even], y);
                field.product(1 ^ field.product(s, z), slope) ^ field.product(s, level)
            });
            let smaller = usize::from(degrees[1] < degrees[0]);
            let pivot = if discrepancy[smaller] != 0 { smaller } else { 1 - smaller };
            let other = 1 - pivot;
            for half in 0..2 {
                for k in 0..lengths(degrees[other])[half] {
                    pairs[other][half][k] = field.product(discrepancy[pivot], pairs[other][half][k])
                        ^ field.product(discrepancy[other], pairs[pivot][half][k]);
                }
                let mut lower = 0;
                for k in 0..=lengths(degrees[pivot])[half] {
                    let here = pairs[pivot][half][k];
                    pairs[pivot][half][k] = lower ^ field.product(y, here);
                    lower = here;
                }
            }
            degrees[pivot] += 2;
        }
        let least = usize::from(degrees[1] < degrees[0]);
        let [even, odd] = lengths(degrees[least]);
        let mut word = [0; LONGEST];
        let mut turned = 0;
        for j in 0..self.length {
            let x = inverses[(self.column)(j)] ^ inverses[0] ^ omega;
            let y = field.product(x, x);
            let level = self.evaluate(&pairs[least][0][..even], y);
            let slope = self.evaluate(&pairs[least][1][..odd], y);
            let root = level == field.product(x, slope);
            word[j] = received[j] ^ u8::from(root);
            turned += u32::from(root);
        }
        self.syndrome(&word[..self.length], &mut syndrome[..t]);
        if turned as usize > t || syndrome[..t].iter().any(|&row| row != 0) {
            return None;
        }
        repaired.copy_from_slice(&word[..self.length]);
        Some(turned)
    }

    pub fn write_row(&self, gear: u8, lamp: u8, word: &mut [u8]) {
        self.basis().write_row(gear, lamp, word);
    }

    /// gear + 8 × lamp, if the word can be repaired and carries a row.
    pub fn read_row(&self, inverses: &[Elem], received: &[u8], repaired: &mut [u8]) -> Option<u32> {
        self.read_row_by(&self.basis(), inverses, received, repaired)
    }

    /// The same with a basis that was made before.
    pub fn read_row_by(&self, basis: &Basis, inverses: &[Elem], received: &[u8], repaired: &mut [u8]) -> Option<u32> {
        let mut word = [0; LONGEST];
        let word = &mut word[..self.length];
        self.repair(inverses, received, word)?;
        let mut message = basis.message(word);
        let mut number = 0;
        for place in 0..5 {
            number |= u32::from(message.next()?) << place;
        }
        let (gear, lamp) = (number % 8, number / 8);
        if message.any(|bit| bit == 1) || lamp > 2 || lamp == 1 && gear != 0 && gear != 7 {
            return None;
        }
        repaired.copy_from_slice(word);
        Some(number)
    }
}

/// Several senders on one code, with a word of each.
pub struct Senders {
    /// How many words a round repairs at most.
    pub repairs: usize,
    /// 1 for each sender whose word waits.
    pub waiting: Vec<u8>,
    /// One after the other.
    pub words: Vec<u8>,
    /// The sender whose turn it is.
    pub next: usize,
}

fn are_bits(bytes: &[u8]) -> bool {
    bytes.iter().all(|&byte| byte <= 1)
}

impl Senders {
    fn in_range(&self) -> bool {
        let range = 1..=MOST_SENDERS;
        range.contains(&self.waiting.len()) && range.contains(&self.repairs) && self.next < self.waiting.len()
    }

    pub fn start(&mut self) -> Option<()> {
        self.waiting.fill(0);
        self.next = 0;
        self.in_range().then_some(())
    }

    pub fn offer(&mut self, sender: usize, word: &[u8]) -> Option<()> {
        if !self.in_range() || *self.waiting.get(sender)? != 0 || !are_bits(word) {
            return None;
        }
        self.waiting[sender] = 1;
        self.words[sender * word.len()..][..word.len()].copy_from_slice(word);
        Some(())
    }

    /// What repair gives for each word that left.
    pub fn round<Column: Fn(usize) -> usize>(
        &mut self,
        columns: &Words<'_, Column>,
        inverses: &[Elem],
        answers: &mut [Option<Option<u32>>],
        handed: &mut [u8],
    ) -> Option<()> {
        let (senders, n) = (self.waiting.len(), columns.length);
        let mut waiting = self.words.chunks(n).zip(&self.waiting).filter(|&(_, &waits)| waits == 1);
        if !self.in_range() || !are_bits(&self.waiting) || !waiting.all(|(word, _)| are_bits(word)) {
            return None;
        }
        answers.fill(None);
        let (mut left, first) = (self.repairs, self.next);
        for sender in (first..senders).chain(0..first) {
            let word = &self.words[sender * n..][..n];
            if self.waiting[sender] == 0 || left == 0 && !columns.is_code_word(word) {
                continue;
            }
            let answer = columns.repair(inverses, word, &mut handed[sender * n..][..n]);
            if answer != Some(0) {
                left -= 1;
                self.next = (sender + 1) % senders;
            }
            answers[sender] = Some(answer);
            self.waiting[sender] = 0;
        }
        Some(())
    }
}
