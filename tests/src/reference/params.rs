//! The parameters of a code (01's card): which signatures and marks are accepted, the roots and the support.

use super::field;
use super::words::Code;
use crate::Elem;

/// The lengths n of a code.
pub const LENGTHS: [u32; 9] = [2, 4, 8, 16, 32, 64, 128, 256, 512];

/// The numbers t of rows of a parity matrix; t goes with n if it is at most n/2.
pub const ROWS: [u32; 9] = [1, 2, 4, 8, 16, 32, 64, 128, 256];

/// The parameters of a code, accepted or not.
#[derive(Clone, Debug, PartialEq)]
pub struct Params {
    pub m: u32,
    pub n: u32,
    pub t: u32,
    pub omega: u32,
    pub h: Vec<Elem>,
    /// A mark for each place: 0 sent, 1 hidden.
    pub hidden: Vec<u8>,
}

/// m, n and t of a code.
pub type Shape = (u32, u32, u32);

impl Params {
    /// A code as long as its signature, which hides nothing.
    pub fn new(m: u32, t: u32, omega: u32, h: Vec<Elem>) -> Params {
        Params { m, n: h.len() as u32, t, omega, hidden: vec![0; h.len()], h }
    }

    pub fn shape(&self) -> Shape {
        (self.m, self.n, self.t)
    }
}

/// Code A of the bench cases, the sheet that stands with them.
pub fn code_a() -> Params {
    Params::new(3, 1, 0, vec![7, 2, 3, 4])
}

/// Code T of the bench cases, the toy example of document 004.
pub fn code_t() -> Params {
    Params::new(5, 2, 24, vec![12, 8, 10, 22, 26, 9, 16, 21, 14, 5, 17, 4, 30, 23, 25, 31])
}

/// For buffers of a call the length that each has and the length that it should have.
pub type Lengths<'a> = &'a [(usize, u32)];

/// 2 for a buffer of another length than it should have.
pub fn judge_lengths(lent: Lengths) -> Result<(), u32> {
    if lent.iter().any(|&(length, named)| length as u64 != u64::from(named)) {
        return Err(2);
    }
    Ok(())
}

/// The first of the numbers 1 to 7 that applies to a code, whatever its marks are, and to further buffers of the call.
pub fn judge(params: &Params, lent: Lengths) -> Result<(), u32> {
    let Params { m, n, t, omega, ref h, .. } = *params;
    if field::word(m).is_none() {
        return Err(1);
    }
    if !LENGTHS.contains(&n) || h.len() != n as usize {
        return Err(2);
    }
    judge_lengths(lent)?;
    let q = field::size(m);
    if omega >= q || h.iter().any(|&entry| u32::from(entry) >= q) {
        return Err(3);
    }
    judge_signature(m, h)?;
    if !ROWS.contains(&t) || t > n / 2 {
        return Err(7);
    }
    Ok(())
}

/// The same for a code with marks, of which there are to be n.
pub fn judge_marked(params: &Params, lent: Lengths) -> Result<(), u32> {
    judge(params, &[lent, &[(params.hidden.len(), params.n)]].concat())
}

/// The first number that applies to a card and to further buffers of the call: 1 to 7, then 20.
fn judge_card(params: &Params, lent: Lengths) -> Result<(), u32> {
    judge_marked(params, lent)?;
    // Where nothing is hidden, no check column is, whichever they are.
    if params.hidden.iter().all(|&mark| mark == 0) {
        return Ok(());
    }
    Code::whole(params).map(|_| ())
}

/// The three rules for signatures, each for itself: 4 for a zero, 5 where the rule for 1/h fails, 6 for equal entries.
pub(super) fn judge_signature(m: u32, h: &[Elem]) -> Result<(), u32> {
    if h.contains(&0) {
        return Err(4);
    }
    let over: Vec<Elem> = h.iter().map(|&entry| field::reciprocal(m, entry)).collect();
    let n = h.len();
    if (0..n).any(|i| (0..n).any(|j| over[i ^ j] != over[i] ^ over[j] ^ over[0])) {
        return Err(5);
    }
    if (0..n).any(|i| h[..i].contains(&h[i])) {
        return Err(6);
    }
    Ok(())
}

/// Demand 2's own words: two disjoint sequences of distinct elements whose Cauchy matrix is the dyadic matrix of `h`,
/// so that 1/(z_i + L_j) is the signature at i ⊕ j for all i and j. Every first element of the first sequence is
/// tried. The signature's first row then leaves one choice for each L_j, and its first column one for each z_i.
pub fn cauchy_sequences(m: u32, h: &[Elem]) -> Option<(Vec<Elem>, Vec<Elem>)> {
    if h.contains(&0) {
        return None; // z_i + L_j is never zero, so neither is its inverse
    }
    let distinct = |list: &[Elem]| (0..list.len()).all(|i| !list[..i].contains(&list[i]));
    let found = (0..field::size(m)).find_map(|first| {
        let second: Vec<Elem> = h.iter().map(|&entry| first as Elem ^ field::reciprocal(m, entry)).collect();
        let first: Vec<Elem> = h.iter().map(|&entry| second[0] ^ field::reciprocal(m, entry)).collect();
        let disjoint = first.iter().all(|element| !second.contains(element));
        let cauchy = |i: usize, j: usize| field::times(m, first[i] ^ second[j], h[i ^ j]) == 1;
        let all = (0..h.len()).all(|i| (0..h.len()).all(|j| cauchy(i, j)));
        (all && disjoint && distinct(&first) && distinct(&second)).then_some((first, second))
    });
    found
}

/// z_i = 1/h_i + ω, of which the first t are the roots of the Goppa polynomial.
pub fn roots(params: &Params) -> Vec<Elem> {
    params.h.iter().map(|&entry| field::reciprocal(params.m, entry) ^ params.omega as Elem).collect()
}

/// The support: L_j = 1/h_j + 1/h_0 + ω.
pub fn support(params: &Params) -> Vec<Elem> {
    let first = field::reciprocal(params.m, params.h[0]);
    params.h.iter().map(|&entry| field::reciprocal(params.m, entry) ^ first ^ params.omega as Elem).collect()
}

/// Checking a code gives z and L, n of each.
pub fn check(params: &Params, roots_length: usize, support_length: usize) -> Result<(Vec<Elem>, Vec<Elem>), u32> {
    judge_card(params, &[(roots_length, params.n), (support_length, params.n)])?;
    Ok((roots(params), support(params)))
}

/// Whether two accepted codes are the same: m, n, t, ω, h and the marks agree. A fault in either brings its number, the
/// lowest.
pub fn same(one: &Params, other: &Params) -> Result<bool, u32> {
    let faults = [judge_card(one, &[]), judge_card(other, &[])];
    match faults.iter().filter_map(|fault| fault.err()).min() {
        Some(number) => Err(number),
        None => Ok(one == other),
    }
}

#[cfg(test)]
mod tests {
    use super::*;
    use crate::draw;
    use crate::random::Random;
    use crate::reference::columns::Setting;

    fn params(m: u32, t: u32, omega: u32, h: &[Elem]) -> Params {
        Params::new(m, t, omega, h.to_vec())
    }

    #[test]
    fn cases() {
        assert_eq!(judge(&params(3, 1, 0, &[7, 2, 3, 5]), &[]), Err(5));
        assert_eq!(judge(&params(2, 1, 0, &[1, 1, 1, 1]), &[]), Err(6));
        assert_eq!(judge(&params(2, 1, 0, &[1, 0]), &[]), Err(4));
        let (_, support) = check(&params(2, 1, 0, &[1, 2]), 2, 2).expect("accepted");
        assert_eq!(support, [0, 2]);
        let (_, support) = check(&code_a(), 4, 4).expect("accepted");
        assert_eq!(support, [0, 1, 2, 3]);
        let (roots, support) = check(&code_t(), 16, 16).expect("accepted");
        assert_eq!(support, [24, 9, 6, 23, 10, 27, 20, 5, 25, 8, 7, 22, 11, 26, 21, 4]);
        assert_eq!(roots[..2], [31, 14]);
    }

    #[test]
    fn limits() {
        assert_eq!(judge(&Params { m: 1, ..code_a() }, &[]), Err(1));
        assert_eq!(judge(&Params { m: 17, ..code_a() }, &[]), Err(1));
        assert_eq!(judge(&params(2, 1, 3, &[1, 2]), &[]), Ok(()));
        assert_eq!(judge(&params(16, 1, 65535, &[1, 2]), &[]), Ok(()));
        assert_eq!(judge(&params(16, 1, 65536, &[1, 2]), &[]), Err(3));
        assert_eq!(judge(&params(5, 1, 0, &[1, 2, 3]), &[]), Err(2));
        assert_eq!(judge(&params(16, 1, 0, &[1; 512]), &[]), Err(6));
        assert_eq!(judge(&params(16, 1, 0, &[1; 1024]), &[]), Err(2));
        let mut random = Random::new(8);
        for (m, n) in [(9, 256), (10, 512), (16, 512)] {
            let h = draw::signature(&mut random, m, n);
            assert_eq!(judge(&params(m, n / 2, 0, &h), &[]), Ok(()));
            assert_eq!(judge(&params(m, n, 0, &h), &[]), Err(7));
        }
        for t in 0..40 {
            let expected = if [1, 2, 4, 8].contains(&t) { Ok(()) } else { Err(7) };
            assert_eq!(judge(&Params { t, ..code_t() }, &[]), expected, "t {t}");
        }
    }

    /// The three rules are the same as demand 2's existence: over all signatures where they can all be looked at.
    #[test]
    fn the_rules_accept_exactly_the_cauchy_signatures() {
        for (m, n) in [(2, 2), (2, 4), (3, 2), (3, 4), (4, 2), (4, 4)] {
            let q = field::size(m) as usize;
            let mut accepted = 0;
            for h in draw::every_list(m, n) {
                let rules = judge_signature(m, &h).is_ok();
                assert_eq!(rules, cauchy_sequences(m, &h).is_some(), "width {m}, signature {h:?}");
                accepted += usize::from(rules);
            }
            // Theorem 3 of document 004 counts them: the product of q - 2^i for i from 0 to log n.
            let counted: usize = (0..=n.ilog2()).map(|i| q.saturating_sub(1 << i)).product();
            assert_eq!(accepted, counted, "width {m}, n {n}");
        }
    }

    #[test]
    fn drawn_signatures_are_cauchy_signatures() {
        let mut random = Random::new(13);
        for (m, n, t) in draw::shapes() {
            let params = draw::params(&mut random, m, n, t);
            assert_eq!(judge(&params, &[]), Ok(()), "{params:?}");
            assert!(cauchy_sequences(m, &params.h).is_some(), "{params:?}");
            let (z, l) = (roots(&params), support(&params));
            for i in 0..params.h.len() {
                for j in 0..params.h.len() {
                    assert_eq!(field::reciprocal(m, z[i] ^ l[j]), params.h[i ^ j]);
                }
            }
        }
    }

    #[test]
    fn damaged_codes_bring_their_number() {
        let mut random = Random::new(14);
        for (m, n, t) in draw::shapes() {
            for faults in draw::singles_and_pairs(m, n) {
                let params = draw::damaged_code(&mut random, m, n, t, &faults);
                let lowest = faults.iter().map(|fault| fault.number()).min().expect("a fault");
                assert_eq!(judge(&params, &[]), Err(lowest), "{faults:?}: {params:?}");
            }
        }
    }

    #[test]
    fn codes_are_the_same_if_all_agrees() {
        let params = code_t();
        assert_eq!(same(&params, &code_t()), Ok(true));
        assert_eq!(same(&params, &Params { omega: 3, ..params.clone() }), Ok(false));
        assert_eq!(same(&params, &Params { t: 4, ..params.clone() }), Ok(false));
        assert_eq!(same(&params, &code_a()), Ok(false));
        assert_eq!(same(&params, &params.hiding(&[9])), Ok(false));
        assert_eq!(same(&params.hiding(&[9, 13]), &params.hiding(&[9, 13])), Ok(true));
        assert_eq!(same(&Params { t: 3, ..params.clone() }, &Params { omega: 32, ..params.clone() }), Err(3));
        assert_eq!(same(&params.hiding(&[0]), &params), Err(20));
        assert_eq!(same(&params.hiding(&[0]), &Params { t: 3, ..params.clone() }), Err(7));
    }

    /// Code T's message columns are 8, 9, 12, 13, 14 and 15.
    #[test]
    fn marks() {
        let number = |params: &Params| check(params, 16, 16).err();
        for place in 0..16 {
            let is_message_column = [8, 9, 12, 13, 14, 15].contains(&place);
            assert_eq!(number(&code_t().hiding(&[place])), (!is_message_column).then_some(20), "place {place}");
        }
        assert_eq!(check(&code_t().hiding(&[8, 9, 12, 13, 14, 15]), 16, 16), check(&code_t(), 16, 16));
        let mut marked = code_t();
        marked.hidden[8] = 2;
        assert_eq!(number(&marked), Some(20));
        assert_eq!(number(&Params { t: 16, ..marked.clone() }), Some(7));
        assert_eq!(check(&marked, 16, 15), Err(2));
        marked.hidden.pop();
        assert_eq!(number(&marked), Some(2));
        assert_eq!(number(&Params { m: 1, ..marked }), Some(1));
    }
}
