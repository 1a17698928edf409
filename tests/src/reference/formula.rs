//! Block formulas, read from the outside in: a text is split at the operation that is made last, and each part is read
//! by itself. Values are those of the full matrices.

use super::block;
use crate::Elem;

/// The letters of the blocks, in their order.
pub const LETTERS: [u8; 4] = *b"ABCD";

/// The greatest length of a text.
pub const LONGEST: usize = 128;

/// How deep brackets may nest.
pub const DEEPEST: usize = 8;

#[derive(Clone, Debug, PartialEq)]
pub enum Formula {
    /// A block by its place among the letters.
    Block(usize),
    Inverse(Box<Formula>),
    /// X/Y is the product of X and the inverse of Y.
    Product(Box<[Formula; 2]>),
    Sum(Box<[Formula; 2]>),
}

impl Formula {
    pub fn inverse(self) -> Formula {
        Formula::Inverse(Box::new(self))
    }

    pub fn times(self, other: Formula) -> Formula {
        Formula::Product(Box::new([self, other]))
    }

    pub fn plus(self, other: Formula) -> Formula {
        Formula::Sum(Box::new([self, other]))
    }

    /// Its value for blocks of s elements, or 9 for an inverse that doesn't exist. Blocks that it doesn't name may be
    /// missing.
    pub fn value(&self, m: u32, blocks: [&[Elem]; 4], s: usize) -> Result<Vec<Elem>, u32> {
        let value = |part: &Formula| part.value(m, blocks, s);
        match self {
            Formula::Block(place) => Ok(blocks[*place].to_vec()),
            Formula::Inverse(part) => block::inverse(m, &value(part)?, s),
            Formula::Product(parts) => block::product(m, &value(&parts[0])?, &value(&parts[1])?, s),
            Formula::Sum(parts) => block::sum(m, &value(&parts[0])?, &value(&parts[1])?, s),
        }
    }
}

/// In how many brackets each byte stands, a bracket standing in its own; none where they don't pair.
fn depths(text: &[u8]) -> Option<Vec<usize>> {
    let mut open = 0_usize;
    let mut depths = Vec::new();
    for &byte in text {
        open += usize::from(byte == b'(');
        depths.push(open);
        open = open.checked_sub(usize::from(byte == b')'))?;
    }
    (open == 0).then_some(depths)
}

/// How deep the brackets of a text nest; none where they don't pair.
pub fn depth(text: &[u8]) -> Option<usize> {
    depths(text).map(|depths| depths.into_iter().max().unwrap_or(0))
}

/// The formula of a text, of whatever length and depth. Operations of one rank are made from left to right, so that the
/// last of them stands furthest to the right.
fn split(text: &[u8]) -> Option<Formula> {
    let depths = depths(text)?;
    let last = |signs: &[u8]| (0..text.len()).rfind(|&place| depths[place] == 0 && signs.contains(&text[place]));
    if let Some(place) = last(b"+") {
        return Some(split(&text[..place])?.plus(split(&text[place + 1..])?));
    }
    if let Some(place) = last(b"*/") {
        let (left, right) = (split(&text[..place])?, split(&text[place + 1..])?);
        return Some(left.times(if text[place] == b'/' { right.inverse() } else { right }));
    }
    match text {
        [term @ .., b'\''] => Some(split(term)?.inverse()),
        [b'(', inside @ .., b')'] => split(inside),
        [letter] => LETTERS.iter().position(|other| other == letter).map(Formula::Block),
        _ => None,
    }
}

/// The formula of a text; none for one outside the rules.
pub fn read(text: &[u8]) -> Option<Formula> {
    if text.len() > LONGEST || depth(text)? > DEEPEST {
        return None;
    }
    split(text)
}

/// The value of a formula. An empty slice is a block that isn't lent; 16 for a text outside the rules, or one that names
/// such a block.
pub fn formula(m: u32, text: &[u8], blocks: [&[Elem]; 4], result_length: usize) -> Result<Vec<Elem>, u32> {
    let lent: Vec<&[Elem]> = blocks.into_iter().filter(|block| !block.is_empty()).collect();
    block::judge(m, &lent, result_length)?;
    let missing = |place: usize| blocks[place].is_empty() && text.contains(&LETTERS[place]);
    match read(text) {
        Some(formula) if !(0..LETTERS.len()).any(missing) => formula.value(m, blocks, result_length),
        _ => Err(16),
    }
}

#[cfg(test)]
mod tests {
    use super::*;

    const A: Formula = Formula::Block(0);
    const B: Formula = Formula::Block(1);
    const C: Formula = Formula::Block(2);
    const D: Formula = Formula::Block(3);

    #[test]
    fn readings() {
        for (text, formula) in [
            ("D", D),
            ("A+B*C'", A.plus(B.times(C.inverse()))),
            ("A*B+C", A.times(B).plus(C)),
            ("A+B+C", A.plus(B).plus(C)),
            ("A+(B+C)", A.plus(B.plus(C))),
            ("A*B/C", A.times(B).times(C.inverse())),
            ("A/B*C", A.times(B.inverse()).times(C)),
            ("A/B/C", A.times(B.inverse()).times(C.inverse())),
            ("A/(B*C)", A.times(B.times(C).inverse())),
            ("A*B''", A.times(B.inverse().inverse())),
            ("(A*B)'", A.times(B).inverse()),
            ("A/B'", A.times(B.inverse().inverse())),
            ("((A)'+(B))/(C')", A.inverse().plus(B).times(C.inverse().inverse())),
        ] {
            assert_eq!(read(text.as_bytes()), Some(formula), "{text}");
        }
    }

    #[test]
    fn texts_outside_the_rules() {
        let short = "' 'A A'B AB + +A A+ A++B A+*B A* /A A//B A+' () ()' A() A(B) (A)B (A)(B) (A)'(B+C)";
        let long = "(A A) )A( (A))*((B) (+A) (A+) A+(B*C E a 1 A-B [A] A×B A′";
        let texts = short.split(' ').chain(long.split(' ')).chain(["", " ", " A", "A +B", "A\n", "A\0"]);
        texts.for_each(|text| assert_eq!(read(text.as_bytes()), None, "{text:?}"));
    }

    #[test]
    fn lengths_and_depths() {
        let nested = |depth: usize| "(".repeat(depth) + "A" + &")".repeat(depth);
        let beside = [nested(DEEPEST), nested(DEEPEST)].join("*");
        for (text, inside) in [
            ("A".to_string() + &"'".repeat(LONGEST - 1), true),
            ("A".to_string() + &"'".repeat(LONGEST), false),
            (nested(DEEPEST), true),
            (nested(DEEPEST + 1), false),
            (beside, true),
        ] {
            assert_eq!(read(text.as_bytes()).is_some(), inside, "{text}");
        }
    }

    #[test]
    fn cases() {
        let blocks: [&[Elem]; 4] = [&[1, 2], &[3, 3], &[], &[]];
        assert_eq!(formula(3, b"A*A", blocks, 2), Ok(vec![5, 0]));
        assert_eq!(formula(3, b"A'", blocks, 2), Ok(vec![2, 4]));
        assert_eq!(formula(3, b"B+A'/A", blocks, 2), Ok(vec![1, 3]));
        assert_eq!(formula(3, b"B'", blocks, 2), Err(9));
        assert_eq!(formula(3, b"B'+C", blocks, 2), Err(16));
        assert_eq!(formula(3, b"B'+", blocks, 2), Err(16));
        assert_eq!(formula(3, b"+", [&[1, 8], &[], &[], &[]], 2), Err(3));
        assert_eq!(formula(3, b"+", [&[1, 8], &[1], &[], &[]], 2), Err(2));
        assert_eq!(formula(3, b"+", [&[]; 4], 3), Err(2));
        assert_eq!(formula(3, b"A", [&[]; 4], 2), Err(16));
        assert_eq!(formula(17, b"+", [&[1, 8], &[1], &[], &[]], 3), Err(1));
    }
}
