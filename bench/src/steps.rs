//! The instructions of products, counted call by call: at each width they are to be one number, whatever the elements
//! are. No proof speaks of that. And how many products of elements a product of blocks takes, told from its
//! instructions.

use crate::{keep, under_callgrind, Random};
use std::process::exit;
use zovunelith::{block, field, Elem};

/// How many elements the blocks have.
const BLOCK: usize = 16;

/// A product whose calls are counted.
struct Product {
    name: &'static str,
    /// The function of the library.
    symbol: &'static str,
    /// How many elements a factor has.
    length: usize,
    /// How many calls are counted, where there are as many pairs of factors.
    calls: usize,
    call: fn(u32, &[Elem], &[Elem]),
}

const PRODUCTS: [Product; 2] = [
    Product {
        name: "field product",
        symbol: "zov_field_product",
        length: 1,
        calls: 4096,
        call: |m, a, b| keep(field::product(m, a[0].into(), b[0].into()).expect("elements")),
    },
    Product {
        name: "block product",
        symbol: "zov_block_product",
        length: BLOCK,
        calls: 256,
        call: |m, a, b| block::product(m, a, b, &mut [0; BLOCK]).expect("blocks"),
    },
];

impl Product {
    /// All pairs of elements where they are few enough. Else pairs of factors whose elements are all least, all one or
    /// all greatest, and then drawn ones.
    fn pairs(&self, m: u32) -> Vec<[Vec<Elem>; 2]> {
        let q = 1_usize << m;
        if self.length == 1 && q * q <= self.calls {
            return (0..q * q).map(|pair| [pair / q, pair % q].map(|element| vec![element as Elem])).collect();
        }
        let edges = [0, 1, q - 1].map(|element| vec![element as Elem; self.length]);
        let mut pairs: Vec<_> = edges.iter().flat_map(|a| edges.iter().map(|b| [a.clone(), b.clone()])).collect();
        let mut random = Random(m.into());
        let mut factor = || (0..self.length).map(|_| random.below(q) as Elem).collect();
        pairs.resize_with(self.calls, || [factor(), factor()]);
        pairs
    }

    /// How many calls were counted, and the one number of instructions of each. Stops where two differ.
    fn counted(&self, m: u32) -> (usize, u64) {
        let pairs = self.pairs(m);
        let (_, counts) = under_callgrind(self.symbol, &["products", self.name, &m.to_string()]);
        assert_eq!(counts.len(), pairs.len(), "not every call of {} was counted at width {m}", self.symbol);
        if let Some(other) = counts.iter().position(|&count| count != counts[0]) {
            eprintln!(
                "stopped: at width {m} the {} of {:?} takes {} instructions, and that of {:?} takes {}",
                self.name, pairs[0], counts[0], pairs[other], counts[other]
            );
            exit(1);
        }
        (counts.len(), counts[0])
    }
}

/// A narrower and a wider field. What the wider one adds to a product of blocks, its products of elements add.
const WIDTHS: [u32; 2] = [8, 16];

/// The lengths that a block may have.
fn lengths() -> impl Iterator<Item = usize> {
    (0..usize::BITS).map(|log| 1 << log).take_while(|&length| {
        let zeros = vec![0; length];
        block::sum(WIDTHS[0], &zeros, &zeros, &mut vec![0; length]).is_ok()
    })
}

/// Makes a product of blocks of each length at a width, under callgrind.
pub fn make_lengths(m: u32) {
    for length in lengths() {
        let ones = vec![1; length];
        block::product(m, &ones, &ones, &mut vec![0; length]).expect("blocks");
    }
}

/// How many products of elements a product of blocks takes: so many times as for blocks of one element, where it takes
/// one, do its instructions grow from one width to the other. Stops where that is not 3^e for 2^e elements.
pub fn element_products() {
    let [narrow, wide] = WIDTHS;
    println!(
        "| elements | instructions, m {narrow} | instructions, m {wide} | products of elements | for each, m {wide} |"
    );
    println!("|---|---|---|---|---|");
    let counted = WIDTHS.map(|m| under_callgrind("zov_block_product", &["lengths", &m.to_string()]).1);
    assert!(counted.iter().all(|counts| counts.len() == lengths().count()), "not every product of blocks was counted");
    let mut expected = 1;
    let one = counted[1][0] - counted[0][0];
    assert!(one > 0, "a product of elements takes as many instructions at m {wide} as at m {narrow}");
    for ((length, &of_narrow), &of_wide) in lengths().zip(&counted[0]).zip(&counted[1]) {
        if of_wide - of_narrow != expected * one {
            eprintln!("stopped: the product of blocks of {length} does not take {expected} products of elements");
            exit(1);
        }
        println!("| {length} | {of_narrow} | {of_wide} | {expected} | {} |", of_wide / expected);
        expected *= 3;
    }
}

/// Makes the calls of a product at a width, under callgrind.
pub fn make(name: &str, m: u32) {
    let product = PRODUCTS.iter().find(|product| product.name == name).expect("the name of a product");
    product.pairs(m).iter().for_each(|[a, b]| (product.call)(m, a, b));
}

/// Counts at every width that the library takes.
pub fn table() {
    println!("| m | field products | instructions of each | products of blocks of {BLOCK} | instructions of each |");
    println!("|---|---|---|---|---|");
    for m in (0..32).filter(|&m| field::sum(m, 0, 0).is_ok()) {
        let [(elements, of_elements), (blocks, of_blocks)] = PRODUCTS.each_ref().map(|product| product.counted(m));
        println!("| {m} | {elements} | {of_elements} | {blocks} | {of_blocks} |");
    }
}
