//! Dyadic blocks, by way of their matrices, of which the first row is the signature: that of a sum and of a product
//! entry by entry, that of an inverse by Gaussian elimination.

use super::field;
use crate::Elem;

/// The lengths that a block may have.
pub const LENGTHS: [usize; 10] = [1, 2, 4, 8, 16, 32, 64, 128, 256, 512];

type Matrix = Vec<Vec<Elem>>;

/// The matrix of a block: entry i, j is the signature at i ⊕ j.
pub fn matrix(signature: &[Elem]) -> Matrix {
    let s = signature.len();
    (0..s).map(|i| (0..s).map(|j| signature[i ^ j]).collect()).collect()
}

/// Adds `factor` times a row to another row.
fn add_multiple(m: u32, row: &mut [Elem], factor: Elem, other: &[Elem]) {
    let multiple = field::multiplier(m, factor);
    for (entry, &added) in row.iter_mut().zip(other) {
        *entry ^= multiple(added);
    }
}

/// A row times a matrix.
fn row_product(m: u32, row: &[Elem], matrix: &Matrix) -> Vec<Elem> {
    let mut product = vec![0; row.len()];
    for (&factor, other) in row.iter().zip(matrix) {
        add_multiple(m, &mut product, factor, other);
    }
    product
}

/// The first row of the inverse of a block's matrix, the row whose product with the matrix is 1, 0, 0, ...; none if
/// the matrix is singular. The matrix is its own transpose, so that its rows are the equations for that row.
fn first_row_of_inverse(m: u32, mut rows: Matrix) -> Option<Vec<Elem>> {
    let s = rows.len();
    // Each equation is its coefficients and then what they make up.
    rows.iter_mut().enumerate().for_each(|(i, row)| row.push(Elem::from(i == 0)));
    for column in 0..s {
        let pivot = (column..s).find(|&row| rows[row][column] != 0)?;
        rows.swap(column, pivot);
        let scale = field::multiplier(m, field::reciprocal(m, rows[column][column]));
        rows[column].iter_mut().for_each(|entry| *entry = scale(*entry));
        let (done, below) = rows.split_at_mut(column + 1);
        for row in below {
            let factor = row[column];
            add_multiple(m, &mut row[column..], factor, &done[column][column..]);
        }
    }
    // An equation now has its own unknown and those behind it.
    let mut solution = vec![0; s];
    for i in (0..s).rev() {
        let behind = (i + 1..s).map(|j| field::times(m, rows[i][j], solution[j]));
        solution[i] = behind.fold(rows[i][s], |sum, term| sum ^ term);
    }
    Some(solution)
}

/// 1 for the width; 2 for a length that no block has, blocks of unequal lengths or a result of another length; 3.
pub fn judge(m: u32, blocks: &[&[Elem]], result_length: usize) -> Result<(), u32> {
    if field::word(m).is_none() {
        return Err(1);
    }
    if !LENGTHS.contains(&result_length) || blocks.iter().any(|block| block.len() != result_length) {
        return Err(2);
    }
    if blocks.iter().any(|block| block.iter().any(|&entry| u32::from(entry) >= field::size(m))) {
        return Err(3);
    }
    Ok(())
}

pub fn sum(m: u32, a: &[Elem], b: &[Elem], result_length: usize) -> Result<Vec<Elem>, u32> {
    judge(m, &[a, b], result_length)?;
    Ok(a.iter().zip(b).map(|(x, y)| x ^ y).collect())
}

pub fn product(m: u32, a: &[Elem], b: &[Elem], result_length: usize) -> Result<Vec<Elem>, u32> {
    judge(m, &[a, b], result_length)?;
    Ok(row_product(m, a, &matrix(b)))
}

pub fn inverse(m: u32, a: &[Elem], result_length: usize) -> Result<Vec<Elem>, u32> {
    judge(m, &[a], result_length)?;
    first_row_of_inverse(m, matrix(a)).ok_or(9)
}

#[cfg(test)]
mod tests {
    use super::*;
    use crate::draw;
    use crate::random::Random;

    #[test]
    fn cases() {
        assert_eq!(product(3, &[1, 2], &[1, 2], 2), Ok(vec![5, 0]));
        assert_eq!(inverse(3, &[1, 2], 2), Ok(vec![2, 4]));
        assert_eq!(inverse(3, &[3, 3], 2), Err(9));
        assert_eq!(sum(3, &[1, 2, 3], &[1, 2, 3], 3), Err(2));
        assert_eq!(sum(3, &[8], &[0], 1), Err(3));
        assert_eq!(sum(1, &[8], &[], 3), Err(1));
    }

    #[test]
    fn matrices_have_two_blocks_laid_out_a_b_over_b_a() {
        let full = matrix(&[10, 11, 12, 13]);
        assert_eq!(full, [[10, 11, 12, 13], [11, 10, 13, 12], [12, 13, 10, 11], [13, 12, 11, 10]]);
    }

    /// The widths to try at a length: the longest matrices take their time.
    fn widths(s: usize) -> Vec<u32> {
        field::WORDS.iter().map(|entry| entry.0).filter(|&m| s <= 128 || m == 16).collect()
    }

    /// The full matrices: that of a product is the product of both, row by row, and that of a sum their sum.
    #[test]
    fn sums_and_products_of_full_matrices() {
        let mut random = Random::new(9);
        for s in LENGTHS {
            for m in widths(s) {
                let (a, b) = (draw::block(&mut random, m, s), draw::block(&mut random, m, s));
                let (full_a, full_b) = (matrix(&a), matrix(&b));
                let of_product = matrix(&product(m, &a, &b, s).expect("blocks"));
                let of_sum = matrix(&sum(m, &a, &b, s).expect("blocks"));
                for i in 0..s {
                    assert_eq!(row_product(m, &full_a[i], &full_b), of_product[i], "width {m}, row {i} of {s}");
                    let rows = full_a[i].iter().zip(&full_b[i]);
                    assert!(rows.map(|(x, y)| x ^ y).eq(of_sum[i].iter().copied()), "width {m}, row {i} of {s}");
                }
            }
        }
    }

    /// The full matrix of an inverse: its product with the block's matrix has ones in the diagonal and else zeros.
    #[test]
    fn a_block_times_its_inverse_is_the_unit() {
        let mut random = Random::new(12);
        for s in LENGTHS {
            for m in widths(s) {
                let a = draw::live_block(&mut random, m, s);
                let (full, inverted) = (matrix(&a), matrix(&inverse(m, &a, s).expect("the sum isn't zero")));
                for i in 0..s {
                    let unit: Vec<Elem> = (0..s).map(|j| Elem::from(i == j)).collect();
                    assert_eq!(row_product(m, &inverted[i], &full), unit, "width {m}, row {i} of {s}");
                }
            }
        }
    }

    /// The inverse exists exactly if the sum of all elements is nonzero; it is the signature over that sum's square.
    #[test]
    fn inverses_follow_the_sum_of_the_elements() {
        let mut random = Random::new(11);
        for (m, _) in field::WORDS {
            for s in [1, 2, 4, 8, 16] {
                for _ in 0..50 {
                    let a = draw::block(&mut random, m, s);
                    let total = a.iter().fold(0, |sum, entry| sum ^ entry);
                    let expected = if total == 0 {
                        Err(9)
                    } else {
                        let over = field::reciprocal(m, field::times(m, total, total));
                        Ok(a.iter().map(|&entry| field::times(m, entry, over)).collect())
                    };
                    assert_eq!(inverse(m, &a, s), expected, "width {m}, block {a:?}");
                }
                assert_eq!(inverse(m, &draw::dead_block(&mut random, m, s), s), Err(9), "width {m}");
            }
        }
    }
}
