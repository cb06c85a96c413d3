//! Demand 3's polynomial 3(g'r + mf') + m over whole numbers: folded by x^n = x^(n/2) - 1, and never reduced.

use crate::plan::Plan;
use crate::set::{Set, KEY};
use crate::small::{by_three, encode, sample};

/// Everything that the host lends to one agreement.
pub struct Blocks {
    pub set: Set,
    pub seed: Vec<u8>,
    pub message: Vec<u8>,
    pub h_block: Vec<u8>,
    pub g_block: Vec<u8>,
}

/// Opening has to give back message and key if no coefficient is outside of -1728..1728.
pub const RANGE: i32 = 1728;

/// Demand 3's polynomial of the small polynomials that the blocks stand for.
pub fn demand_of_blocks(plan: &Plan, blocks: &Blocks) -> Vec<i32> {
    let n = blocks.set.n;
    let (mut room, mut coefficients) = (vec![0; 3 * n], vec![0; n]);
    let (f_block, g_block) = blocks.seed.split_at(n / 4);
    let [f, g, r] = [f_block, g_block, &blocks.h_block[KEY..]].map(|block| {
        sample(plan, block, &mut room[..2 * n], &mut coefficients);
        signed(&coefficients)
    });
    encode(plan, &blocks.message, &blocks.g_block, &mut room, &mut coefficients);
    demand(&f, &g, &r, &signed(&coefficients))
}

/// Coefficients -1, 0, 1 out of their residues.
fn signed(coefficients: &[u16]) -> Vec<i32> {
    coefficients.iter().map(|&residue| by_three(residue)).collect()
}

fn demand(f: &[i32], g: &[i32], r: &[i32], m: &[i32]) -> Vec<i32> {
    let (gr, mf) = (folded_product(g, r), folded_product(m, f));
    (0..m.len()).map(|i| 3 * (gr[i] + mf[i]) + m[i]).collect()
}

/// "the schoolbook product with x^n = x^(n/2) - 1", over whole numbers.
fn folded_product(a: &[i32], b: &[i32]) -> Vec<i32> {
    let n = a.len();
    let mut product = vec![0; 2 * n];
    for (i, &left) in a.iter().enumerate() {
        for (sum, &right) in product[i..].iter_mut().zip(b) {
            *sum += left * right;
        }
    }
    // from the top, so that what falls on x^n or above is folded again
    for degree in (n..2 * n).rev() {
        product[degree - n / 2] += product[degree];
        product[degree - n] -= product[degree];
    }
    product.truncate(n);
    product
}

/// The coefficient that is farthest from 0.
pub fn farthest(coefficients: &[i32]) -> i32 {
    coefficients
        .iter()
        .copied()
        .max_by_key(|coefficient| coefficient.abs())
        .unwrap_or(0)
}

#[cfg(test)]
mod tests {
    use super::*;

    /// x^degree in set 576.
    fn monomial(degree: usize) -> Vec<i32> {
        (0..576).map(|i| i32::from(i == degree)).collect()
    }

    #[test]
    fn whole_products_fold_as_the_bench_values_do() {
        let minus = |degree| {
            monomial(degree)
                .iter()
                .map(|coefficient| -coefficient)
                .collect::<Vec<i32>>()
        };
        assert_eq!(folded_product(&monomial(432), &monomial(432)), minus(0));
        assert_eq!(folded_product(&monomial(575), &monomial(575)), minus(286));
        assert_eq!(folded_product(&monomial(287), &monomial(288)), monomial(575));
    }

    #[test]
    fn the_polynomial_is_three_times_both_products_and_m() {
        let m = monomial(5);
        let demand = demand(&monomial(1), &monomial(2), &monomial(3), &m);
        let nonzero: Vec<(usize, i32)> = demand.into_iter().enumerate().filter(|term| term.1 != 0).collect();
        assert_eq!(nonzero, [(5, 4), (6, 3)]);
    }
}
