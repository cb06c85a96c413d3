//! Ring elements and their images: the product, the transform and its reverse.
//!
//! Each works place by place, straight from its definition: a product is reduced by `%`, a sum by one comparison.

use crate::field::{add, inverse, mul, sub, Powers, ORDER};
use crate::set::Set;

/// "the schoolbook product with x^n = x^(n/2) - 1, and so x^(3n/2) = -1".
pub fn product(a: &[u16], b: &[u16], out: &mut [u16]) {
    let half = a.len() / 2;
    let (low, high) = out.split_at_mut(half);
    for i in 0..half {
        let [first, second, third, fourth] = [0, 1, 2, 3].map(|quarter| unfolded(a, b, quarter * half + i));
        // x^(n+i) is x^(n/2+i) - x^i, and x^(3n/2+i) is -x^i
        low[i] = sub(sub(first, third), fourth);
        high[i] = add(second, third);
    }
}

/// The coefficient at x^degree of the product before it is folded.
fn unfolded(a: &[u16], b: &[u16], degree: usize) -> u16 {
    // a[i] meets b[degree - i]; both must be there
    let last = a.len() - 1;
    let from = degree.saturating_sub(last);
    let to = degree.min(last) + 1;
    let met = b[degree + 1 - to..degree + 1 - from].iter().rev();
    a[from..to]
        .iter()
        .zip(met)
        .fold(0, |sum, (&left, &right)| add(sum, mul(left, right)))
}

/// "Slot k of the image of a polynomial is its value at w^e".
pub fn transform(set: Set, powers: &Powers, element: &[u16], image: &mut [u16]) {
    for (slot, value) in image[..set.slots].iter_mut().enumerate() {
        *value = value_at(powers, set.step * root_exponent(slot), element);
    }
}

/// "the whole numbers coprime to 6 in rising order: e = 3k + 1 for even k, 3k + 2 for odd k".
fn root_exponent(slot: usize) -> usize {
    3 * slot + 1 + slot % 2
}

/// The value of a polynomial at 7^stride.
fn value_at(powers: &Powers, stride: usize, element: &[u16]) -> u16 {
    let mut sum = 0;
    let mut exponent = 0;
    for &coefficient in element {
        sum = add(sum, mul(coefficient, powers[exponent]));
        exponent = stepped(exponent, stride);
    }
    sum
}

/// Exponents of 7 count modulo 3456.
fn stepped(exponent: usize, stride: usize) -> usize {
    let next = exponent + stride;
    if next >= ORDER {
        next - ORDER
    } else {
        next
    }
}

/// "The reverse transform gives the one element with that image."
///
/// Let S_j be the sum over all slots of (slot k) * w^(-j e_k). Summed over all e, w^(te) gives n for t = 0, n/2 for
/// t = n/2 and t = -n/2, and 0 for every other t between -n and n. So S_j = n a_j + (n/2) a_p, where p = j + n/2 modulo
/// n is the partner of j, and 2 S_j - S_p = (3n/2) a_j.
pub fn reverse(set: Set, powers: &Powers, image: &[u16], element: &mut [u16]) {
    let half = set.n / 2;
    let scale = inverse((3 * half) as u16);
    let (low, high) = element.split_at_mut(half);
    for j in 0..half {
        let here = backward_sum(set, powers, image, j);
        let partner = backward_sum(set, powers, image, j + half);
        low[j] = mul(sub(add(here, here), partner), scale);
        high[j] = mul(sub(add(partner, partner), here), scale);
    }
}

/// S_j of the reverse transform.
fn backward_sum(set: Set, powers: &Powers, image: &[u16], j: usize) -> u16 {
    // 7^back is w^(-j); e rises by 4 after an even slot and by 2 after an odd one
    let back = (ORDER - set.step * j) % ORDER;
    let strides = [4 * back % ORDER, 2 * back % ORDER];
    let mut sum = 0;
    let mut exponent = back;
    for pair in image.chunks_exact(2) {
        for (&value, &stride) in pair.iter().zip(&strides) {
            sum = add(sum, mul(value, powers[exponent]));
            exponent = stepped(exponent, stride);
        }
    }
    sum
}

#[cfg(test)]
mod tests {
    use super::*;
    use crate::field::powers;
    use crate::random::Random;
    use crate::set::{SET_1152, SET_576};

    fn random_element(random: &mut Random, set: Set) -> Vec<u16> {
        (0..set.n).map(|_| random.residue()).collect()
    }

    #[test]
    fn reverse_undoes_transform_and_transform_turns_products_into_slot_products() {
        let powers = powers();
        let mut random = Random::new(1);
        for set in [SET_576, SET_1152] {
            let [a, b] = [0, 1].map(|_| random_element(&mut random, set));
            let [mut image_a, mut image_b, mut back, mut folded, mut image] = [0; 5].map(|_| vec![0; set.n]);
            transform(set, &powers, &a, &mut image_a);
            transform(set, &powers, &b, &mut image_b);
            reverse(set, &powers, &image_a, &mut back);
            assert_eq!(back, a);
            product(&a, &b, &mut folded);
            transform(set, &powers, &folded, &mut image);
            assert!((0..set.n).all(|slot| image[slot] == mul(image_a[slot], image_b[slot])));
        }
    }

    #[test]
    fn each_slot_has_a_root_of_the_folding_rule() {
        let powers = powers();
        for set in [SET_576, SET_1152] {
            for slot in 0..set.slots {
                let exponent = set.step * root_exponent(slot);
                // w^(en) - w^(en/2) + 1 is 0
                let [whole, half] = [set.n, set.n / 2].map(|times| powers[exponent * times % ORDER]);
                assert_eq!(add(sub(whole, half), 1), 0);
            }
        }
    }
}
