//! Draws blocks whose polynomial 3(g'r + mf') + m has a chosen coefficient farthest from 0.
//!
//! r and m are fixed first, with no zeros but one. Then coefficient k of g'r + mf' is a sum of the coefficients of g'
//! and f', each times a weight that r or m gives it, so that changing them one by one leads it to any sum in reach.

use crate::generate::Generator;
use crate::listing::{unlist, BLOCKS};
use crate::make::zero_slots;
use crate::random::Random;
use crate::set::Set;
use crate::whole::{demand_of_blocks, farthest, Blocks};

/// Draws until the target is met and make takes the seed.
pub fn draw(set: Set, target: i32, generator: &mut Generator) -> Blocks {
    loop {
        if let Some(blocks) = try_draw(set, target, &mut generator.random) {
            let plan = &generator.correct;
            let met = farthest(&demand_of_blocks(plan, &blocks)) == target;
            if met && zero_slots(plan, set, &blocks.seed) == [None, None] {
                return blocks;
            }
        }
    }
}

fn try_draw(set: Set, target: i32, random: &mut Random) -> Option<Blocks> {
    let k = random.below(set.n);
    let r = signs(set.n, random);
    let mut m = signs(set.n, random);
    // 3 * sum + m_k is the target
    m[k] = match target.rem_euclid(3) {
        2 => -1,
        rest => rest,
    };
    let mut weights = weights_at(k, &m);
    weights.extend(weights_at(k, &r));
    let coefficients = led_to((target - m[k]) / 3, &weights, random)?;

    let (f, g) = coefficients.split_at(set.n);
    let mut seed = block_of(f, random);
    seed.extend(block_of(g, random));
    let mut h_block = random.bytes(set.key());
    h_block.extend(block_of(&r, random));
    let message = random.bytes(set.message());
    let g_block = block_that_encodes(&message, &m, random);
    Some(Blocks {
        set,
        seed,
        message,
        h_block,
        g_block,
    })
}

fn signs(n: usize, random: &mut Random) -> Vec<i32> {
    (0..n).map(|_| random.one_of(&[-1, 1])).collect()
}

/// Weight i is coefficient k of x^i times the polynomial.
fn weights_at(k: usize, polynomial: &[i32]) -> Vec<i32> {
    let mut shifted = polynomial.to_vec();
    let half = shifted.len() / 2;
    let mut weights = Vec::with_capacity(shifted.len());
    for _ in 0..polynomial.len() {
        weights.push(shifted[k]);
        // times x: what was at x^(n-1) comes to x^n = x^(n/2) - 1
        shifted.rotate_right(1);
        shifted[half] += shifted[0];
        shifted[0] = -shifted[0];
    }
    weights
}

/// Coefficients -1, 0, 1 whose weighted sum is the one asked for, or nothing if chance does not lead there.
fn led_to(sum: i32, weights: &[i32], random: &mut Random) -> Option<Vec<i32>> {
    let mut coefficients: Vec<i32> = weights.iter().map(|_| random.one_of(&[-1, 0, 0, 1])).collect();
    let mut missing = sum
        - coefficients
            .iter()
            .zip(weights)
            .map(|(left, right)| left * right)
            .sum::<i32>();
    for _ in 0..100 * weights.len() {
        let place = random.below(weights.len());
        let step = missing.signum() * weights[place].signum();
        let gain = step * weights[place];
        if (coefficients[place] + step).abs() <= 1 && gain.abs() <= missing.abs() {
            coefficients[place] += step;
            missing -= gain;
        }
    }
    if missing == 0 {
        Some(coefficients)
    } else {
        None
    }
}

/// A block that is sampled to these coefficients: 1 is the bits 1, 0; -1 is 0, 1; and 0 is two equal bits.
fn block_of(coefficients: &[i32], random: &mut Random) -> Vec<u8> {
    let second = coefficients.iter().map(|&coefficient| match coefficient {
        0 => random.below(2) as u8,
        _ => u8::from(coefficient < 0),
    });
    let second: Vec<u8> = second.collect();
    let first: Vec<u8> = coefficients
        .iter()
        .zip(&second)
        .map(|(&sum, &bit)| (sum + i32::from(bit)) as u8)
        .collect();
    let mut block = vec![0; coefficients.len() / 4];
    let (first_half, second_half) = block.split_at_mut(coefficients.len() / 8);
    unlist(&BLOCKS, &first, first_half);
    unlist(&BLOCKS, &second, second_half);
    block
}

/// A block with which the message is encoded to these coefficients: the first half of `block_of`, XOR the message.
fn block_that_encodes(message: &[u8], coefficients: &[i32], random: &mut Random) -> Vec<u8> {
    let mut block = block_of(coefficients, random);
    // the listing only moves bits, so that bytes may be XORed in its place
    for (byte, message_byte) in block.iter_mut().zip(message) {
        *byte ^= message_byte;
    }
    block
}
