//! Small polynomials: coefficients -1, 0, 1, kept as residues (-1 is 3456) or as marks. The caller lends the rooms.

use crate::field::{sub, Q};
use crate::listing::{list, unlist};
use crate::mistakes::Mistake;
use crate::plan::Plan;

/// "Each half of n/8 bytes goes through the listing by itself".
fn list_halves(plan: &Plan, block: &[u8], bits: &mut [u8]) {
    if plan.makes(Mistake::HalvesInOneRun) {
        return list(plan.blocks(), block, bits);
    }
    let (first_bytes, second_bytes) = block.split_at(block.len() / 2);
    let (first, second) = bits.split_at_mut(bits.len() / 2);
    list(plan.blocks(), first_bytes, first);
    list(plan.blocks(), second_bytes, second);
}

/// "coefficient i is (bit i of the first half) - (bit i of the second)". The room is for 2n bits.
pub fn sample(plan: &Plan, block: &[u8], room: &mut [u8], coefficients: &mut [u16]) {
    list_halves(plan, block, room);
    let (first, second) = room.split_at(coefficients.len());
    for (i, coefficient) in coefficients.iter_mut().enumerate() {
        *coefficient = sub(u16::from(first[i]), u16::from(second[i]));
    }
}

/// "coefficient i is (message bit XOR first-half bit) - second-half bit".
pub fn encoded(message_bit: u8, first: u8, second: u8) -> u16 {
    sub(u16::from(message_bit ^ first), u16::from(second))
}

/// "Encoding (algorithm 4) takes a message of n/8 bytes and n/4 bytes". The room is for 3n bits.
pub fn encode(plan: &Plan, message: &[u8], block: &[u8], room: &mut [u8], coefficients: &mut [u16]) {
    let (message_bits, halves) = room.split_at_mut(coefficients.len());
    list(plan.message_blocks(), message, message_bits);
    list_halves(plan, block, halves);
    let (first, second) = halves.split_at(coefficients.len());
    for (i, coefficient) in coefficients.iter_mut().enumerate() {
        *coefficient = encoded(message_bits[i], first[i], second[i]);
    }
}

/// "message bit i = ((coefficient + second-half bit) mod 2, as 0 or 1) XOR first-half bit".
pub fn decoded(coefficient: i8, first: u8, second: u8) -> u8 {
    (coefficient + second as i8).rem_euclid(2) as u8 ^ first
}

/// "turns bits back to bytes by the reverse of the listing". The room is for 3n bits.
pub fn decode(plan: &Plan, marks: &[u8], block: &[u8], room: &mut [u8], message: &mut [u8]) {
    let (message_bits, halves) = room.split_at_mut(marks.len());
    list_halves(plan, block, halves);
    let (first, second) = halves.split_at(marks.len());
    for (i, bit) in message_bits.iter_mut().enumerate() {
        *bit = decoded(coefficient_of(marks[i]), first[i], second[i]);
    }
    unlist(plan.message_blocks(), message_bits, message);
}

/// "A mark is a byte: 0, 1, or 2 for -1."
fn coefficient_of(mark: u8) -> i8 {
    [0, 1, -1][usize::from(mark)]
}

/// The marks of what the residues are, centred and then by 3.
pub fn marks(residues: &[u16], marks: &mut [u8]) {
    for (&residue, mark) in residues.iter().zip(marks) {
        // by 3 into 0, 1, 2: just what the mark of -1, 0, 1 is
        *mark = by_three(residue).rem_euclid(3) as u8;
    }
}

/// The marked coefficients as residues.
pub fn unmark(marks: &[u8], residues: &mut [u16]) {
    for (&mark, residue) in marks.iter().zip(residues) {
        *residue = [0, 1, Q - 1][usize::from(mark)];
    }
}

/// "the value congruent to the residue in -1728..1728".
fn centred(residue: u16) -> i32 {
    if residue <= Q / 2 {
        i32::from(residue)
    } else {
        i32::from(residue) - i32::from(Q)
    }
}

/// "Then the remainder by 3 is taken into -1, 0, 1."
pub fn by_three(residue: u16) -> i32 {
    match centred(residue).rem_euclid(3) {
        2 => -1,
        rest => rest,
    }
}

#[cfg(test)]
mod tests {
    use super::*;
    use crate::random::Random;

    #[test]
    fn decoding_undoes_encoding() {
        let plan = Plan::new(None);
        let mut random = Random::new(3);
        for n in [576, 1152] {
            let (message, block) = (random.bytes(n / 8), random.bytes(n / 4));
            let (mut room, mut coefficients) = (vec![0; 3 * n], vec![0; n]);
            encode(&plan, &message, &block, &mut room, &mut coefficients);
            let (mut written, mut opened) = (vec![0; n], vec![0; n / 8]);
            marks(&coefficients, &mut written);
            decode(&plan, &written, &block, &mut room, &mut opened);
            assert_eq!(opened, message);
        }
    }

    #[test]
    fn the_centred_number_is_in_range_and_congruent() {
        for residue in 0..Q {
            let number = centred(residue);
            assert!((-1728..=1728).contains(&number));
            assert_eq!(number.rem_euclid(3457), i32::from(residue));
        }
    }
}
