//! Packing: two residues in three bytes.

use crate::field::Q;

/// "residues a, b become three bytes: a mod 256; a div 256 + 16(b mod 16); b div 16".
pub fn pack(list: &[u16], bytes: &mut [u8]) {
    for (pair, three) in list.chunks_exact(2).zip(bytes.chunks_exact_mut(3)) {
        let (a, b) = (pair[0], pair[1]);
        three[0] = (a % 256) as u8;
        three[1] = (a / 256 + 16 * (b % 16)) as u8;
        three[2] = (b / 16) as u8;
    }
}

/// The 12-bit groups as they stand; `first_large` tells whether one of them is no residue.
pub fn unpack(bytes: &[u8], list: &mut [u16]) {
    for (three, pair) in bytes.chunks_exact(3).zip(list.chunks_exact_mut(2)) {
        let [low, middle, high] = [three[0], three[1], three[2]].map(u16::from);
        pair[0] = low + 256 * (middle % 16);
        pair[1] = middle / 16 + 16 * high;
    }
}

/// The place of the first number above 3456, or the length of the list if there is none.
pub fn first_large(list: &[u16]) -> usize {
    list.iter().position(|&number| number >= Q).unwrap_or(list.len())
}

#[cfg(test)]
mod tests {
    use super::*;

    #[test]
    fn unpack_undoes_pack_for_every_group() {
        for a in 0..4096 {
            let (mut bytes, mut back) = ([0; 3], [0; 2]);
            pack(&[a, 4095 - a], &mut bytes);
            unpack(&bytes, &mut back);
            assert_eq!(back, [a, 4095 - a]);
        }
    }
}
