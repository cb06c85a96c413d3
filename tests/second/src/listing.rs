//! The bit listing: bytes to bits, block by block, and back. A bit is a byte 0 or 1.

/// "blocks of 256 bits while they last, then at most one block each of 128, 64 and 32".
pub const BLOCKS: [usize; 4] = [256, 128, 64, 32];

/// "The source's bit listing turns n/8 bytes into n bits."
pub fn list(blocks: &[usize], bytes: &[u8], bits: &mut [u8]) {
    let mut start = 0;
    for &length in blocks {
        while bits.len() - start >= length {
            let end = start + length;
            list_block(&bytes[start / 8..end / 8], &mut bits[start..end]);
            start = end;
        }
    }
}

/// "turns bits back to bytes by the reverse of the listing".
pub fn unlist(blocks: &[usize], bits: &[u8], bytes: &mut [u8]) {
    let mut start = 0;
    for &length in blocks {
        while bits.len() - start >= length {
            let end = start + length;
            unlist_block(&bits[start..end], &mut bytes[start / 8..end / 8]);
            start = end;
        }
    }
}

/// "bit 16k + l of word j [...] goes to place s + (B/16)l + 2j + k".
///
/// Half k of word j is half word 2j + k of the block, and a block of B bits has B/16 half words. So row l of B/16
/// places holds bit l of each half word in turn.
fn list_block(bytes: &[u8], bits: &mut [u8]) {
    let columns = bytes.len() / 2;
    for (l, row) in bits.chunks_exact_mut(columns).enumerate() {
        for (bit, half_word) in row.iter_mut().zip(bytes.chunks_exact(2)) {
            *bit = (u16::from_le_bytes([half_word[0], half_word[1]]) >> l & 1) as u8;
        }
    }
}

/// The reverse of `list_block`: half word h gathers its bit l from column h of row l.
fn unlist_block(bits: &[u8], bytes: &mut [u8]) {
    let columns = bytes.len() / 2;
    for (column, half_word) in bytes.chunks_exact_mut(2).enumerate() {
        let mut gathered = 0;
        for (l, row) in bits.chunks_exact(columns).enumerate() {
            gathered |= u16::from(row[column]) << l;
        }
        half_word.copy_from_slice(&gathered.to_le_bytes());
    }
}

#[cfg(test)]
mod tests {
    use super::*;
    use crate::random::Random;

    /// The document's formula, word by word, in a block of B bits that starts at bit s.
    fn by_formula(bytes: &[u8], s: usize, b: usize, bits: &mut [u8]) {
        for j in 0..b / 32 {
            let at = s / 8 + 4 * j;
            let word = u32::from_le_bytes([bytes[at], bytes[at + 1], bytes[at + 2], bytes[at + 3]]);
            for k in 0..2 {
                for l in 0..16 {
                    bits[s + (b / 16) * l + 2 * j + k] = (word >> (16 * k + l) & 1) as u8;
                }
            }
        }
    }

    #[test]
    fn rows_are_the_formula_for_every_mixture_of_blocks() {
        let mut random = Random::new(2);
        // 960 bits are three blocks of 256 and one each of 128 and 64; 992 have one of 32 besides
        for (length, cut) in [
            (256, &[256][..]),
            (128, &[128]),
            (64, &[64]),
            (32, &[32]),
            (576, &[256, 256, 64]),
            (1152, &[256, 256, 256, 256, 128]),
            (992, &[256, 256, 256, 128, 64, 32]),
        ] {
            let bytes = random.bytes(length / 8);
            let (mut bits, mut expected) = (vec![2; length], vec![2; length]);
            let mut start = 0;
            for &block in cut {
                by_formula(&bytes, start, block, &mut expected);
                start += block;
            }
            list(&BLOCKS, &bytes, &mut bits);
            assert_eq!(bits, expected);
            let mut back = vec![0; length / 8];
            unlist(&BLOCKS, &bits, &mut back);
            assert_eq!(back, bytes);
        }
    }
}
