//! What every call of the model is lent: the table of powers, and the mistake that it is to make, if any.
//!
//! The mistakes are looked at here and at the ends of the calls, never in an inner loop: the correct way pays nothing.

use crate::field::{self, Powers};
use crate::listing::BLOCKS;
use crate::mistakes::Mistake;
use crate::ring;
use crate::set::{Set, KEY, LARGEST};

pub struct Plan {
    pub powers: Powers,
    pub mistake: Option<Mistake>,
}

impl Plan {
    pub fn new(mistake: Option<Mistake>) -> Plan {
        Plan {
            powers: field::powers(),
            mistake,
        }
    }

    pub fn makes(&self, mistake: Mistake) -> bool {
        self.mistake == Some(mistake)
    }

    /// The lengths of the blocks that the listing is cut into.
    pub fn blocks(&self) -> &'static [usize] {
        if self.makes(Mistake::WrongBlockOf128) {
            &[256, 64, 32]
        } else {
            &BLOCKS
        }
    }

    /// "the message and each half through the listing by themselves".
    pub fn message_blocks(&self) -> &'static [usize] {
        if self.makes(Mistake::MessageNotListed) {
            // a block of one half word keeps its bits in plain order
            &[16]
        } else {
            self.blocks()
        }
    }

    pub fn transform(&self, set: Set, element: &[u16], image: &mut [u16]) {
        ring::transform(set, &self.powers, element, image);
        if self.makes(Mistake::WrongSlotOrder) {
            image.swap(3, 4);
        }
    }

    pub fn reverse(&self, set: Set, image: &[u16], element: &mut [u16]) {
        if self.makes(Mistake::WrongSlotOrder) {
            let mut room = [0; LARGEST];
            let exchanged = &mut room[..set.slots];
            exchanged.copy_from_slice(image);
            exchanged.swap(3, 4);
            ring::reverse(set, &self.powers, exchanged, element);
        } else {
            ring::reverse(set, &self.powers, image, element);
        }
    }

    /// "H block: 32 key bytes, then n/4 bytes from which r is sampled."
    pub fn key_bytes<'a>(&self, h_block: &'a [u8]) -> &'a [u8] {
        if self.makes(Mistake::OtherKeyBytes) {
            &h_block[h_block.len() - KEY..]
        } else {
            &h_block[..KEY]
        }
    }
}
