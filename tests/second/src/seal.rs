//! The image of r, and sealing.

use crate::calls::{first_large_through, Answer};
use crate::field::{add, mul};
use crate::packing::{pack, unpack};
use crate::plan::Plan;
use crate::set::{Set, KEY, LARGEST};
use crate::small::{encode, sample};

/// "r-image | H block 32 + n/4 | packed image of r, 3n/2".
pub fn r_image(plan: &Plan, set: u64, h_block: &[u8], packed_image: &mut [u8]) -> Answer {
    let set = match Set::of(set) {
        Some(set) => set,
        None => return Answer::UNKNOWN_SET,
    };
    if [h_block.len(), packed_image.len()] != [set.h_block(), set.packed()] {
        return Answer::WRONG_LENGTH;
    }
    let mut image_room = [0; LARGEST];
    let image = &mut image_room[..set.n];
    image_of_r(plan, set, h_block, image);
    pack(image, packed_image);
    Answer::DONE
}

/// "H block: 32 key bytes, then n/4 bytes from which r is sampled."
pub fn image_of_r(plan: &Plan, set: Set, h_block: &[u8], image: &mut [u16]) {
    let mut bit_room = [0; 2 * LARGEST];
    let mut r_room = [0; LARGEST];
    let r = &mut r_room[..set.n];
    sample(plan, &h_block[KEY..], &mut bit_room[..2 * set.n], r);
    plan.transform(set, r, image);
}

/// "ciphertext = packed image of h*r + m; key = the 32 key bytes".
#[allow(clippy::too_many_arguments)] // the row of the document's table has as many
pub fn seal(
    plan: &Plan,
    set: u64,
    public_key: &[u8],
    message: &[u8],
    h_block: &[u8],
    g_block: &[u8],
    ciphertext: &mut [u8],
    key: &mut [u8],
) -> Answer {
    let set = match Set::of(set) {
        Some(set) => set,
        None => return Answer::UNKNOWN_SET,
    };
    let inputs = [public_key.len(), message.len(), h_block.len(), g_block.len()];
    let right_inputs = [set.packed(), set.message(), set.h_block(), set.g_block()];
    if inputs != right_inputs || [ciphertext.len(), key.len()] != [set.packed(), set.key()] {
        return Answer::WRONG_LENGTH;
    }
    let [mut h_room, mut r_room, mut m_room] = [[0; LARGEST]; 3];
    let (h, r, m) = (&mut h_room[..set.n], &mut r_room[..set.n], &mut m_room[..set.n]);
    unpack(public_key, h);
    if let Some(place) = first_large_through(&[h]) {
        return Answer::too_large(place);
    }
    image_of_r(plan, set, h_block, r);
    image_of_message(plan, set, message, g_block, m);
    for slot in 0..set.slots {
        m[slot] = add(mul(h[slot], r[slot]), m[slot]);
    }
    pack(m, ciphertext);
    key.copy_from_slice(plan.key_bytes(h_block));
    Answer::DONE
}

/// "m = encoding of the message with the G block": its image.
fn image_of_message(plan: &Plan, set: Set, message: &[u8], g_block: &[u8], image: &mut [u16]) {
    let mut bit_room = [0; 3 * LARGEST];
    let mut m_room = [0; LARGEST];
    let m = &mut m_room[..set.n];
    encode(plan, message, g_block, &mut bit_room[..3 * set.n], m);
    plan.transform(set, m, image);
}
