//! Opening, in three stages; each reads its own inputs alone.

use crate::calls::{first_large_through, Answer};
use crate::field::{mul, sub};
use crate::mistakes::Mistake;
use crate::packing::{pack, unpack};
use crate::plan::Plan;
use crate::seal::image_of_r;
use crate::set::{Set, LARGEST};
use crate::small::{self, decode, unmark};

/// "open-1 | private key, ciphertext | marks n, packed image of r".
pub fn open_1(
    plan: &Plan,
    set: u64,
    private_key: &[u8],
    ciphertext: &[u8],
    marks: &mut [u8],
    packed_image: &mut [u8],
) -> Answer {
    let set = match Set::of(set) {
        Some(set) => set,
        None => return Answer::UNKNOWN_SET,
    };
    let lengths = [private_key.len(), ciphertext.len(), marks.len(), packed_image.len()];
    if lengths != [set.private_key(), set.packed(), set.marks(), set.packed()] {
        return Answer::WRONG_LENGTH;
    }
    let mut halves_room = [0; 2 * LARGEST];
    let [mut c_room, mut r_room] = [[0; LARGEST]; 2];
    let halves = &mut halves_room[..2 * set.n];
    let (c, r) = (&mut c_room[..set.n], &mut r_room[..set.n]);
    unpack(private_key, halves);
    unpack(ciphertext, c);
    if let Some(place) = first_large_through(&[halves, c]) {
        return Answer::too_large(place);
    }
    let (f, one_over_h) = halves.split_at(set.n);
    opened_marks(plan, set, c, f, marks);
    opened_r(plan, set, c, marks, one_over_h, r);
    pack(r, packed_image);
    if plan.makes(Mistake::MarksSwapped) {
        swap_marks(marks);
    }
    Answer::DONE
}

/// "m = reverse of (ciphertext image times f image), centred, then by 3".
fn opened_marks(plan: &Plan, set: Set, c: &[u16], f: &[u16], marks: &mut [u8]) {
    let [mut image_room, mut element_room] = [[0; LARGEST]; 2];
    let (image, element) = (&mut image_room[..set.n], &mut element_room[..set.n]);
    for slot in 0..set.slots {
        image[slot] = mul(c[slot], f[slot]);
    }
    plan.reverse(set, image, element);
    small::marks(element, marks);
}

/// "r image = (c - m) times 1/h, slot by slot".
fn opened_r(plan: &Plan, set: Set, c: &[u16], marks: &[u8], one_over_h: &[u16], r: &mut [u16]) {
    let [mut m_room, mut image_room] = [[0; LARGEST]; 2];
    let (m, m_image) = (&mut m_room[..set.n], &mut image_room[..set.n]);
    unmark(marks, m);
    plan.transform(set, m, m_image);
    for slot in 0..set.slots {
        r[slot] = mul(sub(c[slot], m_image[slot]), one_over_h[slot]);
    }
}

fn swap_marks(marks: &mut [u8]) {
    for mark in marks {
        *mark = [0, 2, 1][usize::from(*mark)];
    }
}

/// "Open-2 decodes."
pub fn open_2(plan: &Plan, set: u64, marks: &[u8], g_block: &[u8], message: &mut [u8]) -> Answer {
    let set = match Set::of(set) {
        Some(set) => set,
        None => return Answer::UNKNOWN_SET,
    };
    if [marks.len(), g_block.len(), message.len()] != [set.marks(), set.g_block(), set.message()] {
        return Answer::WRONG_LENGTH;
    }
    if let Some(place) = marks.iter().position(|&mark| mark > 2) {
        return Answer::bad_mark(place);
    }
    let mut bit_room = [0; 3 * LARGEST];
    let bits = &mut bit_room[..3 * set.n];
    if plan.makes(Mistake::MarksSwapped) {
        let mut mark_room = [0; LARGEST];
        let swapped = &mut mark_room[..set.n];
        swapped.copy_from_slice(marks);
        swap_marks(swapped);
        decode(plan, swapped, g_block, bits, message);
    } else {
        decode(plan, marks, g_block, bits, message);
    }
    Answer::DONE
}

/// "Open-3 takes the key if and only if the lent image equals the image of the r sampled from the H block."
pub fn open_3(plan: &Plan, set: u64, packed_image: &[u8], h_block: &[u8], key: &mut [u8]) -> Answer {
    let set = match Set::of(set) {
        Some(set) => set,
        None => return Answer::UNKNOWN_SET,
    };
    if [packed_image.len(), h_block.len(), key.len()] != [set.packed(), set.h_block(), set.key()] {
        return Answer::WRONG_LENGTH;
    }
    let [mut lent_room, mut own_room] = [[0; LARGEST]; 2];
    let (lent, own) = (&mut lent_room[..set.n], &mut own_room[..set.n]);
    unpack(packed_image, lent);
    if let Some(place) = first_large_through(&[lent]) {
        return Answer::too_large(place);
    }
    image_of_r(plan, set, h_block, own);
    if lent != own && !plan.makes(Mistake::OpensAll) {
        return Answer::IMAGES_DIFFER;
    }
    key.copy_from_slice(plan.key_bytes(h_block));
    Answer::DONE
}
