//! Making a pair of keys.

use crate::calls::Answer;
use crate::field::{add, inverse, mul};
use crate::packing::pack;
use crate::plan::Plan;
use crate::set::{Set, LARGEST};
use crate::small::sample;

/// "Public key: packed image of h. Private key: packed image of f, then packed image of 1/h."
pub fn make(plan: &Plan, set: u64, seed: &[u8], public_key: &mut [u8], private_key: &mut [u8]) -> Answer {
    let set = match Set::of(set) {
        Some(set) => set,
        None => return Answer::UNKNOWN_SET,
    };
    let lengths = [seed.len(), public_key.len(), private_key.len()];
    if lengths != [set.seed(), set.packed(), set.private_key()] {
        return Answer::WRONG_LENGTH;
    }
    let [mut f_room, mut g_room, mut quotient_room] = [[0; LARGEST]; 3];
    let (f, g, quotient) = (&mut f_room[..set.n], &mut g_room[..set.n], &mut quotient_room[..set.n]);
    images(plan, set, seed, f, g);
    if let Some(place) = zero_slot(f, g) {
        return Answer::zero_slot(place);
    }
    let (f_half, h_half) = private_key.split_at_mut(set.packed());
    pack(f, f_half);
    divide(g, f, quotient);
    pack(quotient, public_key);
    divide(f, g, quotient);
    pack(quotient, h_half);
    Answer::DONE
}

/// The first zero slot of f and the first of g, if they have any.
pub fn zero_slots(plan: &Plan, set: Set, seed: &[u8]) -> [Option<usize>; 2] {
    let [mut f_room, mut g_room] = [[0; LARGEST]; 2];
    let (f, g) = (&mut f_room[..set.n], &mut g_room[..set.n]);
    images(plan, set, seed, f, g);
    [first_zero(f), first_zero(g)]
}

/// "Make samples f' from the first half of its block and g' from the second; f = 3f' + 1, g = 3g'": their images.
fn images(plan: &Plan, set: Set, seed: &[u8], f_image: &mut [u16], g_image: &mut [u16]) {
    let mut bit_room = [0; 2 * LARGEST];
    let mut element_room = [0; LARGEST];
    let bits = &mut bit_room[..2 * set.n];
    let element = &mut element_room[..set.n];
    let (f_block, g_block) = seed.split_at(seed.len() / 2);

    sample(plan, f_block, bits, element);
    triple(element);
    element[0] = add(element[0], 1);
    plan.transform(set, element, f_image);

    sample(plan, g_block, bits, element);
    triple(element);
    plan.transform(set, element, g_image);
}

fn triple(element: &mut [u16]) {
    for coefficient in element {
        *coefficient = mul(3, *coefficient);
    }
}

/// "make: a slot of f or g is zero": "slot for f; n + slot for g; f first".
fn zero_slot(f_image: &[u16], g_image: &[u16]) -> Option<usize> {
    let in_f = first_zero(f_image);
    in_f.or_else(|| first_zero(g_image).map(|slot| f_image.len() + slot))
}

fn first_zero(image: &[u16]) -> Option<usize> {
    image.iter().position(|&value| value == 0)
}

/// "h = g/f slot by slot".
fn divide(above: &[u16], below: &[u16], quotient: &mut [u16]) {
    for (slot, value) in quotient.iter_mut().enumerate() {
        *value = mul(above[slot], inverse(below[slot]));
    }
}
