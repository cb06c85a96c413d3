//! What the calls answer, and the calls on lists and on halves. Every call tests in the order of the answer numbers.

use crate::packing::first_large;
use crate::plan::Plan;
use crate::ring;
use crate::set::Set;

/// "An answer is a number and a place."
#[derive(Clone, Copy, PartialEq, Eq, Debug)]
pub struct Answer {
    pub number: u64,
    pub place: u64,
}

impl Answer {
    pub const DONE: Answer = Answer { number: 0, place: 0 };
    pub const UNKNOWN_SET: Answer = Answer { number: 1, place: 0 };
    pub const WRONG_LENGTH: Answer = Answer { number: 2, place: 0 };
    pub const IMAGES_DIFFER: Answer = Answer { number: 6, place: 0 };

    pub fn too_large(place: usize) -> Answer {
        Answer {
            number: 3,
            place: place as u64,
        }
    }

    pub fn zero_slot(place: usize) -> Answer {
        Answer {
            number: 4,
            place: place as u64,
        }
    }

    pub fn bad_mark(place: usize) -> Answer {
        Answer {
            number: 5,
            place: place as u64,
        }
    }
}

/// "a list number or packed group is above 3456": "first such, counted through the inputs as listed".
pub fn first_large_through(inputs: &[&[u16]]) -> Option<usize> {
    let mut counted = 0;
    for list in inputs {
        let place = first_large(list);
        counted += place;
        if place < list.len() {
            return Some(counted);
        }
    }
    None
}

/// "product | two lists of n numbers | list of n". The plan is lent to every call, though a product has no use for it.
pub fn product(_plan: &Plan, set: u64, first: &[u16], second: &[u16], out: &mut [u16]) -> Answer {
    let set = match Set::of(set) {
        Some(set) => set,
        None => return Answer::UNKNOWN_SET,
    };
    if [first.len(), second.len(), out.len()] != [set.list(); 3] {
        return Answer::WRONG_LENGTH;
    }
    if let Some(place) = first_large_through(&[first, second]) {
        return Answer::too_large(place);
    }
    ring::product(first, second, out);
    Answer::DONE
}

/// "transform, reverse | list of n | list of n".
pub fn transform(plan: &Plan, set: u64, element: &[u16], image: &mut [u16]) -> Answer {
    let set = match Set::of(set) {
        Some(set) => set,
        None => return Answer::UNKNOWN_SET,
    };
    if [element.len(), image.len()] != [set.list(); 2] {
        return Answer::WRONG_LENGTH;
    }
    if let Some(place) = first_large_through(&[element]) {
        return Answer::too_large(place);
    }
    plan.transform(set, element, image);
    Answer::DONE
}

/// "transform, reverse | list of n | list of n".
pub fn reverse(plan: &Plan, set: u64, image: &[u16], element: &mut [u16]) -> Answer {
    let set = match Set::of(set) {
        Some(set) => set,
        None => return Answer::UNKNOWN_SET,
    };
    if [image.len(), element.len()] != [set.list(); 2] {
        return Answer::WRONG_LENGTH;
    }
    if let Some(place) = first_large_through(&[image]) {
        return Answer::too_large(place);
    }
    plan.reverse(set, image, element);
    Answer::DONE
}

/// A part of a lent private key.
#[derive(Clone, Copy, PartialEq, Eq, Debug)]
pub struct Part {
    pub start: usize,
    pub length: usize,
}

const EMPTY: Part = Part { start: 0, length: 0 };

/// "the half is handed back as that part of the lent private key and not as a copy".
pub fn f_half(set: u64, key_length: usize) -> Part {
    match Set::of(set) {
        Some(set) if key_length == set.private_key() => Part {
            start: 0,
            length: set.packed(),
        },
        _ => EMPTY,
    }
}

/// "for an unknown set or a key of another length than 3n they hand back the empty part, and otherwise never".
pub fn h_half(set: u64, key_length: usize) -> Part {
    match Set::of(set) {
        Some(set) if key_length == set.private_key() => Part {
            start: set.packed(),
            length: set.packed(),
        },
        _ => EMPTY,
    }
}
