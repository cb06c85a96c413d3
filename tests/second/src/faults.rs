//! What can be wrong with a request. Each fault spoils a request in place, so that several can be planted in one.

use crate::call::Call;
use crate::generate::Generator;
use crate::make::zero_slots;
use crate::random::Random;
use crate::request::{Content, Request};
use crate::set::Set;
use crate::spoil::{bad_mark, change_group, too_large, turn_last_bit};

#[derive(Clone, Copy, PartialEq, Eq)]
pub enum Fault {
    UnknownSet,
    WrongLength,
    TooLarge,
    ZeroSlot,
    BadMark,
    OtherImage,
}

/// No buffer gets longer than this.
const LONGEST: usize = 4000;

/// Both ends, neighbours of the known sets, and sets that are not in the base.
const UNKNOWN: [u64; 7] = [u64::MAX, 0, 575, 577, 768, 864, 1151];

/// What can be wrong with a request of the call.
pub fn faults(call: Call) -> &'static [Fault] {
    match call {
        Call::Product | Call::Transform | Call::Reverse | Call::Seal | Call::Open1 => {
            &[Fault::UnknownSet, Fault::WrongLength, Fault::TooLarge]
        }
        Call::Make => &[Fault::UnknownSet, Fault::WrongLength, Fault::ZeroSlot],
        Call::Open2 => &[Fault::UnknownSet, Fault::WrongLength, Fault::BadMark],
        Call::Open3 => &[
            Fault::UnknownSet,
            Fault::WrongLength,
            Fault::TooLarge,
            Fault::OtherImage,
        ],
        Call::RImage | Call::FHalf | Call::HHalf => &[Fault::UnknownSet, Fault::WrongLength],
    }
}

/// Spoils the request; the turn decides in which of the fault's ways.
pub fn plant(fault: Fault, turn: usize, request: &mut Request, generator: &mut Generator) {
    match fault {
        Fault::UnknownSet => unknown_set(turn, request, &mut generator.random),
        Fault::WrongLength => wrong_length(turn, request, &mut generator.random),
        Fault::TooLarge => too_large(request, &mut generator.random),
        Fault::ZeroSlot => zero_slot(turn, request, generator),
        Fault::BadMark => bad_mark(request, &mut generator.random),
        Fault::OtherImage => other_image(turn, request, generator),
    }
}

fn unknown_set(turn: usize, request: &mut Request, random: &mut Random) {
    request.set = match turn % 13 {
        // the low 16 or 32 bits alone would be a known set
        0 => (1 << 16) + 576,
        1 => (1 << 32) + 576,
        2 => (1 << 16) + 1152,
        3 => (1 << 32) + 1152,
        // an odd number is no known set
        4 => random.number() | 1,
        5 => random.below(100_000) as u64 | 1,
        listed => UNKNOWN[listed - 6],
    };
}

/// Each buffer in turn: one below, one above, none at all, twice, any.
fn wrong_length(turn: usize, request: &mut Request, random: &mut Random) {
    let count = request.buffers.len();
    let buffer = &mut request.buffers[turn % count];
    let right = buffer.length();
    let wrong = match turn / count % 5 {
        0 => right.saturating_sub(1),
        1 => right + 1,
        2 => 0,
        3 => 2 * right,
        _ => random.below(LONGEST + 1),
    };
    let wrong = wrong.min(LONGEST);
    match &mut buffer.content {
        Content::Numbers(numbers) => numbers.resize_with(wrong, || random.residue()),
        Content::Bytes(bytes) => bytes.resize_with(wrong, || random.byte()),
    }
}

/// A seed of zeros, a second half of zeros, or random seeds until make refuses one.
fn zero_slot(turn: usize, request: &mut Request, generator: &mut Generator) {
    let seed = request.buffers[0].bytes();
    let half = seed.len() / 2;
    match turn % 3 {
        0 => seed.fill(0),
        1 => seed[half..].fill(0),
        _ => refused_seed(request.set, seed, generator),
    }
}

fn refused_seed(set: u64, seed: &mut [u8], generator: &mut Generator) {
    // a request with another fault besides may have another set or length, and then no seed is refused for a zero slot
    let set = match Set::of(set) {
        Some(set) if seed.len() == set.seed() => set,
        _ => return,
    };
    loop {
        seed.copy_from_slice(&generator.random.bytes(set.seed()));
        if zero_slots(&generator.correct, set, seed) != [None, None] {
            return;
        }
    }
}

/// A bit of the H block's last byte is turned, a group of the image is another, or the whole image is.
fn other_image(turn: usize, request: &mut Request, generator: &mut Generator) {
    if let [image, h_block, _] = request.buffers.as_mut_slice() {
        match turn % 3 {
            0 => turn_last_bit(h_block.bytes(), &mut generator.random),
            1 => change_group(image.bytes(), &mut generator.random),
            _ => {
                let other = generator.packed_residues(image.length());
                image.bytes().copy_from_slice(&other);
            }
        }
    }
}
