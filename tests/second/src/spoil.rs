//! Numbers, groups and marks that a call has to refuse, at the first, the last or any place of a buffer.

use crate::field::add;
use crate::packing::{pack, unpack};
use crate::random::Random;
use crate::request::{Content, Request};
use crate::table::Holds;

/// "a list number or packed group is above 3456": in one input that has any, or in more.
pub fn too_large(request: &mut Request, random: &mut Random) {
    let rows = request.call.rows();
    let tested = |place: &usize| !rows[*place].written && matches!(rows[*place].holds, Holds::Numbers | Holds::Groups);
    let inputs: Vec<usize> = (0..rows.len()).filter(tested).collect();
    let chosen = random.one_of(&inputs);
    for place in inputs {
        if place == chosen || random.once_in(3) {
            match &mut request.buffers[place].content {
                Content::Numbers(numbers) => spoil_numbers(numbers, random),
                Content::Bytes(bytes) => spoil_groups(bytes, random),
            }
        }
    }
}

fn spoil_numbers(numbers: &mut [u16], random: &mut Random) {
    for place in places(numbers.len(), random) {
        let any = 3457 + random.below(65_536 - 3457) as u16;
        numbers[place] = random.one_of(&[3457, 3458, 4095, 65_535, any]);
    }
}

fn spoil_groups(bytes: &mut [u8], random: &mut Random) {
    for place in places(bytes.len() / 3 * 2, random) {
        let any = 3457 + random.below(4096 - 3457) as u16;
        set_group(bytes, place, random.one_of(&[3457, 3458, 4095, any]));
    }
}

/// The first, the last or any place, and now and then some more.
fn places(count: usize, random: &mut Random) -> Vec<usize> {
    if count == 0 {
        return Vec::new();
    }
    let any = random.below(count);
    let mut places = vec![random.one_of(&[0, count - 1, any])];
    if random.once_in(2) {
        places.extend((0..random.below(4)).map(|_| random.below(count)));
    }
    places
}

/// "open-2: a mark above 2".
pub fn bad_mark(request: &mut Request, random: &mut Random) {
    let marks = request.buffers[0].bytes();
    for place in places(marks.len(), random) {
        let any = 3 + random.below(253) as u8;
        marks[place] = random.one_of(&[3, 4, 255, any]);
    }
}

/// One group becomes another residue.
pub fn change_group(bytes: &mut [u8], random: &mut Random) {
    let count = bytes.len() / 3 * 2;
    if count > 0 {
        let place = random.below(count);
        let other = add(group(bytes, place), 1 + random.below(3456) as u16);
        set_group(bytes, place, other);
    }
}

/// One bit of the last byte is turned.
pub fn turn_last_bit(bytes: &mut [u8], random: &mut Random) {
    if let Some(last) = bytes.last_mut() {
        *last ^= 1 << random.below(8);
    }
}

fn pair_at(bytes: &[u8], place: usize) -> [u16; 2] {
    let mut pair = [0; 2];
    unpack(&bytes[place / 2 * 3..][..3], &mut pair);
    pair
}

fn group(bytes: &[u8], place: usize) -> u16 {
    pair_at(bytes, place)[place % 2]
}

fn set_group(bytes: &mut [u8], place: usize, group: u16) {
    let mut pair = pair_at(bytes, place);
    pair[place % 2] = group;
    pack(&pair, &mut bytes[place / 2 * 3..][..3]);
}

#[cfg(test)]
mod tests {
    use super::*;

    #[test]
    fn a_group_is_set_and_its_neighbours_stay() {
        let mut bytes = [0xFF; 9];
        for (place, value) in [(0, 3457), (3, 1), (5, 2222)] {
            set_group(&mut bytes, place, value);
        }
        let groups = [0, 1, 2, 3, 4, 5].map(|place| group(&bytes, place));
        assert_eq!(groups, [3457, 4095, 4095, 1, 4095, 2222]);
    }
}
