//! Inputs for ringline whose bytes or lines are not where they should be.

use crate::inputs::Draft;
use crate::random::Random;
use crate::reading::LONGEST_INPUT;

/// One byte or more is changed, removed, doubled or inserted.
pub fn damaged(mut input: Vec<u8>, random: &mut Random) -> Vec<u8> {
    for _ in 0..random.one_of(&[1, 1, 1, 2, 5]) {
        let place = random.below(input.len());
        let any = random.byte();
        let byte = random.one_of(&[b'0', b'1', b',', b':', b'=', b'\n', b'\r', b' ', any]);
        match random.below(4) {
            0 => input[place] = byte,
            1 if input.len() > 1 => drop(input.remove(place)),
            2 => input.insert(place, input[place]),
            _ => input.insert(place, byte),
        }
    }
    input
}

/// Lines exchanged, doubled, left out or ended by CR LF, the input cut off, or bytes after line 3.
pub fn rearranged(draft: Draft, random: &mut Random) -> Vec<u8> {
    let mut lines = draft.lines().to_vec();
    let mut after: &[u8] = b"";
    match random.below(7) {
        0 => lines.swap(random.below(2), 2),
        1 => lines.insert(random.below(3), lines[random.below(3)].clone()),
        2 => drop(lines.remove(random.below(3))),
        3 => {
            let line = &mut lines[random.below(3)];
            line.insert(line.len() - 1, '\r');
        }
        4 => {
            let whole = draft.written();
            return whole[..random.below(whole.len())].to_vec();
        }
        _ => after = random.one_of(&[&b"\n"[..], b"\0", b"c=\n", b"b=\n", b"set=576\na=\nb=\n", b" "]),
    }
    let mut input = lines.concat().into_bytes();
    input.extend(after);
    input
}

/// Inputs of some 32,768 bytes.
pub fn long(random: &mut Random) -> Vec<u8> {
    let length = LONGEST_INPUT - 1 + random.below(4);
    let filler = random.one_of(&[b'\n', b'0', b'1', b',', b'x', 0]);
    let mut input = match random.below(5) {
        0 => Vec::new(),
        1 => b"set=5\n".to_vec(),
        2 => b"set=576\na=1:1".to_vec(),
        _ => Draft::good(random).written(),
    };
    let last = random.one_of(&[b'\n', filler]);
    input.resize(length - 1, filler);
    input.push(last);
    input
}

/// Random bytes, or random pieces of what an input is made of.
pub fn any_bytes(random: &mut Random) -> Vec<u8> {
    let count = random.below(60);
    if random.once_in(2) {
        return random.bytes(count);
    }
    let pieces: [&[u8]; 12] = [
        b"set=", b"a=", b"b=", b"576", b"1152", b"\n", b"\n", b"0", b"1:1", b":", b",", b"3456",
    ];
    let mut input = random.one_of(&[&b""[..], b"set=576\n", b"set=1152\na="]).to_vec();
    (0..count).for_each(|_| input.extend(random.one_of(&pieces)));
    input
}
