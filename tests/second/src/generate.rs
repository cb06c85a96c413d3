//! Random requests that nothing is wrong with, and the stock of what they are made of.

use crate::call::Call;
use crate::packing::pack;
use crate::plan::Plan;
use crate::random::Random;
use crate::request::{Buffer, Content, Request};
use crate::seal::r_image;
use crate::set::Set;
use crate::table::{Holds, Row};
use std::collections::BTreeMap;

/// Keys and a ciphertext that an agreement left behind.
pub struct Real {
    pub public_key: Vec<u8>,
    pub private_key: Vec<u8>,
    pub ciphertext: Vec<u8>,
}

pub struct Generator {
    pub random: Random,
    /// The model that makes no mistake: it makes the images that are lent.
    pub correct: Plan,
    /// The last of each set.
    real: BTreeMap<u64, Real>,
}

impl Generator {
    pub fn new(seed: u64) -> Generator {
        Generator {
            random: Random::new(seed),
            correct: Plan::new(None),
            real: BTreeMap::new(),
        }
    }

    pub fn remember(&mut self, set: Set, real: Real) {
        self.real.insert(set.number(), real);
    }

    /// A request that only make may refuse, for a zero slot.
    pub fn good(&mut self, call: Call, set: Set) -> Request {
        let buffers = call.rows().iter().map(|row| self.buffer(row, set)).collect();
        let mut request = Request {
            call,
            set: set.number(),
            buffers,
        };
        match call {
            Call::Seal | Call::Open1 => self.lend_real(&mut request),
            Call::Open3 => self.lend_right_image(&mut request),
            _ => {}
        }
        request
    }

    /// A request with these inputs.
    pub fn with_inputs(&mut self, call: Call, set: Set, inputs: &[&[u8]]) -> Request {
        let mut request = Request {
            call,
            set: set.number(),
            buffers: Vec::new(),
        };
        for (place, row) in call.rows().iter().enumerate() {
            let buffer = match inputs.get(place) {
                Some(input) => Buffer::new(Content::Bytes(input.to_vec()), &mut self.random),
                None => self.buffer(row, set),
            };
            request.buffers.push(buffer);
        }
        request
    }

    /// A buffer of the right length. One that is written holds anything before.
    fn buffer(&mut self, row: &Row, set: Set) -> Buffer {
        let length = (row.length)(set);
        let content = match (row.holds, row.written) {
            (Holds::Numbers, true) => Content::Numbers((0..length).map(|_| self.random.number() as u16).collect()),
            (Holds::Numbers, false) => Content::Numbers(self.list(length)),
            (Holds::Groups, false) => Content::Bytes(self.packed_residues(length)),
            (Holds::Marks, false) => Content::Bytes((0..length).map(|_| self.random.below(3) as u8).collect()),
            (Holds::Bytes, false) => Content::Bytes(self.block(length)),
            _ => Content::Bytes(self.random.bytes(length)),
        };
        Buffer::new(content, &mut self.random)
    }

    /// Dense lists mostly, and now and then few terms, largest terms or none.
    fn list(&mut self, length: usize) -> Vec<u16> {
        match self.random.below(8) {
            0 => vec![0; length],
            1 => vec![3456; length],
            2 | 3 => {
                let mut list = vec![0; length];
                for _ in 0..1 + self.random.below(4) {
                    list[self.random.below(length)] = self.random.one_of(&[1, 2, 3456]);
                }
                list
            }
            _ => (0..length).map(|_| self.random.residue()).collect(),
        }
    }

    /// Random bytes mostly, and now and then bytes with few ones.
    fn block(&mut self, length: usize) -> Vec<u8> {
        if !self.random.once_in(4) {
            return self.random.bytes(length);
        }
        let mut block = vec![0; length];
        for _ in 0..self.random.below(8) {
            block[self.random.below(length)] |= 1 << self.random.below(8);
        }
        block
    }

    pub fn packed_residues(&mut self, length: usize) -> Vec<u8> {
        let residues: Vec<u16> = (0..length / 3 * 2).map(|_| self.random.residue()).collect();
        let mut bytes = vec![0; length];
        pack(&residues, &mut bytes);
        bytes
    }

    /// Every other time the keys that an agreement left behind, and half of these with its ciphertext.
    fn lend_real(&mut self, request: &mut Request) {
        let real = match self.real.get(&request.set) {
            Some(real) if self.random.once_in(2) => real,
            _ => return,
        };
        if request.call == Call::Seal {
            request.buffers[0].bytes().copy_from_slice(&real.public_key);
            return;
        }
        request.buffers[0].bytes().copy_from_slice(&real.private_key);
        if self.random.once_in(2) {
            request.buffers[1].bytes().copy_from_slice(&real.ciphertext);
        }
    }

    /// The image that open-3 takes the key for.
    fn lend_right_image(&mut self, request: &mut Request) {
        if let [image, h_block, _] = request.buffers.as_mut_slice() {
            r_image(&self.correct, request.set, h_block.bytes(), image.bytes());
        }
    }
}
