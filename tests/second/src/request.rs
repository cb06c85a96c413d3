//! One request: a call, a set number and its buffers, each between two guards that must stay as they are.

use crate::call::Call;
use crate::calls::{f_half, h_half, product, reverse, transform, Answer, Part};
use crate::make::make;
use crate::open::{open_1, open_2, open_3};
use crate::plan::Plan;
use crate::random::Random;
use crate::seal::{r_image, seal};

/// So many bytes stand before and after each buffer.
pub const GUARD: usize = 16;

pub enum Content {
    Numbers(Vec<u16>),
    Bytes(Vec<u8>),
}

pub struct Buffer {
    before: Vec<u8>,
    pub content: Content,
    after: Vec<u8>,
}

impl Buffer {
    pub fn new(content: Content, random: &mut Random) -> Buffer {
        Buffer {
            before: random.bytes(GUARD),
            content,
            after: random.bytes(GUARD),
        }
    }

    /// How many elements it holds.
    pub fn length(&self) -> usize {
        match &self.content {
            Content::Numbers(numbers) => numbers.len(),
            Content::Bytes(bytes) => bytes.len(),
        }
    }

    /// How many bytes it has on the pipe.
    pub fn size(&self) -> usize {
        let content = match &self.content {
            Content::Numbers(numbers) => 2 * numbers.len(),
            Content::Bytes(bytes) => bytes.len(),
        };
        GUARD + content + GUARD
    }

    /// Guard, content and guard, as they go over the pipe.
    pub fn written(&self) -> Vec<u8> {
        let mut whole = self.before.clone();
        match &self.content {
            Content::Numbers(numbers) => numbers.iter().for_each(|number| whole.extend(number.to_le_bytes())),
            Content::Bytes(bytes) => whole.extend(bytes),
        }
        whole.extend(&self.after);
        whole
    }

    fn numbers(&mut self) -> &mut [u16] {
        match &mut self.content {
            Content::Numbers(numbers) => numbers,
            Content::Bytes(_) => unreachable!("the buffer of a list holds numbers"),
        }
    }

    pub fn bytes(&mut self) -> &mut [u8] {
        match &mut self.content {
            Content::Bytes(bytes) => bytes,
            Content::Numbers(_) => unreachable!("only lists hold numbers"),
        }
    }
}

pub struct Request {
    pub call: Call,
    pub set: u64,
    pub buffers: Vec<Buffer>,
}

impl Request {
    /// The request as it goes over the pipe.
    pub fn written(&self) -> Vec<u8> {
        let mut whole = Vec::new();
        whole.extend((self.call as u64).to_le_bytes());
        whole.extend(self.set.to_le_bytes());
        for buffer in &self.buffers {
            whole.extend((buffer.length() as u64).to_le_bytes());
            whole.extend(buffer.written());
        }
        whole
    }
}

/// Runs the model on the request, in the request's own buffers. A half answers with its start and its length.
pub fn answer_by_document(plan: &Plan, request: &mut Request) -> Answer {
    let set = request.set;
    match (request.call, request.buffers.as_mut_slice()) {
        (Call::Product, [a, b, out]) => product(plan, set, a.numbers(), b.numbers(), out.numbers()),
        (Call::Transform, [element, image]) => transform(plan, set, element.numbers(), image.numbers()),
        (Call::Reverse, [image, element]) => reverse(plan, set, image.numbers(), element.numbers()),
        (Call::Make, [seed, public, private]) => make(plan, set, seed.bytes(), public.bytes(), private.bytes()),
        (Call::RImage, [h_block, image]) => r_image(plan, set, h_block.bytes(), image.bytes()),
        (Call::Seal, [public, message, h, g, out, key]) => {
            let (public, message, h, g) = (public.bytes(), message.bytes(), h.bytes(), g.bytes());
            seal(plan, set, public, message, h, g, out.bytes(), key.bytes())
        }
        (Call::Open1, [private, sealed, marks, image]) => {
            let (private, sealed) = (private.bytes(), sealed.bytes());
            open_1(plan, set, private, sealed, marks.bytes(), image.bytes())
        }
        (Call::Open2, [marks, g, message]) => open_2(plan, set, marks.bytes(), g.bytes(), message.bytes()),
        (Call::Open3, [image, h, key]) => open_3(plan, set, image.bytes(), h.bytes(), key.bytes()),
        (Call::FHalf, [key]) => as_answer(f_half(set, key.length())),
        (Call::HHalf, [key]) => as_answer(h_half(set, key.length())),
        _ => unreachable!("a request has the buffers of its call"),
    }
}

fn as_answer(part: Part) -> Answer {
    Answer {
        number: part.start as u64,
        place: part.length as u64,
    }
}
