//! The stages of one agreement: each is a compared request that reads what the archive wrote before.

use crate::call::Call;
use crate::comparison::{Comparison, Stop};
use crate::generate::{Generator, Real};
use crate::pipe::Reply;
use crate::set::Set;

/// Makes the requests and compares them.
pub struct Asker {
    pub generator: Generator,
    pub comparison: Comparison,
}

/// "hash outputs lent by the host": who computes the blocks.
pub trait Host {
    fn h_block(&self, message: &[u8]) -> Vec<u8>;
    fn g_block(&self, packed_image: &[u8]) -> Vec<u8>;
}

/// What came of sealing a message and opening it again.
pub struct Outcome {
    /// The G block that the message was sealed with.
    pub sealed_with: Vec<u8>,
    pub real: Real,
    pub message_kept: bool,
    pub key_kept: bool,
    /// What open-3 answered.
    pub last_answer: u64,
    pub all_done: bool,
}

impl Outcome {
    pub fn is_whole(&self) -> bool {
        self.message_kept && self.key_kept && self.all_done
    }
}

impl Asker {
    pub fn step(&mut self, call: Call, set: Set, inputs: &[&[u8]]) -> Result<Reply, Stop> {
        let request = self.generator.with_inputs(call, set, inputs);
        self.comparison.ask(request)
    }

    /// The reply that has the two keys, or nothing if the seed is refused.
    pub fn make_pair(&mut self, set: Set, seed: &[u8]) -> Result<Option<Reply>, Stop> {
        let made = self.step(Call::Make, set, &[seed])?;
        Ok(if made.answer.number == 0 { Some(made) } else { None })
    }

    /// Seals the message and opens it again with a pair that make has made.
    pub fn seal_and_open(&mut self, set: Set, pair: &Reply, message: &[u8], host: &dyn Host) -> Result<Outcome, Stop> {
        let (public_key, private_key) = (pair.content(1), pair.content(2));
        let h_block = host.h_block(message);
        let drawn = self.step(Call::RImage, set, &[&h_block])?;
        let g_block = host.g_block(drawn.content(1));
        let sealed = self.step(Call::Seal, set, &[public_key, message, &h_block, &g_block])?;
        let (ciphertext, sealed_key) = (sealed.content(4), sealed.content(5));

        let first = self.step(Call::Open1, set, &[private_key, ciphertext])?;
        let (marks, image) = (first.content(2), first.content(3));
        let second = self.step(Call::Open2, set, &[marks, &host.g_block(image)])?;
        let opened = second.content(2);
        let third = self.step(Call::Open3, set, &[image, &host.h_block(opened)])?;

        let stages = [&drawn, &sealed, &first, &second, &third];
        Ok(Outcome {
            real: Real {
                public_key: public_key.to_vec(),
                private_key: private_key.to_vec(),
                ciphertext: ciphertext.to_vec(),
            },
            message_kept: opened == message,
            key_kept: third.content(2) == sealed_key,
            last_answer: third.answer.number,
            all_done: stages.iter().all(|stage| stage.answer.number == 0),
            sealed_with: g_block,
        })
    }
}
