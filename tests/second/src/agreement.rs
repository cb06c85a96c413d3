//! Agreements from end to end, with a toy hash in the host's place.

use crate::comparison::Stop;
use crate::random::Random;
use crate::set::Set;
use crate::stages::{Asker, Host};
use crate::whole::{demand_of_blocks, farthest, Blocks, RANGE};

struct ToyHost {
    set: Set,
}

impl Host for ToyHost {
    fn h_block(&self, message: &[u8]) -> Vec<u8> {
        expanded(message, self.set.h_block())
    }

    fn g_block(&self, packed_image: &[u8]) -> Vec<u8> {
        expanded(packed_image, self.set.g_block())
    }
}

/// A fixed number of bytes that hang on every byte of the input: enough for a test, and no hash.
fn expanded(input: &[u8], length: usize) -> Vec<u8> {
    let seed = input
        .iter()
        .fold(0, |seed, &byte| Random::new(seed ^ u64::from(byte)).number());
    Random::new(seed).bytes(length)
}

/// Makes a pair, seals a random message and opens it; both ends must then have the same message and key.
pub fn agree(asker: &mut Asker, set: Set) -> Result<(), Stop> {
    let (seed, pair) = loop {
        let seed = asker.generator.random.bytes(set.seed());
        // make refuses a block with a zero slot, and the host draws another
        if let Some(pair) = asker.make_pair(set, &seed)? {
            break (seed, pair);
        }
    };
    let host = ToyHost { set };
    let message = asker.generator.random.bytes(set.message());
    let outcome = asker.seal_and_open(set, &pair, &message, &host)?;

    let h_block = host.h_block(&message);
    let whole = outcome.is_whole();
    let blocks = Blocks {
        set,
        seed,
        message,
        h_block,
        g_block: outcome.sealed_with,
    };
    let largest = farthest(&demand_of_blocks(&asker.generator.correct, &blocks));
    if largest.abs() > RANGE {
        asker
            .comparison
            .complain(&format!("agreement in set {}: random blocks reach {largest}", set.n));
    } else if !whole {
        asker
            .comparison
            .complain(&format!("agreement in set {}: message or key not kept", set.n));
    }
    asker.generator.remember(set, outcome.real);
    Ok(())
}
