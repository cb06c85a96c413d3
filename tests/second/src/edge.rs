//! Cases at the edge of demand 3's range: the coefficient farthest from 0 of 3(g'r + mf') + m is a chosen number.

use crate::comparison::Stop;
use crate::drawing::draw;
use crate::set::{Set, SET_1152, SET_576};
use crate::stages::{Asker, Host, Outcome};
use crate::whole::{Blocks, RANGE};
use std::collections::BTreeMap;

/// Just inside, at the edge, just outside and far outside.
const TARGETS: [i32; 6] = [1727, 1728, 1729, 1730, 1800, 2500];

/// A host whose blocks are the same at both ends, whatever is hashed.
struct FixedHost<'a> {
    blocks: &'a Blocks,
}

impl Host for FixedHost<'_> {
    fn h_block(&self, _message: &[u8]) -> Vec<u8> {
        self.blocks.h_block.clone()
    }

    fn g_block(&self, _packed_image: &[u8]) -> Vec<u8> {
        self.blocks.g_block.clone()
    }
}

#[derive(Default)]
struct Counts {
    cases: u64,
    message_kept: u64,
    key_taken: u64,
    key_refused: u64,
}

/// What came of the cases, by set number and chosen coefficient.
#[derive(Default)]
pub struct Edges {
    counts: BTreeMap<(u64, i32), Counts>,
}

impl Edges {
    /// The case of that number in a fixed rotation over both sets, all targets and both signs.
    pub fn run(&mut self, number: usize, asker: &mut Asker) -> Result<(), Stop> {
        let set = if number % 2 == 0 { SET_576 } else { SET_1152 };
        let sign = if number / 2 % 2 == 0 { 1 } else { -1 };
        let target = sign * TARGETS[number / 4 % TARGETS.len()];
        let blocks = draw(set, target, &mut asker.generator);
        if let Some(pair) = asker.make_pair(set, &blocks.seed)? {
            let outcome = asker.seal_and_open(set, &pair, &blocks.message, &FixedHost { blocks: &blocks })?;
            self.count(set, target, &outcome, asker);
        }
        Ok(())
    }

    /// In range, message and key have to be kept; beyond, what comes is only counted.
    fn count(&mut self, set: Set, target: i32, outcome: &Outcome, asker: &mut Asker) {
        let counts = self.counts.entry((set.number(), target)).or_default();
        counts.cases += 1;
        counts.message_kept += u64::from(outcome.message_kept);
        counts.key_taken += u64::from(outcome.last_answer == 0);
        counts.key_refused += u64::from(outcome.last_answer == 6);
        if target.abs() <= RANGE && !outcome.is_whole() {
            asker
                .comparison
                .complain(&format!("edge case {target} in set {}: message or key not kept", set.n));
        }
    }

    pub fn print(&self) {
        println!("edge cases by the coefficient of 3(g'r + mf') + m that is farthest from 0:");
        println!(
            "{:>6}{:>9}{:>7}{:>14}{:>11}{:>13}",
            "set", "farthest", "cases", "message kept", "key taken", "key refused"
        );
        for ((set, target), counts) in &self.counts {
            let Counts {
                cases,
                message_kept,
                key_taken,
                key_refused,
            } = counts;
            println!("{set:>6}{target:>9}{cases:>7}{message_kept:>14}{key_taken:>11}{key_refused:>13}");
        }
    }
}
