//! How often each call gave each answer, in which set.

use crate::call::{Call, CALLS};
use crate::calls::Answer;
use crate::make::zero_slots;
use crate::plan::Plan;
use crate::set::Set;
use std::collections::BTreeMap;

/// In set 576, in set 1152, and with any other set number.
type Counts = [u64; 3];

const LEAST_IN_ALL: u64 = 20;
const LEAST_IN_EACH_SET: u64 = 5;

#[derive(Default)]
pub struct Tally {
    counts: BTreeMap<(Call, u64), Counts>,
    /// Makes that were refused with 4: a zero slot in f alone, in g alone, in both.
    zero_slots: [u64; 3],
}

impl Tally {
    pub fn count(&mut self, call: Call, set: u64, answer: Answer) {
        let number = if call.is_half() {
            u64::from(answer.place == 0)
        } else {
            answer.number
        };
        let column = match set {
            576 => 0,
            1152 => 1,
            _ => 2,
        };
        self.counts.entry((call, number)).or_default()[column] += 1;
    }

    /// Which of f and g has the zero slot that make refused.
    pub fn count_zero_slots(&mut self, plan: &Plan, set: Set, seed: &[u8]) {
        match zero_slots(plan, set, seed) {
            [Some(_), None] => self.zero_slots[0] += 1,
            [None, Some(_)] => self.zero_slots[1] += 1,
            _ => self.zero_slots[2] += 1,
        }
    }

    pub fn print(&self) {
        println!("{:<10}{:>8}{:>8}{:>8}{:>8}", "call", "answer", "576", "1152", "other");
        for (call, number) in possible() {
            let [small, large, other] = self.counts_of(call, number);
            println!(
                "{:<10}{:>8}{small:>8}{large:>8}{other:>8}",
                call.name(),
                label(call, number)
            );
        }
        let [f, g, both] = self.zero_slots;
        println!("make refused with 4: zero slots in f alone {f}, in g alone {g}, in both {both}");
    }

    /// A line for each answer that was not met often enough.
    pub fn seldom(&self) -> Vec<String> {
        let often = |call: Call, number: u64| {
            let counts = self.counts_of(call, number);
            // an unknown set is neither of the two
            let unknown = number == 1 && !call.is_half();
            let in_each_set = counts[..2].iter().all(|&met| met >= LEAST_IN_EACH_SET);
            counts.iter().sum::<u64>() >= LEAST_IN_ALL && (unknown || in_each_set)
        };
        let seldom = possible().filter(|&(call, number)| !often(call, number));
        seldom
            .map(|(call, number)| format!("met too seldom: {} answering {}", call.name(), label(call, number)))
            .collect()
    }

    fn counts_of(&self, call: Call, number: u64) -> Counts {
        self.counts.get(&(call, number)).copied().unwrap_or_default()
    }
}

/// Every call with every number that it can answer.
fn possible() -> impl Iterator<Item = (Call, u64)> {
    CALLS
        .into_iter()
        .flat_map(|call| call.answers().iter().map(move |&number| (call, number)))
}

fn label(call: Call, number: u64) -> String {
    match (call.is_half(), number) {
        (true, 0) => "handed".to_string(),
        (true, _) => "empty".to_string(),
        _ => number.to_string(),
    }
}
