//! The fixed rotation over calls, sets and kinds of request.
//!
//! A round has one request of each call, and every other round an edge case or an agreement after them. A call takes
//! its kinds in turn: a good request, each fault that it can have, and several faults in one.

use crate::agreement::agree;
use crate::call::{Call, CALLS};
use crate::comparison::{Comparison, Stop};
use crate::edge::Edges;
use crate::faults::{faults, plant, Fault};
use crate::generate::Generator;
use crate::request::Request;
use crate::set::{Set, SET_1152, SET_576};
use crate::stages::Asker;
use std::collections::BTreeMap;

pub struct Rotation {
    pub asker: Asker,
    pub edges: Edges,
    /// Agreements that came to their end, by set number.
    pub agreements: BTreeMap<u64, u64>,
    /// How often a call has had a kind of request in a set, so that each time another way is taken.
    turns: BTreeMap<(Call, usize, u64), usize>,
}

impl Rotation {
    pub fn new(seed: u64, comparison: Comparison) -> Rotation {
        let asker = Asker {
            generator: Generator::new(seed),
            comparison,
        };
        Rotation {
            asker,
            edges: Edges::default(),
            agreements: BTreeMap::new(),
            turns: BTreeMap::new(),
        }
    }

    /// Makes requests until the comparison stops.
    pub fn run(&mut self) -> Stop {
        let mut round = 0;
        loop {
            if let Err(stop) = self.round(round) {
                return stop;
            }
            round += 1;
        }
    }

    fn round(&mut self, round: usize) -> Result<(), Stop> {
        for call in CALLS {
            let request = self.request(call, round);
            self.asker.comparison.ask(request)?;
        }
        match round % 4 {
            1 => self.edges.run(round / 4, &mut self.asker),
            3 => self.agreement(round / 4),
            _ => Ok(()),
        }
    }

    fn agreement(&mut self, number: usize) -> Result<(), Stop> {
        let set = one_of_two(number % 2 == 1);
        agree(&mut self.asker, set)?;
        *self.agreements.entry(set.number()).or_default() += 1;
        Ok(())
    }

    /// The call's request of that round.
    fn request(&mut self, call: Call, round: usize) -> Request {
        let faults = faults(call);
        let kinds = 1 + faults.len() + 1;
        let (kind, cycle) = (round % kinds, round / kinds);
        let fault = kind.checked_sub(1).and_then(|place| faults.get(place)).copied();
        // a request that is worked on to the end costs much more in set 1152, so that one in three has to do
        let worked_on = kind == 0 || matches!(fault, Some(Fault::ZeroSlot | Fault::OtherImage));
        let set = one_of_two(if worked_on { cycle % 3 == 1 } else { cycle % 2 == 1 });

        let turns = self.turns.entry((call, kind, set.number())).or_default();
        let turn = *turns;
        *turns += 1;
        let generator = &mut self.asker.generator;
        let mut request = generator.good(call, set);
        match fault {
            Some(fault) => plant(fault, turn, &mut request, generator),
            None if kind == 0 => {}
            None => plant_several(faults, &mut request, generator),
        }
        request
    }
}

fn one_of_two(larger: bool) -> Set {
    if larger {
        SET_1152
    } else {
        SET_576
    }
}

/// Two faults or more: they show which test comes first.
fn plant_several(faults: &[Fault], request: &mut Request, generator: &mut Generator) {
    let mut chosen: Vec<Fault> = Vec::new();
    while chosen.len() < 2 {
        // an unknown set hides all other faults, and so it is taken less often
        let taken = |fault: &Fault| match fault {
            Fault::UnknownSet => generator.random.once_in(3),
            _ => !generator.random.once_in(3),
        };
        chosen = faults.iter().copied().filter(taken).collect();
    }
    for fault in chosen {
        let turn = generator.random.below(1000);
        plant(fault, turn, request, generator);
    }
}
