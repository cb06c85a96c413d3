//! Asks the archive and the model the same, and compares answer, place and every byte of every buffer.

use crate::call::Call;
use crate::calls::Answer;
use crate::pipe::{Archive, Reply};
use crate::plan::Plan;
use crate::request::{answer_by_document, Request, GUARD};
use crate::set::Set;
use crate::tally::Tally;
use std::io;

/// Why no more requests are made.
pub enum Stop {
    Enough,
    Difference { call: Call, set: u64 },
    Broken(io::Error),
}

impl From<io::Error> for Stop {
    fn from(error: io::Error) -> Stop {
        Stop::Broken(error)
    }
}

pub struct Comparison {
    archive: Archive,
    model: Plan,
    limit: u64,
    pub asked: u64,
    pub agreed: u64,
    pub tally: Tally,
    /// How often something went wrong: differing requests, and agreements that were not kept.
    pub complaints: u64,
}

impl Comparison {
    /// At most `limit` requests are made; a model that makes a mistake is asked up to the first difference.
    pub fn new(archive: Archive, model: Plan, limit: u64) -> Comparison {
        Comparison {
            archive,
            model,
            limit,
            asked: 0,
            agreed: 0,
            tally: Tally::default(),
            complaints: 0,
        }
    }

    /// The archive's reply to the request. The model works while the archive does.
    pub fn ask(&mut self, mut request: Request) -> Result<Reply, Stop> {
        if self.asked == self.limit {
            return Err(Stop::Enough);
        }
        self.asked += 1;
        self.archive.send(&request)?;
        let expected = answer_by_document(&self.model, &mut request);
        let reply = self.archive.receive(&request)?;
        match difference(&request, expected, &reply) {
            None => {
                self.agreed += 1;
                self.count(&mut request, expected);
            }
            Some(_) if self.model.mistake.is_some() => {
                return Err(Stop::Difference {
                    call: request.call,
                    set: request.set,
                });
            }
            Some(text) => self.complain(&text),
        }
        Ok(reply)
    }

    /// Prints what went wrong up to the request that was made last.
    pub fn complain(&mut self, text: &str) {
        println!("request {}: {text}", self.asked);
        self.complaints += 1;
    }

    fn count(&mut self, request: &mut Request, answer: Answer) {
        self.tally.count(request.call, request.set, answer);
        if let (Call::Make, 4, Some(set)) = (request.call, answer.number, Set::of(request.set)) {
            self.tally
                .count_zero_slots(&self.model, set, request.buffers[0].bytes());
        }
    }

    pub fn stop(self) -> io::Result<()> {
        self.archive.stop()
    }
}

/// What differs between the request as the model left it and the reply, if anything does.
fn difference(request: &Request, expected: Answer, reply: &Reply) -> Option<String> {
    let first = first_difference(request, reply);
    if first.is_none() && expected == reply.answer {
        return None;
    }
    let lengths: Vec<usize> = request.buffers.iter().map(|buffer| buffer.length()).collect();
    Some(format!(
        "{} set {} lengths {lengths:?}: by the document ({}, {}), by the archive ({}, {}); {}",
        request.call.name(),
        request.set,
        expected.number,
        expected.place,
        reply.answer.number,
        reply.answer.place,
        first.unwrap_or_else(|| "all buffers agree".to_string()),
    ))
}

/// The first byte that differs, counted from the first byte of its buffer's content.
fn first_difference(request: &Request, reply: &Reply) -> Option<String> {
    for (place, row) in request.call.rows().iter().enumerate() {
        let (expected, found) = (request.buffers[place].written(), &reply.buffers[place]);
        if let Some(at) = expected.iter().zip(found).position(|(left, right)| left != right) {
            let byte = match at {
                _ if at < GUARD => format!("byte {at} of the guard before"),
                _ if at >= expected.len() - GUARD => format!("byte {} of the guard after", at + GUARD - expected.len()),
                _ => format!("byte {} of", at - GUARD),
            };
            return Some(format!(
                "{byte} the {}: expected {:02X}, found {:02X}",
                row.name, expected[at], found[at]
            ));
        }
    }
    None
}
