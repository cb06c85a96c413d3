//! Compares the archive behind a pipe with the model, request by request.
//!
//! `compare requests COUNT SEED COMMAND...` makes so many requests; nothing may differ.
//! `compare mistakes SEED COMMAND...` plants each mistake in the model; each has to make a difference.

use second::comparison::{Comparison, Stop};
use second::mistakes::{Mistake, MISTAKES};
use second::pipe::Archive;
use second::plan::Plan;
use second::rotation::Rotation;
use std::process::ExitCode;

const USAGE: &str = "usage: compare requests COUNT SEED COMMAND...\n       compare mistakes SEED COMMAND...";

/// From so many requests on, every answer must have been met often enough.
const FULL_ROTATION: u64 = 2000;

fn main() -> ExitCode {
    let words: Vec<String> = std::env::args().skip(1).collect();
    let number = |place: usize| words.get(place).and_then(|word| word.parse().ok());
    match (words.first().map(String::as_str), number(1), number(2)) {
        (Some("requests"), Some(count), Some(seed)) if words.len() > 3 => requests(count, seed, &words[3..]),
        (Some("mistakes"), Some(seed), _) if words.len() > 2 => mistakes(seed, &words[2..]),
        _ => {
            eprintln!("{USAGE}");
            ExitCode::from(2)
        }
    }
}

/// The rotation up to its end, or nothing if the command cannot be started.
fn run(limit: u64, seed: u64, mistake: Option<Mistake>, command: &[String]) -> Option<(Rotation, Stop)> {
    let archive = match Archive::start(command) {
        Ok(archive) => archive,
        Err(error) => {
            println!("{}: {error}", command[0]);
            return None;
        }
    };
    let mut rotation = Rotation::new(seed, Comparison::new(archive, Plan::new(mistake), limit));
    let stop = rotation.run();
    Some((rotation, stop))
}

fn requests(count: u64, seed: u64, command: &[String]) -> ExitCode {
    let (rotation, stop) = match run(count, seed, None, command) {
        Some(ended) => ended,
        None => return last_line(0, 1),
    };
    let Rotation {
        asker,
        edges,
        agreements,
        ..
    } = rotation;
    let comparison = asker.comparison;
    println!("seed {seed}, {} requests", comparison.asked);
    comparison.tally.print();
    for (set, times) in &agreements {
        println!("agreements in set {set}: {times}");
    }
    edges.print();

    let (agreed, mut failed) = (comparison.agreed, comparison.complaints);
    if let Stop::Broken(error) = &stop {
        println!(
            "the archive gave no whole reply to request {}: {error}",
            comparison.asked
        );
        failed += 1;
    }
    if count >= FULL_ROTATION {
        let seldom = comparison.tally.seldom();
        seldom.iter().for_each(|line| println!("{line}"));
        failed += seldom.len() as u64;
    }
    failed += end(comparison);
    last_line(agreed, failed)
}

fn mistakes(seed: u64, command: &[String]) -> ExitCode {
    let (mut caught, mut missed) = (0, 0);
    for mistake in MISTAKES {
        println!("planted: {}: {}", mistake.name(), mistake.sentence());
        let (rotation, stop) = match run(FULL_ROTATION, seed, Some(mistake), command) {
            Some(ended) => ended,
            None => return last_line(caught, MISTAKES.len() as u64 - caught),
        };
        let asked = rotation.asker.comparison.asked;
        match stop {
            Stop::Difference { call, set } => {
                println!(
                    "caught: {} after {asked} requests, by {} set {set}",
                    mistake.name(),
                    call.name()
                );
                caught += 1;
            }
            Stop::Enough => {
                println!("NOT caught: {}", mistake.name());
                missed += 1;
            }
            Stop::Broken(error) => {
                println!("the archive gave no whole reply to request {asked}: {error}");
                missed += 1;
            }
        }
        missed += end(rotation.asker.comparison);
    }
    last_line(caught, missed)
}

/// Ends the archive; 1 if it did not end well.
fn end(comparison: Comparison) -> u64 {
    match comparison.stop() {
        Ok(()) => 0,
        Err(error) => {
            println!("the archive did not end: {error}");
            1
        }
    }
}

fn last_line(passed: u64, failed: u64) -> ExitCode {
    println!("{passed} passed, {failed} failed");
    ExitCode::from(u8::from(failed > 0))
}
