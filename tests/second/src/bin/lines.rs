//! Compares what a ringline program prints with the model's reading, input by input.
//!
//! `lines COUNT SEED COMMAND...` starts the command once for each input.

use second::inputs::input;
use second::reading::ringline;
use std::collections::BTreeMap;
use std::io::{self, Write};
use std::process::{Command, ExitCode, Stdio};
use std::thread;

/// So many programs run at a time.
const WORKERS: usize = 2;

/// From so many inputs on, each of these must have been met often enough.
const FULL_ROTATION: usize = 1000;
const LEAST: u64 = 20;
const EXPECTED: [&str; 7] = [
    "code=0 place=0",
    "code=1 place=0",
    "code=7 place=0",
    "code=7 place=1",
    "code=7 place=2",
    "code=7 place=3",
    "code=7 place=4",
];

/// What is kept of one input: its code and place, and what differed.
struct Checked {
    met: String,
    difference: Option<String>,
}

fn main() -> ExitCode {
    let words: Vec<String> = std::env::args().skip(1).collect();
    let count = words.first().and_then(|word| word.parse().ok());
    let seed = words.get(1).and_then(|word| word.parse().ok());
    match (count, seed) {
        (Some(count), Some(seed)) if words.len() > 2 => report(count, seed, &check_all(count, seed, &words[2..])),
        _ => {
            eprintln!("usage: lines COUNT SEED COMMAND...");
            ExitCode::from(2)
        }
    }
}

/// Each worker takes every second input; the results stand in the order of the inputs.
fn check_all(count: usize, seed: u64, command: &[String]) -> Vec<Checked> {
    let share = |first: usize| -> Vec<Checked> {
        (first..count)
            .step_by(WORKERS)
            .map(|number| check(number, seed, command))
            .collect()
    };
    let mut shares: Vec<_> = thread::scope(|scope| {
        let workers: Vec<_> = (0..WORKERS).map(|first| scope.spawn(move || share(first))).collect();
        workers
            .into_iter()
            .map(|worker| worker.join().expect("a worker ends").into_iter())
            .collect()
    });
    (0..count)
        .filter_map(|number| shares[number % WORKERS].next())
        .collect()
}

fn check(number: usize, seed: u64, command: &[String]) -> Checked {
    let input = input(seed, number as u64);
    let expected = ringline(&input);
    let text = String::from_utf8_lossy(&expected);
    let met = text.lines().take(2).collect::<Vec<&str>>().join(" ");
    let difference = match printed(command, &input) {
        Ok(found) if found == expected => None,
        Ok(found) => {
            let same = expected
                .iter()
                .zip(&found)
                .take_while(|(left, right)| left == right)
                .count();
            let (wanted, came) = (shown(&expected[same..]), shown(&found[same..]));
            Some(format!("after {same} bytes expected {wanted}, printed {came}"))
        }
        Err(error) => Some(format!("no output: {error}")),
    };
    let difference = difference.map(|text| format!("input {number}, {} bytes, {}: {text}", input.len(), shown(&input)));
    Checked { met, difference }
}

/// What the command prints for the input.
fn printed(command: &[String], input: &[u8]) -> io::Result<Vec<u8>> {
    let mut program = Command::new(&command[0]);
    let mut child = program
        .args(&command[1..])
        .stdin(Stdio::piped())
        .stdout(Stdio::piped())
        .spawn()?;
    if let Some(mut to) = child.stdin.take() {
        match to.write_all(input) {
            // a program need not read more than tells it that the input is too long
            Err(error) if error.kind() != io::ErrorKind::BrokenPipe => return Err(error),
            _ => {}
        }
    }
    Ok(child.wait_with_output()?.stdout)
}

/// The beginning of some bytes, in one line.
fn shown(bytes: &[u8]) -> String {
    let start = &bytes[..bytes.len().min(80)];
    format!("\"{}\"", start.escape_ascii())
}

fn report(count: usize, seed: u64, checked: &[Checked]) -> ExitCode {
    println!("seed {seed}, {count} inputs");
    let mut met: BTreeMap<&str, u64> = BTreeMap::new();
    for one in checked {
        *met.entry(&one.met).or_default() += 1;
    }
    met.iter().for_each(|(answer, times)| println!("{answer}: {times}"));
    let differing: Vec<&String> = checked.iter().filter_map(|one| one.difference.as_ref()).collect();
    differing.iter().for_each(|text| println!("{text}"));

    let mut failed = differing.len();
    if count >= FULL_ROTATION {
        for answer in EXPECTED {
            if met.get(answer).copied().unwrap_or(0) < LEAST {
                println!("met too seldom: {answer}");
                failed += 1;
            }
        }
    }
    println!("{} passed, {failed} failed", checked.len() - differing.len());
    ExitCode::from(u8::from(failed > 0))
}
