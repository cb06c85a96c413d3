//! Two ways to do the same thing, timed in turns in one run, so that what else the machine does falls on both.
use std::hint::black_box;
use std::time::{Duration, Instant};

/// Turns of each of the two.
const TURNS: usize = 21;
/// How long a turn lasts at least.
const TURN: Duration = Duration::from_millis(4);

pub struct Row {
    pub name: &'static str,
    pub n: usize,
    /// Microseconds for one go, the median of the turns.
    pub proved: f64,
    pub ordinary: f64,
}

impl Row {
    pub fn ratio(&self) -> f64 {
        self.proved / self.ordinary
    }
}

pub fn measure<T, U>(
    name: &'static str,
    n: usize,
    mut proved: impl FnMut() -> T,
    mut ordinary: impl FnMut() -> U,
) -> Row {
    let goes = enough(&mut proved).max(enough(&mut ordinary));
    let (mut first, mut second) = (Vec::new(), Vec::new());
    for _ in 0..TURNS {
        first.push(timed(goes, &mut proved));
        second.push(timed(goes, &mut ordinary));
    }
    Row {
        name,
        n,
        proved: median(first),
        ordinary: median(second),
    }
}

/// How many goes a turn takes.
fn enough<T>(go: &mut impl FnMut() -> T) -> u32 {
    let mut goes = 1;
    while timed(goes, go) * f64::from(goes) < TURN.as_secs_f64() * 1e6 {
        goes *= 2;
    }
    goes
}

fn timed<T>(goes: u32, go: &mut impl FnMut() -> T) -> f64 {
    let start = Instant::now();
    for _ in 0..goes {
        black_box(go());
    }
    start.elapsed().as_secs_f64() * 1e6 / f64::from(goes)
}

fn median(mut times: Vec<f64>) -> f64 {
    times.sort_by(f64::total_cmp);
    times[times.len() / 2]
}
