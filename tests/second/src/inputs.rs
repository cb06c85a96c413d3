//! Inputs for ringline: good ones, and those with something wrong in a line.

use crate::arrange;
use crate::random::Random;

/// The input of that number in a fixed rotation over the kinds.
pub fn input(seed: u64, number: u64) -> Vec<u8> {
    // mixed twice, so that neighbours share nothing
    let mixed = Random::new(Random::new(seed).number() ^ number).number();
    let random = &mut Random::new(mixed);
    match number % 10 {
        0 | 1 => Draft::good(random).written(),
        2 => with_set(&unknown_set(random), random),
        3 => with_set(&misspelt_set(random), random),
        4 => with_bad_term(0, random),
        5 => with_bad_term(1, random),
        6 => arrange::damaged(Draft::good(random).written(), random),
        7 => arrange::rearranged(Draft::good(random), random),
        8 => arrange::long(random),
        _ => arrange::any_bytes(random),
    }
}

/// Three lines before they are put together.
pub struct Draft {
    pub set: String,
    pub polynomials: [Vec<String>; 2],
}

impl Draft {
    pub fn good(random: &mut Random) -> Draft {
        // products in set 1152 cost most
        let n = random.one_of(&[576, 576, 576, 1152]);
        let polynomials = [0, 1].map(|_| terms(n, random));
        Draft {
            set: n.to_string(),
            polynomials,
        }
    }

    pub fn lines(&self) -> [String; 3] {
        let [a, b] = &self.polynomials;
        [
            format!("set={}\n", self.set),
            format!("a={}\n", a.join(",")),
            format!("b={}\n", b.join(",")),
        ]
    }

    pub fn written(&self) -> Vec<u8> {
        self.lines().concat().into_bytes()
    }
}

/// No terms, few of them, all of them, or the largest of them.
fn terms(n: usize, random: &mut Random) -> Vec<String> {
    let spacing = random.one_of(&[1, 2, 50, n / 2, n]);
    let largest = random.once_in(4);
    let mut terms = Vec::new();
    for index in 0..n {
        if random.once_in(spacing) {
            let value = if largest { 3456 } else { 1 + random.below(3456) };
            terms.push(format!("{index}:{value}"));
        }
    }
    terms
}

fn with_set(set: &str, random: &mut Random) -> Vec<u8> {
    let mut draft = Draft::good(random);
    draft.set = set.to_string();
    draft.written()
}

fn unknown_set(random: &mut Random) -> String {
    let any = random.below(100_000) | 1;
    random
        .one_of(&[0, 1, 575, 577, 768, 864, 1151, 1153, 66_112, 99_999, any])
        .to_string()
}

fn misspelt_set(random: &mut Random) -> String {
    let set = random.one_of(&["576", "1152", "0"]);
    let other = random.one_of(&[
        "", "-1", "+576", " 576", "576 ", "576\r", "5_76", "0x240", "576.", "=576", "six",
    ]);
    if random.once_in(2) {
        grown(set, random)
    } else {
        other.to_string()
    }
}

/// The number with a zero before it, with too many digits, or more than 16, 32 or 64 bits hold.
fn grown(number: &str, random: &mut Random) -> String {
    let value: u128 = number.parse().unwrap_or(0);
    match random.below(5) {
        0 => format!("0{number}"),
        1 => format!("{number}00000"),
        2 => (value + (1 << 16)).to_string(),
        3 => (value + (1 << 32)).to_string(),
        _ => (value + (1 << 64)).to_string(),
    }
}

/// A good input but for one term of line 2 or line 3.
fn with_bad_term(polynomial: usize, random: &mut Random) -> Vec<u8> {
    let mut draft = Draft::good(random);
    let n = draft.set.clone();
    let terms = &mut draft.polynomials[polynomial];
    if terms.is_empty() {
        terms.push("5:7".to_string());
    }
    let place = random.below(terms.len());
    let term = terms[place].clone();
    let (index, value) = term.split_once(':').unwrap_or(("", ""));
    match random.below(13) {
        0 | 1 => terms[place] = format!("{}:{value}", grown(index, random)),
        2 | 3 => terms[place] = format!("{index}:{}", grown(value, random)),
        4 => terms[place] = format!("{n}:{value}"),
        5 => terms.insert(place, term),
        6 => terms.push(term),
        7 => terms[place] = format!("{index}:0"),
        8 => terms[place] = format!("{index}:3457"),
        9 => terms[place] = index.to_string(),
        10 => terms[place] = format!("{term}:1"),
        11 => terms.insert(place, String::new()),
        _ => terms[place] = random.one_of(&[" ", "+", "-", "\r", "\t", "\0", "x", ":"]).to_string() + &term,
    }
    draft.written()
}
