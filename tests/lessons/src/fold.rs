//! The fold with a wrong sign: x^n taken for -x^(n/2) - 1. The right line and the wrong one stand in `ring::fold`.

use crate::by_three;
use crate::ring::Fold::{Right, Wrong};
use crate::ring::{alike, open, pair, poly, product, seal, Fold, Random, N};

pub fn print() {
    println!("right line: x^n = x^(n/2) - 1    wrong line: x^n = -x^(n/2) - 1    (n = 576)");
    println!("THE RUN THAT LOOKS RIGHT: a product that is tested, and two units with the wrong line that agree.");
    print_product(287, 288);
    println!("opener wrong, sealer wrong: {}", agreements(Wrong, Wrong));
    println!(
        "WHAT REALLY HAPPENS: other products differ, and units of which one alone has the wrong line do not agree."
    );
    print_product(575, 1);
    print_product(432, 432);
    print_product(575, 575);
    println!("opener right, sealer right: {}", agreements(Right, Right));
    println!("opener right, sealer wrong: {}", agreements(Right, Wrong));
    println!("opener wrong, sealer right: {}", agreements(Wrong, Right));
}

fn print_product(i: usize, j: usize) {
    let [x, y] = [Right, Wrong].map(|how| product_text(how, i, j));
    println!("x^{i} * x^{j}: right line {x}, wrong line {y}");
}

/// The product of x^i and x^j, its terms by rising degree.
pub fn product_text(how: Fold, i: usize, j: usize) -> String {
    let [a, b] = [i, j].map(|degree| poly(|k| i32::from(k == degree)));
    let c = product(how, &a, &b);
    let term = |k: usize| match (c[k], k) {
        (value, 0) => value.to_string(),
        (1, _) => format!("x^{k}"),
        (value, _) => format!("{value}x^{k}"),
    };
    let terms: Vec<String> = (0..N).filter(|&k| c[k] != 0).map(term).collect();
    terms.join(" + ")
}

fn agreements(opener: Fold, sealer: Fold) -> String {
    let mut random = Random(576);
    let (mut whole, mut same) = (0, 0);
    for _ in 0..10 {
        let (f, h) = pair(opener, &mut random);
        let [r, m] = [0; 2].map(|_| random.small());
        let back = open(opener, &seal(sealer, &h, &r, &m), &f, by_three::right);
        whole += usize::from(back == m);
        same += alike(&back, &m);
    }
    format!("m comes back in {whole} of 10 agreements, {same} of 5760 coefficients")
}
