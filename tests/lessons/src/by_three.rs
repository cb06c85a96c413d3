//! The remainder by 3 taken before centring.

use crate::ring::{alike, open, pair, seal, Fold, Random, Q};

pub fn right(residue: i32) -> i32 {
    by_three(centred(residue))
}

/// The slip: by 3 first. What is left is 0, 1 or 2, and centring does nothing any more.
fn wrong(residue: i32) -> i32 {
    by_three(centred(residue % 3))
}

/// The value in -1728..1728 that is congruent to the residue.
fn centred(residue: i32) -> i32 {
    residue - Q * i32::from(residue > 1728)
}

/// The one of -1, 0 and 1 that differs from the value by a multiple of 3.
fn by_three(value: i32) -> i32 {
    (value + 1).rem_euclid(3) - 1
}

pub fn print() {
    println!("right line: by_three(centred(residue))    wrong line: by_three(centred(residue % 3))");
    println!("THE RUN THAT LOOKS RIGHT: both lines on small positive numbers.");
    let same = |from, to| (from..=to).filter(|&residue| right(residue) == wrong(residue)).count();
    println!("residues 0 to 1728: {} of 1729 alike", same(0, 1728));
    println!("WHAT REALLY HAPPENS: a residue above 1728 stands for a negative number.");
    println!("residues 1729 to 3456: {} of 1728 alike", same(1729, 3456));
    for residue in 1727..=1730 {
        let [centre, x, y] = [centred(residue), right(residue), wrong(residue)];
        println!("{residue} stands for {centre}: right line {x}, wrong line {y}");
    }
    let mut random = Random(576);
    for trial in 1..=5 {
        let (f, h) = pair(Fold::Right, &mut random);
        let [r, m] = [0; 2].map(|_| random.small());
        let c = seal(Fold::Right, &h, &r, &m);
        let [x, y] = [right, wrong].map(|line| alike(&m, &open(Fold::Right, &c, &f, line)));
        println!("opening {trial}, coefficients of m that come back: right line {x} of 576, wrong line {y} of 576");
    }
}
