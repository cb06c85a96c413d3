//! Exclusive or set as plus, in the encoding of a message bit.

use crate::by_three;
use crate::ring::{alike, open, pair, poly, seal, Fold, Random, N};

type Line = fn(i32, i32, i32) -> i32;

pub fn right(message: i32, first: i32, second: i32) -> i32 {
    (message ^ first) - second
}

/// The slip: 1 and 1 give 2.
fn wrong(message: i32, first: i32, second: i32) -> i32 {
    (message + first) - second
}

pub fn decode(coefficient: i32, first: i32, second: i32) -> i32 {
    (coefficient + second).rem_euclid(2) ^ first
}

pub fn print() {
    println!("right line: (message ^ first) - second    wrong line: (message + first) - second");
    println!("THE RUN THAT LOOKS RIGHT: every bit is encoded and decoded.");
    println!("message  first  second  right  decoded  wrong  decoded");
    for i in 0..8 {
        let [message, first, second] = [i / 4, i / 2 % 2, i % 2];
        let [x, y] = [right, wrong].map(|line: Line| line(message, first, second));
        let [a, b] = [x, y].map(|coefficient| decode(coefficient, first, second));
        println!("{message:7}{first:7}{second:8}{x:7}{a:9}{y:7}{b:9}");
    }
    println!("WHAT REALLY HAPPENS: a coefficient has to be -1, 0 or 1, since opening finds it by its remainder by 3.");
    let sealed = wrong(1, 1, 0);
    let opened = by_three::right(sealed);
    let bit = decode(opened, 1, 0);
    println!("message 1, first 1, second 0: {sealed} is sealed, {opened} comes back, and is decoded to {bit}");
    print_messages("right", right);
    print_messages("wrong", wrong);
}

/// 100 messages sealed and opened. The listing, which only moves bits, is left out.
fn print_messages(name: &str, encode: Line) {
    let mut random = Random(576);
    let (f, h) = pair(Fold::Right, &mut random);
    let (mut whole, mut changed) = (0, 0);
    for _ in 0..100 {
        let [message, first, second] = [0; 3].map(|_| poly(|_| random.bit()));
        let m = poly(|i| encode(message[i], first[i], second[i]));
        let c = seal(Fold::Right, &h, &random.small(), &m);
        let opened = open(Fold::Right, &c, &f, by_three::right);
        let back = poly(|i| decode(opened[i], first[i], second[i]));
        whole += usize::from(back == message);
        changed += N - alike(&back, &message);
    }
    println!("{name} line: {whole} of 100 random messages of 72 bytes come back, {changed} of 57600 bits are changed");
}
