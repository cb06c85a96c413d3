//! The public calls, the proved ones beside the ordinary ones, on buffers that are never cleared: each go writes over what the one before
//! left. After its turns the two must have written the same.
use crate::desk::Desk;
use crate::measure::{measure, Row};
use second::{calls, make, open, seal};
use std::hint::black_box;

pub fn rows(desk: &Desk) -> Vec<Row> {
    [lists(desk), keys(desk), openings(desk), halves(desk)]
        .into_iter()
        .flatten()
        .collect()
}

fn lists(d: &Desk) -> Vec<Row> {
    let (n, set) = (d.n, d.n as u64);
    let (mut x, mut y) = (vec![0; n], vec![0; n]);
    let product = measure(
        "product",
        n,
        || wrapper::product(n, black_box(&d.a), &d.b, &mut x),
        || calls::product(&d.plan, set, black_box(&d.a), &d.b, &mut y),
    );
    assert_eq!(x, y);
    let transform = measure(
        "transform",
        n,
        || wrapper::transform(n, black_box(&d.a), &mut x),
        || calls::transform(&d.plan, set, black_box(&d.a), &mut y),
    );
    assert_eq!(x, y);
    let reverse = measure(
        "reverse",
        n,
        || wrapper::reverse(n, black_box(&d.a), &mut x),
        || calls::reverse(&d.plan, set, black_box(&d.a), &mut y),
    );
    assert_eq!(x, y);
    vec![product, transform, reverse]
}

fn keys(d: &Desk) -> Vec<Row> {
    let (n, set) = (d.n, d.n as u64);
    let keys = || (vec![0; 3 * n / 2], vec![0; 3 * n]);
    let (mut x, mut y) = (keys(), keys());
    let make = measure(
        "make",
        n,
        || wrapper::make(n, black_box(&d.seed), &mut x.0, &mut x.1),
        || make::make(&d.plan, set, black_box(&d.seed), &mut y.0, &mut y.1),
    );
    assert_eq!(x, y);
    let r_image = measure(
        "r-image",
        n,
        || wrapper::r_image(n, black_box(&d.h_block), &mut x.0),
        || seal::r_image(&d.plan, set, black_box(&d.h_block), &mut y.0),
    );
    assert_eq!(x, y);
    let (mut key, mut other) = ([0; 32], [0; 32]);
    let (public, message, h, g) = (&d.public, &d.message, &d.h_block, &d.g_block);
    let sealing = measure(
        "seal",
        n,
        || wrapper::seal(n, black_box(public), message, h, g, &mut x.0, &mut key),
        || seal::seal(&d.plan, set, black_box(public), message, h, g, &mut y.0, &mut other),
    );
    assert_eq!((x, key), (y, other));
    vec![make, r_image, sealing]
}

fn openings(d: &Desk) -> Vec<Row> {
    let (n, set) = (d.n, d.n as u64);
    let opened = || (vec![0; n], vec![0; 3 * n / 2]);
    let (mut x, mut y) = (opened(), opened());
    let open_1 = measure(
        "open-1",
        n,
        || wrapper::open_1(n, black_box(&d.private), &d.cipher, &mut x.0, &mut x.1),
        || open::open_1(&d.plan, set, black_box(&d.private), &d.cipher, &mut y.0, &mut y.1),
    );
    assert_eq!(x, y);
    let (mut x, mut y) = (vec![0; n / 8], vec![0; n / 8]);
    let open_2 = measure(
        "open-2",
        n,
        || wrapper::open_2(n, black_box(&d.marks), &d.g_block, &mut x),
        || open::open_2(&d.plan, set, black_box(&d.marks), &d.g_block, &mut y),
    );
    assert_eq!(x, y);
    let (mut x, mut y) = ([0; 32], [0; 32]);
    let open_3 = measure(
        "open-3",
        n,
        || wrapper::open_3(n, black_box(&d.image), &d.h_block, &mut x),
        || open::open_3(&d.plan, set, black_box(&d.image), &d.h_block, &mut y),
    );
    assert_eq!(x, y);
    vec![open_1, open_2, open_3]
}

fn halves(d: &Desk) -> Vec<Row> {
    let (n, set) = (d.n, d.n as u64);
    let f_half = measure(
        "f half",
        n,
        || wrapper::f_half(n, black_box(&d.private)),
        || calls::f_half(set, black_box(&d.private).len()),
    );
    let h_half = measure(
        "1/h half",
        n,
        || wrapper::h_half(n, black_box(&d.private)),
        || calls::h_half(set, black_box(&d.private).len()),
    );
    vec![f_half, h_half]
}
