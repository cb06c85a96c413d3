//! The inner steps, measured as the calls are.
use crate::desk::Desk;
use crate::measure::{measure, Row};
use crate::steps;
use second::{field, listing, packing, small};
use std::hint::black_box;

pub fn rows(desk: &Desk) -> Vec<Row> {
    [steps_on_bits(desk), steps_on_bytes(desk), steps_on_slots(desk)]
        .into_iter()
        .flatten()
        .collect()
}

fn steps_on_bits(d: &Desk) -> Vec<Row> {
    let n = d.n;
    let (mut room, mut other_room) = (vec![0; 3 * n], vec![0; 3 * n]);
    let listing = measure(
        "listing",
        n,
        || steps::list(black_box(&d.message), black_box(&mut room[..n])),
        || listing::list(d.plan.blocks(), black_box(&d.message), black_box(&mut other_room[..n])),
    );
    assert_eq!(room, other_room);
    let (mut x, mut y) = (vec![0; n], vec![0; n]);
    let sampling = measure(
        "sampling",
        n,
        || steps::sample(black_box(&d.g_block), &mut room[..2 * n], black_box(&mut x)),
        || {
            small::sample(
                &d.plan,
                black_box(&d.g_block),
                &mut other_room[..2 * n],
                black_box(&mut y),
            )
        },
    );
    assert_eq!(x, y);
    let encoding = measure(
        "encoding",
        n,
        || steps::encode(black_box(&d.message), &d.g_block, &mut room, black_box(&mut x)),
        || {
            small::encode(
                &d.plan,
                black_box(&d.message),
                &d.g_block,
                &mut other_room,
                black_box(&mut y),
            )
        },
    );
    assert_eq!(x, y);
    vec![listing, sampling, encoding]
}

/// Whether a list has residues only, as a caller has to know before each of the steps below.
fn residues(list: &[u16]) -> bool {
    packing::first_large(list) == list.len()
}

fn steps_on_bytes(d: &Desk) -> Vec<Row> {
    let n = d.n;
    let (mut x, mut y) = (vec![0; 3 * n / 2], vec![0; 3 * n / 2]);
    let packing = measure(
        "packing",
        n,
        || steps::pack(black_box(&d.a), black_box(&mut x)),
        || residues(black_box(&d.a)).then(|| packing::pack(&d.a, black_box(&mut y))),
    );
    assert_eq!(x, y);
    let (mut x, mut y) = (vec![0; n], vec![0; n]);
    let unpacking = measure(
        "unpacking",
        n,
        || steps::unpack(black_box(&d.public), &mut x),
        || {
            packing::unpack(black_box(&d.public), &mut y);
            residues(&y)
        },
    );
    assert_eq!(x, y);
    vec![packing, unpacking]
}

fn steps_on_slots(d: &Desk) -> Vec<Row> {
    let (mut x, mut y) = (vec![0; d.n], vec![0; d.n]);
    let product = measure(
        "product slot by slot",
        d.n,
        || steps::times(black_box(&d.a), &d.b, black_box(&mut x)),
        || {
            if residues(black_box(&d.a)) && residues(&d.b) {
                let slots = d.a.iter().zip(&d.b);
                black_box(&mut y)
                    .iter_mut()
                    .zip(slots)
                    .for_each(|(out, (&a, &b))| *out = field::mul(a, b));
            }
        },
    );
    assert_eq!(x, y);
    let inverses = measure(
        "inverses slot by slot",
        d.n,
        || steps::invert(black_box(&d.a), black_box(&mut x)),
        || {
            if residues(black_box(&d.a)) {
                black_box(&mut y)
                    .iter_mut()
                    .zip(&d.a)
                    .for_each(|(out, &a)| *out = field::inverse(a));
            }
        },
    );
    assert_eq!(x, y);
    vec![product, inverses]
}
