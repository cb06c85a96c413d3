//! A key agreed through the safe wrapper in both sets, and what is refused.
use wrapper::*;

const DONE: Answer = Answer { number: 0, place: 0 };

/// A toy in place of the host's hash.
fn toy_hash(bytes: &[u8], length: usize) -> Vec<u8> {
    let mut state = bytes
        .iter()
        .fold(2166136261u32, |s, &b| (s ^ u32::from(b)).wrapping_mul(16777619));
    (0..length)
        .map(|_| {
            state = state.wrapping_mul(1664525).wrapping_add(1013904223);
            (state >> 24) as u8
        })
        .collect()
}

/// A pair: make answers 4 for some seed blocks, and the host lends another one then.
fn pair(n: usize) -> (Vec<u8>, Vec<u8>) {
    let (mut public, mut private) = (vec![0; 3 * n / 2], vec![0; 3 * n]);
    for attempt in 0..100 {
        let answer = make(n, &toy_hash(&[attempt], n / 2), &mut public, &mut private);
        if answer == DONE {
            return (public, private);
        }
        assert_eq!(answer.number, 4);
        assert!(public.iter().all(|&b| b == 0) && private.iter().all(|&b| b == 0));
    }
    panic!("no seed block made a pair");
}

#[test]
fn keys_are_agreed() {
    for n in [576, 1152] {
        let (public, private) = pair(n);
        let message = toy_hash(b"fl(2) w 10s", n / 8);
        let hblock = toy_hash(&message, 32 + n / 4);
        let mut image = vec![0; 3 * n / 2];
        assert_eq!(r_image(n, &hblock, &mut image), DONE);
        let (mut cipher, mut key) = (vec![0; 3 * n / 2], [0; 32]);
        let gblock = toy_hash(&image, n / 4);
        assert_eq!(
            seal(n, &public, &message, &hblock, &gblock, &mut cipher, &mut key),
            DONE
        );
        let (mut marks, mut opened_image) = (vec![9; n], vec![9; 3 * n / 2]);
        assert_eq!(open_1(n, &private, &cipher, &mut marks, &mut opened_image), DONE);
        let mut opened = vec![9; n / 8];
        assert_eq!(open_2(n, &marks, &toy_hash(&opened_image, n / 4), &mut opened), DONE);
        let mut opened_key = [9; 32];
        assert_eq!(
            open_3(n, &opened_image, &toy_hash(&opened, 32 + n / 4), &mut opened_key),
            DONE
        );
        assert_eq!((opened, opened_key), (message, key));
    }
}

#[test]
fn halves_are_parts_of_the_key() {
    for n in [576, 1152] {
        let key = vec![255; 3 * n];
        assert_eq!(f_half(n, &key).as_ptr_range(), key[..3 * n / 2].as_ptr_range());
        assert_eq!(h_half(n, &key).as_ptr_range(), key[3 * n / 2..].as_ptr_range());
        assert!(f_half(n, &key[1..]).is_empty() && h_half(n + 1, &key).is_empty());
    }
}

#[test]
fn products_and_refusals() {
    let (mut a, b) = (vec![0; 576], [vec![0, 1], vec![0; 574]].concat());
    a[575] = 1;
    let mut out = vec![7; 576];
    assert_eq!(product(576, &a, &b, &mut out), DONE);
    assert_eq!(
        (out[0], out[288], out.iter().filter(|&&x| x != 0).count()),
        (3456, 1, 2)
    );
    let mut image = vec![7; 576];
    assert_eq!(transform(576, &a, &mut image), DONE);
    assert_eq!(reverse(576, &image, &mut out), DONE);
    assert_eq!(out, a);
    a[3] = 3457;
    assert_eq!(product(576, &b, &a, &mut out), Answer { number: 3, place: 579 });
    assert_eq!(product(575, &b, &a, &mut out).number, 1);
    assert_eq!(product(576, &b, &a, &mut []).number, 2);
    assert_eq!(out[575], 1);
}
