//! The bench values of document 01: they hold, and they still hold with each of the seven mistakes in the model. That
//! is why the comparison with the archive is needed besides.

use second::calls::{product, transform, Answer};
use second::field::{inverse, power};
use second::listing::list;
use second::make::make;
use second::mistakes::MISTAKES;
use second::open::{open_1, open_2, open_3};
use second::packing::{first_large, pack, unpack};
use second::plan::Plan;
use second::seal::{r_image, seal};
use second::small::{by_three, decoded, encoded};

/// The model without a mistake, and with each of them.
fn plans() -> Vec<Plan> {
    let planted = MISTAKES.iter().map(|&mistake| Plan::new(Some(mistake)));
    std::iter::once(Plan::new(None)).chain(planted).collect()
}

fn monomial(n: usize, degree: usize) -> Vec<u16> {
    (0..n).map(|i| u16::from(i == degree)).collect()
}

fn repeated(three: [u8; 3], length: usize) -> Vec<u8> {
    three.iter().copied().cycle().take(length).collect()
}

#[test]
fn p1_to_p4_products() {
    for plan in plans() {
        for (a, b, terms) in [
            (575, 1, &[(0, 3456), (288, 1)][..]),
            (432, 432, &[(0, 3456)]),
            (575, 575, &[(286, 3456)]),
            (287, 288, &[(575, 1)]),
        ] {
            let mut expected = vec![0; 576];
            terms.iter().for_each(|&(index, value)| expected[index] = value);
            let mut out = vec![0; 576];
            let answer = product(&plan, 576, &monomial(576, a), &monomial(576, b), &mut out);
            assert_eq!((answer, out), (Answer::DONE, expected));
        }
    }
}

#[test]
fn p5_to_p7_residues() {
    assert_eq!([2, 3].map(inverse), [1729, 2305]);
    assert_eq!([1152, 1728].map(|exponent| power(7, exponent)), [722, 3456]);
    assert_eq!(
        [1152, 1728].map(|exponent| Plan::new(None).powers[exponent]),
        [722, 3456]
    );
    assert_eq!([1727, 1728, 1729, 1730].map(by_three), [-1, 0, 0, 1]);
}

#[test]
fn p8_and_p9_bits() {
    assert_eq!([encoded(1, 1, 0), encoded(1, 1, 1), encoded(0, 1, 0)], [0, 3456, 1]);
    assert_eq!([decoded(-1, 0, 0), decoded(1, 0, 1)], [1, 0]);
}

#[test]
fn p10_packing() {
    let (mut bytes, mut pair) = ([0; 3], [0; 2]);
    pack(&[3456, 3456], &mut bytes);
    assert_eq!(bytes, [0x80, 0x0D, 0xD8]);
    unpack(&[0x00, 0x10, 0xD8], &mut pair);
    assert_eq!(first_large(&pair), 1);
}

#[test]
fn p11_listing() {
    for plan in plans() {
        for (byte, bit, place) in [(0, 1, 16), (2, 0, 1), (31, 7, 255), (64, 1, 516), (66, 0, 513)] {
            let (mut bytes, mut bits) = ([0; 72], [0; 576]);
            bytes[byte] = 1 << bit;
            list(plan.blocks(), &bytes, &mut bits);
            assert_eq!(bits.iter().position(|&bit| bit == 1), Some(place));
        }
    }
}

#[test]
fn p12_images() {
    for plan in plans() {
        let of_x_to_288 = &[723, 2735, 723];
        for (n, degree, slots) in [(576, 1, &[49, 322][..]), (1152, 1, &[7, 2979]), (576, 288, of_x_to_288)] {
            let mut image = vec![0; n];
            assert_eq!(
                transform(&plan, n as u64, &monomial(n, degree), &mut image),
                Answer::DONE
            );
            assert_eq!(&image[..slots.len()], slots);
        }
    }
}

#[test]
fn make_refuses_a_block_of_zeros() {
    for plan in plans() {
        let (mut public_key, mut private_key) = ([9; 864], [9; 1728]);
        let answer = make(&plan, 576, &[0; 288], &mut public_key, &mut private_key);
        assert_eq!(answer, Answer::zero_slot(576));
        assert!(public_key.iter().chain(&private_key).all(|&byte| byte == 9));
    }
}

#[test]
fn the_light_pair_seals_and_opens() {
    for plan in plans() {
        let (mut seed, mut h_block, g_block) = ([0; 288], [0; 176], [0; 144]);
        seed[144] = 1;
        h_block[32] = 1;
        let (mut public_key, mut private_key) = (vec![9; 864], vec![9; 1728]);
        assert_eq!(make(&plan, 576, &seed, &mut public_key, &mut private_key), Answer::DONE);
        assert_eq!(public_key, repeated([0x03, 0x30, 0x00], 864));
        assert_eq!(private_key[..864], repeated([0x01, 0x10, 0x00], 864));
        assert_eq!(private_key[864..], repeated([0x01, 0x19, 0x90], 864));

        let (mut ciphertext, mut key, mut image) = (vec![9; 864], [9; 32], vec![9; 864]);
        assert_eq!(r_image(&plan, 576, &h_block, &mut image), Answer::DONE);
        let sealed = seal(
            &plan,
            576,
            &public_key,
            &[0; 72],
            &h_block,
            &g_block,
            &mut ciphertext,
            &mut key,
        );
        assert_eq!(sealed, Answer::DONE);
        assert_eq!((&ciphertext, key), (&repeated([0x03, 0x30, 0x00], 864), [0; 32]));

        let (mut marks, mut opened_image, mut message) = ([9; 576], vec![9; 864], [9; 72]);
        let first = open_1(&plan, 576, &private_key, &ciphertext, &mut marks, &mut opened_image);
        assert_eq!((first, &opened_image), (Answer::DONE, &image));
        assert_eq!(open_2(&plan, 576, &marks, &g_block, &mut message), Answer::DONE);
        assert_eq!(message, [0; 72]);
        let mut opened_key = [9; 32];
        assert_eq!(
            open_3(&plan, 576, &opened_image, &h_block, &mut opened_key),
            Answer::DONE
        );
        assert_eq!(opened_key, [0; 32]);
    }
}
