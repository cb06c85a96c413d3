//! Refusals: lengths, the order of the tests, and the place of a number that is too large.

use second::call::CALLS;
use second::calls::{f_half, h_half, product, Answer, Part};
use second::faults::{plant, Fault};
use second::generate::Generator;
use second::mistakes::MISTAKES;
use second::open::open_1;
use second::plan::Plan;
use second::request::answer_by_document;
use second::set::{SET_1152, SET_576};

/// "Lengths one below and one above each row of the table: 2"; "Every refusal keeps all output buffers as they stood."
#[test]
fn lengths_one_below_and_one_above_answer_2() {
    let mut generator = Generator::new(4);
    let planted = MISTAKES.iter().map(|&mistake| Plan::new(Some(mistake)));
    for plan in std::iter::once(Plan::new(None)).chain(planted) {
        for call in CALLS.into_iter().filter(|call| !call.is_half()) {
            for turn in 0..2 * call.rows().len() {
                for set in [SET_576, SET_1152] {
                    let mut request = generator.good(call, set);
                    plant(Fault::WrongLength, turn, &mut request, &mut generator);
                    let before = request.written();
                    assert_eq!(answer_by_document(&plan, &mut request), Answer::WRONG_LENGTH);
                    assert_eq!(request.written(), before);
                }
            }
        }
    }
}

/// "first such, counted through the inputs as listed".
#[test]
fn a_late_number_of_the_first_input_comes_before_an_early_one_of_the_second() {
    let plan = Plan::new(None);
    let (mut first, mut second, mut out) = ([0; 576], [0; 576], [9; 576]);
    second[0] = 3457;
    assert_eq!(product(&plan, 576, &first, &second, &mut out), Answer::too_large(576));
    first[575] = 65_535;
    assert_eq!(product(&plan, 576, &first, &second, &mut out), Answer::too_large(575));
    assert_eq!(out, [9; 576]);
}

/// "Private key: packed image of f, then packed image of 1/h": its groups are counted on, and then the ciphertext's.
#[test]
fn open_1_counts_both_halves_of_the_key_before_the_ciphertext() {
    let plan = Plan::new(None);
    let (mut private_key, mut ciphertext) = ([0; 1728], [0; 864]);
    let (mut marks, mut image) = ([9; 576], [9; 864]);
    ciphertext[0..3].copy_from_slice(&[0x00, 0x10, 0xD8]);
    let answer = open_1(&plan, 576, &private_key, &ciphertext, &mut marks, &mut image);
    assert_eq!(answer, Answer::too_large(2 * 576 + 1));
    private_key[1725..].copy_from_slice(&[0x00, 0x10, 0xD8]);
    let answer = open_1(&plan, 576, &private_key, &ciphertext, &mut marks, &mut image);
    assert_eq!(answer, Answer::too_large(2 * 576 - 1));
}

/// "for an unknown set or a key of another length than 3n they hand back the empty part, and otherwise never".
#[test]
fn halves_are_parts_of_the_key_or_empty() {
    for (n, number) in [(576, 576), (1152, 1152)] {
        let length = 3 * n / 2;
        assert_eq!(f_half(number, 3 * n), Part { start: 0, length });
        assert_eq!(h_half(number, 3 * n), Part { start: length, length });
        for (set, key_length) in [
            (number, 3 * n - 1),
            (number, 3 * n + 1),
            (number, 0),
            (number + (1 << 32), 3 * n),
        ] {
            let empty = Part { start: 0, length: 0 };
            assert_eq!([f_half(set, key_length), h_half(set, key_length)], [empty, empty]);
        }
    }
}
