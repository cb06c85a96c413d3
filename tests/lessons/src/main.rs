//! Lessons for the handbook: each prints a run that looks right, and then what really happens.

mod by_three;
mod fold;
mod plus;
mod ring;

fn main() {
    match std::env::args().nth(1).as_deref() {
        Some("plus") => plus::print(),
        Some("fold") => fold::print(),
        Some("by-three") => by_three::print(),
        _ => {
            eprintln!("lessons plus, lessons fold or lessons by-three");
            std::process::exit(2);
        }
    }
}

#[test]
fn the_right_lines_have_the_bench_values() {
    let product = |i, j| fold::product_text(ring::Fold::Right, i, j);
    assert_eq!([product(575, 1), product(432, 432)], ["3456 + x^288", "3456"]);
    assert_eq!([product(575, 575), product(287, 288)], ["3456x^286", "x^575"]);
    assert_eq!([1727, 1728, 1729, 1730].map(by_three::right), [-1, 0, 0, 1]);
    let (encode, decode) = (plus::right, plus::decode);
    assert_eq!([encode(1, 1, 0), encode(1, 1, 1), encode(0, 1, 0)], [0, -1, 1]);
    assert_eq!([decode(-1, 0, 0), decode(1, 0, 1)], [1, 0]);
}
