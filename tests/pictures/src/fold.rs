//! The ring's fold: what stands from x^n on is brought below x^n.

use pictures::svg::{Anchor, Point, Stroke, Svg, BLACK, DARK, GREY, LIGHT, WHITE};

const LEFT: f64 = 60.0;
/// A quarter of the degrees 0 to 2n - 1.
const QUARTER: f64 = 205.0;
const BOX: Point = (QUARTER, 40.0);

pub fn picture() -> String {
    let mut svg = Svg::new(940, 660, "The fold x^n = x^(n/2) - 1");
    let title = "The fold: x^n = x^(n/2) - 1, and so x^(3n/2) = -1";
    svg.bold((LEFT, 32.0), Anchor::Start, 16, title);
    before(&mut svg);
    folded(&mut svg);
    after(&mut svg);
    examples(&mut svg);
    svg.finish()
}

fn at(quarter: usize) -> f64 {
    LEFT + QUARTER * quarter as f64
}

/// The degrees before folding, in four quarters.
fn before(svg: &mut Svg) {
    let line = "Before folding: 2n coefficients, in four quarters (i runs from 0 to n/2 - 1)";
    svg.text((LEFT, 60.0), Anchor::Start, 14, line);
    for (k, degree) in ["x^0", "x^(n/2)", "x^n", "x^(3n/2)", "x^(2n)"].iter().enumerate() {
        svg.text((at(k), 86.0), Anchor::Middle, 13, degree);
    }
    let quarters = [
        ("c_i", WHITE),
        ("c_(n/2+i)", LIGHT),
        ("c_(n+i)", GREY),
        ("c_(3n/2+i)", DARK),
    ];
    for (k, (name, fill)) in quarters.iter().enumerate() {
        svg.boxed((at(k), 92.0), BOX, fill, Stroke::Thin, 15, &[name]);
    }
}

/// What the upper quarters give to the lower ones, a row each.
fn folded(svg: &mut Svg) {
    let rows = [
        ("+", "c_(n+i)", GREY, 1, at(2) + 50.0),
        ("-", "c_(n+i)", GREY, 0, at(2) + 100.0),
        ("-", "c_(3n/2+i)", DARK, 0, at(3) + 100.0),
    ];
    for (row, (sign, name, fill, quarter, from)) in rows.iter().enumerate() {
        let top = 152.0 + 50.0 * row as f64;
        let (middle, end) = (top + BOX.1 / 2.0, at(quarter + 1));
        svg.boxed((at(*quarter), top), BOX, fill, Stroke::Thin, 15, &[name]);
        svg.arrow(&[(*from, 92.0 + BOX.1), (*from, middle), (end, middle)], Stroke::Thin);
        signed(svg, (at(*quarter) + 24.0, middle), sign);
    }
    svg.text((at(2) + 112.0, 150.0), Anchor::Start, 13, "x^(n+i) =");
    svg.text((at(2) + 112.0, 168.0), Anchor::Start, 13, "x^(n/2+i) - x^i");
    svg.text((at(3) + 112.0, 150.0), Anchor::Start, 13, "x^(3n/2+i) =");
    svg.text((at(3) + 112.0, 168.0), Anchor::Start, 13, "-x^i");
}

fn signed(svg: &mut Svg, (x, y): Point, sign: &str) {
    svg.circle((x, y), 11.0, WHITE);
    svg.bold((x, y + 6.0), Anchor::Middle, 18, sign);
}

fn after(svg: &mut Svg) {
    let sums = [("c_i - c_(n+i) - c_(3n/2+i)", WHITE), ("c_(n/2+i) + c_(n+i)", LIGHT)];
    for (k, (sum, fill)) in sums.iter().enumerate() {
        svg.boxed((at(k), 318.0), BOX, fill, Stroke::Thick, 14, &[sum]);
    }
    svg.bold((LEFT - 24.0, 345.0), Anchor::Middle, 20, "=");
    svg.text(
        (at(2) + 16.0, 335.0),
        Anchor::Start,
        14,
        "After folding: n coefficients,",
    );
    svg.text(
        (at(2) + 16.0, 354.0),
        Anchor::Start,
        14,
        "the columns added up with their signs",
    );
}

/// Two products of set 576 on the line of degrees.
fn examples(svg: &mut Svg) {
    let line = |svg: &mut Svg, y: f64, text: &str| {
        svg.line(&[(LEFT, y), (at(4), y)], Stroke::Thick);
        for (k, degree) in ["0", "288", "576", "864", "1152"].iter().enumerate() {
            svg.line(&[(at(k), y - 5.0), (at(k), y + 5.0)], Stroke::Thin);
            svg.text((at(k), y + 22.0), Anchor::Middle, 13, degree);
        }
        svg.text((at(2) + 16.0, y - 62.0), Anchor::Start, 14, text);
    };
    svg.bold((LEFT, 400.0), Anchor::Start, 15, "Set 576");
    line(svg, 490.0, "x^575 * x = x^576 = x^288 - 1");
    folds(svg, (at(2) - 3.0, 490.0), 1, 30.0, "+");
    folds(svg, (at(2) + 3.0, 490.0), 0, 62.0, "-");
    svg.circle((at(2), 490.0), 5.0, BLACK);
    line(svg, 615.0, "x^432 * x^432 = x^864 = -1");
    folds(svg, (at(3), 615.0), 0, 40.0, "-");
    svg.circle((at(3), 615.0), 5.0, BLACK);
}

/// A way from one degree down to another.
fn folds(svg: &mut Svg, (x, y): Point, to: usize, height: f64, sign: &str) {
    let top = y - height;
    svg.arrow(&[(x, y), (x, top), (at(to), top), (at(to), y - 3.0)], Stroke::Thin);
    signed(svg, (at(to) + QUARTER / 2.0, top), sign);
}
