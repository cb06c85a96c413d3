//! Two plots of the measured rows: how time grows with n, and where sealing spends it.
use crate::measure::Row;
use pictures::svg::{Anchor, Stroke, Svg, BLACK, DARK, GREY, LIGHT, WHITE};

/// The call or step of that name in that set, in microseconds.
fn time(rows: &[Row], name: &str, n: usize) -> f64 {
    rows.iter()
        .find(|row| row.name == name && row.n == n)
        .map_or(0.0, |row| row.proved)
}

/// Time against n on logarithmic scales, so that a straight line is a power of n and its slope the exponent.
pub fn time_by_n(rows: &[Row]) -> String {
    const LEFT: f64 = 110.0;
    let mut svg = Svg::new(720, 560, "Time of each call and step against n");
    svg.bold(
        (20.0, 30.0),
        Anchor::Start,
        16,
        "Time against n, proved code (both scales logarithmic; x: times that of 576)",
    );
    let x = |n: usize| if n == 576 { LEFT + 60.0 } else { LEFT + 300.0 };
    let y = |time: f64| 500.0 - 64.0 * (time.log10() + 3.0);
    for power in -3..=4 {
        let level = y(10f64.powi(power));
        svg.line(&[(LEFT, level), (LEFT + 340.0, level)], Stroke::Dashed);
        let label = format!("{} µs", 10f64.powi(power));
        svg.text((LEFT - 8.0, level + 4.0), Anchor::End, 13, &label);
    }
    svg.line(
        &[(LEFT, 20.0 + 30.0), (LEFT, 500.0), (LEFT + 340.0, 500.0)],
        Stroke::Thin,
    );
    for n in [576, 1152] {
        svg.text((x(n), 522.0), Anchor::Middle, 13, &format!("n = {n}"));
    }
    let mut names: Vec<_> = rows
        .iter()
        .filter(|row| row.n == 1152)
        .map(|row| (row.name, row.proved))
        .collect();
    names.sort_by(|a, b| b.1.total_cmp(&a.1));
    let mut label = 0.0;
    for (name, last) in names {
        svg.line(&[(x(576), y(time(rows, name, 576))), (x(1152), y(last))], Stroke::Thin);
        svg.circle((x(576), y(time(rows, name, 576))), 3.0, BLACK);
        svg.circle((x(1152), y(last)), 3.0, BLACK);
        // labels keep their distance, and a thin line leads to each
        label = (label + 17.0_f64).max(y(last));
        svg.line(&[(x(1152) + 6.0, y(last)), (LEFT + 350.0, label)], Stroke::Thin);
        let grown = last / time(rows, name, 576);
        svg.text(
            (LEFT + 356.0, label + 4.0),
            Anchor::Start,
            13,
            &format!("{name}: {last:.3} µs, x {grown:.1}"),
        );
    }
    svg.finish()
}

/// The steps that sealing takes, with the rows that they were measured in.
const SEALING: [(&str, &str); 7] = [
    ("unpacking h", "unpacking"),
    ("sampling r", "sampling"),
    ("image of r", "transform"),
    ("h times r", "product slot by slot"),
    ("encoding m", "encoding"),
    ("image of m", "transform"),
    ("packing c", "packing"),
];

/// Each step as it was measured by itself. What is left of the call is the rest: the sum slot by slot, the key, the rooms, the tests.
fn parts(rows: &[Row], n: usize) -> Vec<(&'static str, f64)> {
    let mut parts = SEALING.map(|(name, row)| (name, time(rows, row, n))).to_vec();
    let steps: f64 = parts.iter().map(|part| part.1).sum();
    parts.push(("the rest", (time(rows, "seal", n) - steps).max(0.0)));
    parts
}

pub fn sealing(rows: &[Row]) -> String {
    let mut svg = Svg::new(720, 420, "Where sealing spends its time");
    svg.bold(
        (20.0, 30.0),
        Anchor::Start,
        16,
        "Where sealing spends its time, proved code",
    );
    for (at, n) in [576, 1152].into_iter().enumerate() {
        let (top, parts) = (60.0 + 180.0 * at as f64, parts(rows, n));
        let whole = time(rows, "seal", n);
        svg.text((20.0, top), Anchor::Start, 14, &format!("n = {n}: {whole:.0} µs"));
        let mut left = 20.0;
        for (i, &(name, part)) in parts.iter().enumerate() {
            let width = 680.0 * part / whole;
            let fill = [LIGHT, GREY, WHITE, DARK][i % 4];
            let lines: &[&str] = if width > 100.0 { &[name] } else { &[] };
            svg.boxed((left, top + 12.0), (width, 36.0), fill, Stroke::Thin, 13, lines);
            left += width;
        }
        for (i, (name, part)) in parts.into_iter().enumerate() {
            let place = (20.0 + 340.0 * (i / 4) as f64, top + 72.0 + 20.0 * (i % 4) as f64);
            svg.text(
                place,
                Anchor::Start,
                13,
                &format!("{name}: {part:.1} µs, {:.2} %", 100.0 * part / whole),
            );
        }
    }
    svg.finish()
}
