//! The listing of a block of 64 bits: a column for each 16-bit half word, a row for each of its bits.

use pictures::svg::{Anchor, Point, Stroke, Svg, DARK, GREY, LIGHT, WHITE};

const LEFT: f64 = 70.0;
const COLUMN: f64 = 140.0;
const TOP: f64 = 190.0;
const ROW: f64 = 25.0;
const FILLS: [&str; 4] = [WHITE, LIGHT, GREY, DARK];
/// The bits that are named beside the block: byte and bit.
const NAMED: [(usize, usize); 4] = [(0, 1), (2, 0), (5, 2), (7, 7)];

pub fn picture() -> String {
    let mut svg = Svg::new(980, 620, "The listing of a block of 64 bits");
    let title = "A block of 64 bits: bit 16k + l of word j goes to place 4l + 2j + k";
    svg.bold((LEFT, 32.0), Anchor::Start, 16, title);
    words(&mut svg);
    places(&mut svg);
    named(&mut svg);
    svg.finish()
}

/// The eight bytes as two little-endian words of two halves.
fn words(svg: &mut Svg) {
    for j in 0..2 {
        let x = LEFT + 2.0 * COLUMN * j as f64;
        svg.line(
            &[(x + 3.0, 70.0), (x + 3.0, 62.0), (x + 277.0, 62.0), (x + 277.0, 70.0)],
            Stroke::Thin,
        );
        svg.text((x + COLUMN, 56.0), Anchor::Middle, 14, &format!("word j = {j}"));
    }
    for byte in 0..8 {
        let x = LEFT + COLUMN / 2.0 * byte as f64;
        svg.boxed(
            (x, 74.0),
            (COLUMN / 2.0, 30.0),
            FILLS[byte / 2],
            Stroke::Thin,
            14,
            &[&format!("byte {byte}")],
        );
    }
    for (half, fill) in FILLS.iter().enumerate() {
        let x = LEFT + COLUMN * half as f64;
        svg.boxed(
            (x, 114.0),
            (COLUMN, 44.0),
            fill,
            Stroke::Thin,
            13,
            &[&format!("half k = {}", half % 2), "bits l = 0 to 15"],
        );
        svg.arrow(
            &[(x + COLUMN / 2.0, 158.0), (x + COLUMN / 2.0, TOP - 4.0)],
            Stroke::Thin,
        );
    }
}

/// Row l holds bit l of each half word in turn.
fn places(svg: &mut Svg) {
    for place in 0..64 {
        let (l, half) = (place / 4, place % 4);
        let (byte, bit) = (2 * half + l / 8, l % 8);
        let (x, y) = (LEFT + COLUMN * half as f64, TOP + ROW * l as f64);
        svg.rect((x, y), (COLUMN, ROW), FILLS[half], Stroke::Thin);
        svg.bold((x + 34.0, y + 18.0), Anchor::End, 15, &place.to_string());
        svg.text(
            (x + 132.0, y + 17.0),
            Anchor::End,
            12,
            &format!("byte {byte} bit {bit}"),
        );
    }
    for (byte, bit) in NAMED {
        let (half, l) = (byte / 2, 8 * (byte % 2) + bit);
        let corner = (LEFT + COLUMN * half as f64 + 1.5, TOP + ROW * l as f64 + 1.5);
        svg.line(&frame(corner, (COLUMN - 3.0, ROW - 3.0)), Stroke::Thick);
    }
    for l in 0..16 {
        svg.text(
            (LEFT - 8.0, TOP + ROW * l as f64 + 17.0),
            Anchor::End,
            13,
            &format!("l = {l}"),
        );
    }
}

fn frame((x, y): Point, (width, height): Point) -> [Point; 5] {
    let (right, bottom) = (x + width, y + height);
    [(x, y), (right, y), (right, bottom), (x, bottom), (x, y)]
}

/// The text beside the block.
fn named(svg: &mut Svg) {
    let left = LEFT + 4.0 * COLUMN + 30.0;
    let mut y = TOP + 7.0;
    let mut write = |gap: f64, indent: f64, line: &str| {
        y += gap;
        svg.text((left + indent, y), Anchor::Start, 14, line);
        y += 20.0;
    };
    write(10.0, 0.0, "The large number is the place, and");
    write(0.0, 0.0, "beside it is the bit that comes there.");
    write(0.0, 0.0, "Places are read row by row.");
    write(12.0, 0.0, "Framed:");
    for (byte, bit) in NAMED {
        let (j, k, l) = (byte / 4, byte / 2 % 2, 8 * (byte % 2) + bit);
        write(4.0, 0.0, &format!("byte {byte} bit {bit}: j = {j}, k = {k}, l = {l}"));
        write(0.0, 24.0, &format!("place 4*{l} + 2*{j} + {k} = {}", 4 * l + 2 * j + k));
    }
    write(16.0, 0.0, "Set 576: 72 bytes are two blocks of");
    write(0.0, 0.0, "256 bits, then one of 64: bytes 64 to");
    write(0.0, 0.0, "71, whose places start at 512.");
    write(4.0, 0.0, "byte 64 bit 1: place 512 + 4 = 516");
    write(0.0, 0.0, "byte 66 bit 0: place 512 + 1 = 513");
}
