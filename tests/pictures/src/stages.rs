//! The stages of an agreement: what each end does, and what it holds then.

use pictures::svg::{Anchor, Point, Stroke, Svg, LIGHT, WHITE};

const SIDES: Point = (290.0, 46.0);
const STEP: f64 = 62.0;
const TOP: f64 = 134.0;
const BOTTOM: f64 = 902.0;
/// The left sides of the two ends' boxes, and the middle between them.
const DESK: f64 = 160.0;
const LAMP: f64 = 570.0;
const WATER: f64 = 510.0;

/// A line for each step: its row, who does it, its name, what it does, and what is held from then on.
const DESK_STEPS: &str = "\
0 | host    | seed block | n/2 bytes of the generator                  | seed block, 288
1 | library | make       | seed block to both keys, or answer 4        | private key, 1728; public key, 864
6 | host    | ciphertext | taken from the radio                        | ciphertext, 864
7 | library | open_1     | private key, ciphertext to marks, image of r | marks, 576; image of r, 864
8 | host    | hash G     | all of the image of r to the G block        | G block, 144
9 | library | open_2     | marks, G block to the message               | message, 72
10 | host   | hash H     | message to the H block                      | H block, 176
11 | library | open_3    | image of r, H block to the key, or answer 6 | key, 32";

const LAMP_STEPS: &str = "\
1 | host    | public key | taken from the radio                        | public key, 864
2 | host    | message    | n/8 random bytes                            | message, 72
3 | host    | hash H     | message to the H block                      | H block, 176
4 | library | r_image    | H block to the image of r                   | image of r, 864
5 | host    | hash G     | all of the image of r to the G block        | G block, 144
6 | library | seal       | public key, message, H, G to ciphertext, key | ciphertext, 864; key, 32";

pub fn picture() -> String {
    let mut svg = Svg::new(1020, 966, "The stages of an agreement");
    head(&mut svg);
    lane(&mut svg, DESK, (DESK - 10.0, Anchor::End), DESK_STEPS);
    lane(&mut svg, LAMP, (LAMP + SIDES.0 + 10.0, Anchor::Start), LAMP_STEPS);
    crossing(&mut svg, 1.0, (DESK + SIDES.0, LAMP), "public key");
    crossing(&mut svg, 6.0, (LAMP, DESK + SIDES.0), "ciphertext");
    svg.text((DESK + 135.0, row(4.0)), Anchor::End, 13, "keeps the private key");
    svg.text((LAMP + 155.0, row(9.0)), Anchor::Start, 13, "keeps the key");
    let last = "the same key, 32 bytes, at both ends (demand 3 says when)";
    let sides = (LAMP + SIDES.0 - DESK, 44.0);
    svg.boxed((DESK, BOTTOM), sides, WHITE, Stroke::Thick, 15, &[last]);
    svg.finish()
}

fn head(svg: &mut Svg) {
    let title = "An agreement, and what each end holds after each step (bytes in set 576)";
    svg.bold((20.0, 32.0), Anchor::Start, 16, title);
    for (x, by, text) in [
        (20.0, "library", "a call of the library"),
        (240.0, "host", "the host's part"),
    ] {
        frame(svg, (x, 50.0), (30.0, 20.0), by);
        svg.text((x + 40.0, 65.0), Anchor::Start, 13, text);
    }
    svg.rect((WATER - 50.0, 92.0), (100.0, BOTTOM - 112.0), LIGHT, Stroke::Dashed);
    svg.bold((WATER, 116.0), Anchor::Middle, 15, "water");
    for (left, name, does) in [
        (DESK, "Desk ashore", "makes the pair, opens"),
        (LAMP, "Lamp controller", "seals"),
    ] {
        svg.bold((left + SIDES.0 / 2.0, 106.0), Anchor::Middle, 15, name);
        svg.text((left + SIDES.0 / 2.0, 124.0), Anchor::Middle, 13, does);
    }
}

fn row(number: f64) -> f64 {
    TOP + STEP * number
}

fn frame(svg: &mut Svg, corner: Point, sides: Point, by: &str) {
    if by == "library" {
        svg.rect(corner, sides, WHITE, Stroke::Thick);
    } else {
        svg.rect(corner, sides, LIGHT, Stroke::Dashed);
    }
}

/// The steps of one end, from the top down, and beside them what is held.
fn lane(svg: &mut Svg, left: f64, (side, anchor): (f64, Anchor), steps: &str) {
    let middle = left + SIDES.0 / 2.0;
    let mut last = None;
    for step in steps.lines() {
        let parts: Vec<&str> = step.split('|').map(str::trim).collect();
        let top = row(parts[0].parse().expect("a row"));
        if let Some(bottom) = last {
            svg.arrow(&[(middle, bottom), (middle, top)], Stroke::Thin);
        }
        frame(svg, (left, top), SIDES, parts[1]);
        svg.bold((middle, top + 19.0), Anchor::Middle, 14, parts[2]);
        svg.text((middle, top + 37.0), Anchor::Middle, 12, parts[3]);
        let first = top + 28.0 - 8.5 * parts[4].matches(';').count() as f64;
        for (k, item) in parts[4].split("; ").enumerate() {
            svg.text((side, first + 17.0 * k as f64), anchor, 13, &format!("+ {item}"));
        }
        last = Some(top + SIDES.1);
    }
    if let Some(bottom) = last {
        svg.arrow(&[(middle, bottom), (middle, BOTTOM)], Stroke::Thin);
    }
}

/// What goes from the one end to the other.
fn crossing(svg: &mut Svg, number: f64, (from, to): Point, what: &str) {
    let y = row(number) + SIDES.1 / 2.0;
    svg.arrow(&[(from, y), (to, y)], Stroke::Thick);
    svg.text((WATER, y - 8.0), Anchor::Middle, 14, what);
    svg.text((WATER, y + 20.0), Anchor::Middle, 13, "864 bytes");
}
