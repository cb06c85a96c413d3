//! From the lamp to the theorem, in five boxes.

use pictures::svg::{Anchor, Stroke, Svg, GREY, LIGHT, WHITE};

const STEP: f64 = 84.0;

/// A box: its name, what it is, where it stands, and how it leads to the next.
struct Link(&'static str, &'static str, &'static str, &'static str);

const LINKS: [Link; 5] = [
    Link(
        "The lamp",
        "an order for another light character",
        "docs/HANDBOOK.md, section 1",
        "needs",
    ),
    Link(
        "The key",
        "agreed by the unit and the desk before any order is taken",
        "tests/face/agree.c, docs/HOST.md",
        "is made by calls, and each has",
    ),
    Link(
        "The call's promise",
        "the ensures of make, r_image, seal, open_1, open_2, open_3",
        "crates/calls_seal/src/lib.rt, for one",
        "cites",
    ),
    Link(
        "The definition",
        "document 01's sentence, and its formula below it",
        "crates/calls_seal/specs/Seal.antt, crates/stages/specs",
        "is spoken of by",
    ),
    Link(
        "The theorem",
        "what was sealed in range opens to the same message and key",
        "crates/demands/proofs/DemandThree.antt",
        "",
    ),
];

pub fn picture() -> String {
    let mut svg = Svg::new(780, 430, "From the lamp to the theorem");
    let fills = [LIGHT, LIGHT, WHITE, WHITE, GREY];
    for (i, Link(name, what, place, way)) in LINKS.iter().enumerate() {
        let top = 20.0 + STEP * i as f64;
        svg.rect((30.0, top), (210.0, 48.0), fills[i], Stroke::Thick);
        svg.bold((135.0, top + 30.0), Anchor::Middle, 16, name);
        svg.text((262.0, top + 20.0), Anchor::Start, 14, what);
        svg.text((262.0, top + 40.0), Anchor::Start, 12, place);
        if !way.is_empty() {
            svg.arrow(&[(135.0, top + 48.0), (135.0, top + STEP)], Stroke::Thin);
            svg.text((150.0, top + 70.0), Anchor::Start, 13, way);
        }
    }
    svg.finish()
}
