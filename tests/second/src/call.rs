//! The calls of document 01, their names and what they can answer.

#[derive(Clone, Copy, PartialEq, Eq, PartialOrd, Ord, Debug)]
pub enum Call {
    Product,
    Transform,
    Reverse,
    Make,
    RImage,
    Seal,
    Open1,
    Open2,
    Open3,
    FHalf,
    HHalf,
}

use Call::{FHalf, HHalf, Make, Open1, Open2, Open3, Product, RImage, Reverse, Seal, Transform};

/// In the order of their numbers on the pipe.
pub const CALLS: [Call; 11] = [
    Product, Transform, Reverse, Make, RImage, Seal, Open1, Open2, Open3, FHalf, HHalf,
];

impl Call {
    pub fn name(self) -> &'static str {
        match self {
            Product => "product",
            Transform => "transform",
            Reverse => "reverse",
            Make => "make",
            RImage => "r-image",
            Seal => "seal",
            Open1 => "open-1",
            Open2 => "open-2",
            Open3 => "open-3",
            FHalf => "f-half",
            HHalf => "h-half",
        }
    }

    /// "These two give no number": the halves are told apart from the calls that answer.
    pub fn is_half(self) -> bool {
        matches!(self, FHalf | HHalf)
    }

    /// Every number that the call can answer; a half is handed (0) or empty (1).
    pub fn answers(self) -> &'static [u64] {
        match self {
            Product | Transform | Reverse | Seal | Open1 => &[0, 1, 2, 3],
            Make => &[0, 1, 2, 4],
            RImage => &[0, 1, 2],
            Open2 => &[0, 1, 2, 5],
            Open3 => &[0, 1, 2, 3, 6],
            FHalf | HHalf => &[0, 1],
        }
    }
}
