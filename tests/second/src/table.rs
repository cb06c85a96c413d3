//! Document 01's table of calls: the buffers that each reads and writes, and how long they are.

use crate::call::Call;
use crate::set::Set;

/// What the elements of a buffer are.
#[derive(Clone, Copy, PartialEq, Eq)]
pub enum Holds {
    Numbers,
    Groups,
    Marks,
    Bytes,
}

/// One buffer of a call.
pub struct Row {
    pub name: &'static str,
    pub holds: Holds,
    pub length: fn(Set) -> usize,
    pub written: bool,
}

const fn reads(name: &'static str, holds: Holds, length: fn(Set) -> usize) -> Row {
    Row {
        name,
        holds,
        length,
        written: false,
    }
}

const fn writes(name: &'static str, holds: Holds, length: fn(Set) -> usize) -> Row {
    Row {
        name,
        holds,
        length,
        written: true,
    }
}

static PRODUCT: [Row; 3] = [
    reads("first list", Holds::Numbers, Set::list),
    reads("second list", Holds::Numbers, Set::list),
    writes("list", Holds::Numbers, Set::list),
];
static TRANSFORM: [Row; 2] = [
    reads("list read", Holds::Numbers, Set::list),
    writes("list written", Holds::Numbers, Set::list),
];
static MAKE: [Row; 3] = [
    reads("seed block", Holds::Bytes, Set::seed),
    writes("public key", Holds::Groups, Set::packed),
    writes("private key", Holds::Groups, Set::private_key),
];
static R_IMAGE: [Row; 2] = [
    reads("H block", Holds::Bytes, Set::h_block),
    writes("image of r", Holds::Groups, Set::packed),
];
static SEAL: [Row; 6] = [
    reads("public key", Holds::Groups, Set::packed),
    reads("message", Holds::Bytes, Set::message),
    reads("H block", Holds::Bytes, Set::h_block),
    reads("G block", Holds::Bytes, Set::g_block),
    writes("ciphertext", Holds::Groups, Set::packed),
    writes("key", Holds::Bytes, Set::key),
];
static OPEN_1: [Row; 4] = [
    reads("private key", Holds::Groups, Set::private_key),
    reads("ciphertext", Holds::Groups, Set::packed),
    writes("marks", Holds::Marks, Set::marks),
    writes("image of r", Holds::Groups, Set::packed),
];
static OPEN_2: [Row; 3] = [
    reads("marks", Holds::Marks, Set::marks),
    reads("G block", Holds::Bytes, Set::g_block),
    writes("message", Holds::Bytes, Set::message),
];
static OPEN_3: [Row; 3] = [
    reads("image of r", Holds::Groups, Set::packed),
    reads("H block", Holds::Bytes, Set::h_block),
    writes("key", Holds::Bytes, Set::key),
];
// the halves do not look at the groups, so that any bytes will do
static HALF: [Row; 1] = [reads("private key", Holds::Bytes, Set::private_key)];

impl Call {
    /// The buffers in the order of the document's table, those read before those written.
    pub fn rows(self) -> &'static [Row] {
        match self {
            Call::Product => &PRODUCT,
            Call::Transform | Call::Reverse => &TRANSFORM,
            Call::Make => &MAKE,
            Call::RImage => &R_IMAGE,
            Call::Seal => &SEAL,
            Call::Open1 => &OPEN_1,
            Call::Open2 => &OPEN_2,
            Call::Open3 => &OPEN_3,
            Call::FHalf | Call::HHalf => &HALF,
        }
    }
}
