//! Seven mistakes that the bench values of document 01 do not notice.
//!
//! The model can make each of them on purpose, to show that the comparison does notice it.

#[derive(Clone, Copy, PartialEq, Eq, Debug)]
pub enum Mistake {
    HalvesInOneRun,
    MessageNotListed,
    WrongBlockOf128,
    WrongSlotOrder,
    MarksSwapped,
    OtherKeyBytes,
    OpensAll,
}

pub const MISTAKES: [Mistake; 7] = [
    Mistake::HalvesInOneRun,
    Mistake::MessageNotListed,
    Mistake::WrongBlockOf128,
    Mistake::WrongSlotOrder,
    Mistake::MarksSwapped,
    Mistake::OtherKeyBytes,
    Mistake::OpensAll,
];

impl Mistake {
    pub fn name(self) -> &'static str {
        match self {
            Mistake::HalvesInOneRun => "halves-in-one-run",
            Mistake::MessageNotListed => "message-not-listed",
            Mistake::WrongBlockOf128 => "wrong-block-of-128",
            Mistake::WrongSlotOrder => "wrong-slot-order",
            Mistake::MarksSwapped => "marks-swapped",
            Mistake::OtherKeyBytes => "other-key-bytes",
            Mistake::OpensAll => "opens-all",
        }
    }

    pub fn sentence(self) -> &'static str {
        match self {
            Mistake::HalvesInOneRun => "Both halves go through the listing as one run of 2n bits.",
            Mistake::MessageNotListed => "The message bits are taken in plain order, in encoding and decoding alike.",
            Mistake::WrongBlockOf128 => "A block of 128 bits is listed as two blocks of 64.",
            Mistake::WrongSlotOrder => "Slots 3 and 4 are exchanged, in the transform and its reverse alike.",
            Mistake::MarksSwapped => "Mark 1 stands for -1 and mark 2 for 1, in open-1 and open-2 alike.",
            Mistake::OtherKeyBytes => "The key is the last 32 bytes of the H block, in seal and open-3 alike.",
            Mistake::OpensAll => "Open-3 takes the key whatever the lent image is.",
        }
    }
}
