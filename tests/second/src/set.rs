//! What a set number decides.

/// The larger n of the two sets: the size of every room.
pub const LARGEST: usize = 1152;

/// "32 key bytes".
pub const KEY: usize = 32;

/// One row of document 01's table of sets.
#[derive(Clone, Copy, PartialEq, Eq, Debug)]
pub struct Set {
    pub n: usize,
    /// The root is 7^step.
    pub step: usize,
    pub slots: usize,
}

pub const SET_576: Set = Set {
    n: 576,
    step: 2,
    slots: 576,
};

pub const SET_1152: Set = Set {
    n: 1152,
    step: 1,
    slots: 1152,
};

impl Set {
    /// "The set number decides every length, the root and the number of slots".
    pub fn of(number: u64) -> Option<Set> {
        match number {
            576 => Some(SET_576),
            1152 => Some(SET_1152),
            _ => None,
        }
    }

    pub fn number(self) -> u64 {
        self.n as u64
    }

    /// "two lists of n numbers".
    pub fn list(self) -> usize {
        self.n
    }

    /// "seed block n/2".
    pub fn seed(self) -> usize {
        self.n / 2
    }

    /// "public key 3n/2"; a ciphertext and an image of r are as long, since each is one packed image.
    pub fn packed(self) -> usize {
        3 * self.n / 2
    }

    /// "private key 3n".
    pub fn private_key(self) -> usize {
        3 * self.n
    }

    /// "message n/8".
    pub fn message(self) -> usize {
        self.n / 8
    }

    /// "G block n/4".
    pub fn g_block(self) -> usize {
        self.n / 4
    }

    /// "H block 32 + n/4".
    pub fn h_block(self) -> usize {
        KEY + self.n / 4
    }

    /// "marks n".
    pub fn marks(self) -> usize {
        self.n
    }

    /// "key 32".
    pub fn key(self) -> usize {
        KEY
    }
}
