//! The calls of libface.a for Rust. A slice is never null and a `&mut` one overlaps no other, so the borrow rules see to all that
//! include/ringline.h asks of a caller, and each function here can be called with anything. Nothing checks the declarations below against
//! the library but the comparison with the second program.

#[repr(C)]
#[derive(Clone, Copy, Debug, PartialEq, Eq)]
pub struct Answer {
    pub number: usize,
    pub place: usize,
}

#[repr(C)]
struct Part {
    start: usize,
    length: usize,
}

extern "C" {
    fn rl_product(
        set: usize,
        a: *const u16,
        a_length: usize,
        b: *const u16,
        b_length: usize,
        out: *mut u16,
        out_length: usize,
    ) -> Answer;
    fn rl_transform(set: usize, a: *const u16, a_length: usize, out: *mut u16, out_length: usize) -> Answer;
    fn rl_reverse(set: usize, a: *const u16, a_length: usize, out: *mut u16, out_length: usize) -> Answer;
    fn rl_make(
        set: usize,
        seed: *const u8,
        seed_length: usize,
        public: *mut u8,
        public_length: usize,
        private: *mut u8,
        private_length: usize,
    ) -> Answer;
    fn rl_r_image(set: usize, hblock: *const u8, hblock_length: usize, image: *mut u8, image_length: usize) -> Answer;
    fn rl_seal(
        set: usize,
        public: *const u8,
        public_length: usize,
        message: *const u8,
        message_length: usize,
        hblock: *const u8,
        hblock_length: usize,
        gblock: *const u8,
        gblock_length: usize,
        cipher: *mut u8,
        cipher_length: usize,
        key: *mut u8,
        key_length: usize,
    ) -> Answer;
    fn rl_open_1(
        set: usize,
        private: *const u8,
        private_length: usize,
        cipher: *const u8,
        cipher_length: usize,
        marks: *mut u8,
        marks_length: usize,
        image: *mut u8,
        image_length: usize,
    ) -> Answer;
    fn rl_open_2(
        set: usize,
        marks: *const u8,
        marks_length: usize,
        gblock: *const u8,
        gblock_length: usize,
        message: *mut u8,
        message_length: usize,
    ) -> Answer;
    fn rl_open_3(
        set: usize,
        image: *const u8,
        image_length: usize,
        hblock: *const u8,
        hblock_length: usize,
        key: *mut u8,
        key_length: usize,
    ) -> Answer;
    fn rl_f_half(set: usize, private: *const u8, private_length: usize) -> Part;
    fn rl_h_half(set: usize, private: *const u8, private_length: usize) -> Part;
}

pub fn product(set: usize, a: &[u16], b: &[u16], out: &mut [u16]) -> Answer {
    unsafe {
        rl_product(
            set,
            a.as_ptr(),
            a.len(),
            b.as_ptr(),
            b.len(),
            out.as_mut_ptr(),
            out.len(),
        )
    }
}

pub fn transform(set: usize, a: &[u16], out: &mut [u16]) -> Answer {
    unsafe { rl_transform(set, a.as_ptr(), a.len(), out.as_mut_ptr(), out.len()) }
}

pub fn reverse(set: usize, a: &[u16], out: &mut [u16]) -> Answer {
    unsafe { rl_reverse(set, a.as_ptr(), a.len(), out.as_mut_ptr(), out.len()) }
}

pub fn make(set: usize, seed: &[u8], public: &mut [u8], private: &mut [u8]) -> Answer {
    unsafe {
        rl_make(
            set,
            seed.as_ptr(),
            seed.len(),
            public.as_mut_ptr(),
            public.len(),
            private.as_mut_ptr(),
            private.len(),
        )
    }
}

pub fn r_image(set: usize, hblock: &[u8], image: &mut [u8]) -> Answer {
    unsafe { rl_r_image(set, hblock.as_ptr(), hblock.len(), image.as_mut_ptr(), image.len()) }
}

pub fn seal(
    set: usize,
    public: &[u8],
    message: &[u8],
    hblock: &[u8],
    gblock: &[u8],
    cipher: &mut [u8],
    key: &mut [u8],
) -> Answer {
    unsafe {
        rl_seal(
            set,
            public.as_ptr(),
            public.len(),
            message.as_ptr(),
            message.len(),
            hblock.as_ptr(),
            hblock.len(),
            gblock.as_ptr(),
            gblock.len(),
            cipher.as_mut_ptr(),
            cipher.len(),
            key.as_mut_ptr(),
            key.len(),
        )
    }
}

pub fn open_1(set: usize, private: &[u8], cipher: &[u8], marks: &mut [u8], image: &mut [u8]) -> Answer {
    unsafe {
        rl_open_1(
            set,
            private.as_ptr(),
            private.len(),
            cipher.as_ptr(),
            cipher.len(),
            marks.as_mut_ptr(),
            marks.len(),
            image.as_mut_ptr(),
            image.len(),
        )
    }
}

pub fn open_2(set: usize, marks: &[u8], gblock: &[u8], message: &mut [u8]) -> Answer {
    unsafe {
        rl_open_2(
            set,
            marks.as_ptr(),
            marks.len(),
            gblock.as_ptr(),
            gblock.len(),
            message.as_mut_ptr(),
            message.len(),
        )
    }
}

pub fn open_3(set: usize, image: &[u8], hblock: &[u8], key: &mut [u8]) -> Answer {
    unsafe {
        rl_open_3(
            set,
            image.as_ptr(),
            image.len(),
            hblock.as_ptr(),
            hblock.len(),
            key.as_mut_ptr(),
            key.len(),
        )
    }
}

/// The half of a private key that is the packed image of f, as that part of the lent key; empty where the key has another length than 3n.
pub fn f_half(set: usize, private: &[u8]) -> &[u8] {
    let part = unsafe { rl_f_half(set, private.as_ptr(), private.len()) };
    &private[part.start..part.start + part.length]
}

/// The half of a private key that is the packed image of 1/h, as that part of the lent key; empty where the key has another length than 3n.
pub fn h_half(set: usize, private: &[u8]) -> &[u8] {
    let part = unsafe { rl_h_half(set, private.as_ptr(), private.len()) };
    &private[part.start..part.start + part.length]
}
