//! The inner steps of the proved library, as `bench_steps` exports them for measuring.

extern "C" {
    fn step_list(bytes: *const u8, bytes_length: usize, bits: *mut u8, bits_length: usize);
    fn step_sample(
        block: *const u8,
        block_length: usize,
        halves: *mut u8,
        halves_length: usize,
        coefficients: *mut u16,
        coefficients_length: usize,
    );
    fn step_encode(
        message: *const u8,
        message_length: usize,
        block: *const u8,
        block_length: usize,
        bits: *mut u8,
        bits_length: usize,
        halves: *mut u8,
        halves_length: usize,
        coefficients: *mut u16,
        coefficients_length: usize,
    );
    fn step_pack(list: *const u16, list_length: usize, bytes: *mut u8, bytes_length: usize);
    fn step_unpack(bytes: *const u8, bytes_length: usize, list: *mut u16, list_length: usize) -> usize;
    fn step_times(a: *const u16, a_length: usize, b: *const u16, b_length: usize, out: *mut u16, out_length: usize);
    fn step_invert(a: *const u16, a_length: usize, out: *mut u16, out_length: usize);
}

pub fn list(bytes: &[u8], bits: &mut [u8]) {
    unsafe { step_list(bytes.as_ptr(), bytes.len(), bits.as_mut_ptr(), bits.len()) }
}

/// The room is for 2n bits.
pub fn sample(block: &[u8], room: &mut [u8], coefficients: &mut [u16]) {
    unsafe {
        step_sample(
            block.as_ptr(),
            block.len(),
            room.as_mut_ptr(),
            room.len(),
            coefficients.as_mut_ptr(),
            coefficients.len(),
        )
    }
}

/// The room is for 3n bits.
pub fn encode(message: &[u8], block: &[u8], room: &mut [u8], coefficients: &mut [u16]) {
    let (bits, halves) = room.split_at_mut(coefficients.len());
    unsafe {
        step_encode(
            message.as_ptr(),
            message.len(),
            block.as_ptr(),
            block.len(),
            bits.as_mut_ptr(),
            bits.len(),
            halves.as_mut_ptr(),
            halves.len(),
            coefficients.as_mut_ptr(),
            coefficients.len(),
        )
    }
}

pub fn pack(list: &[u16], bytes: &mut [u8]) {
    unsafe { step_pack(list.as_ptr(), list.len(), bytes.as_mut_ptr(), bytes.len()) }
}

pub fn unpack(bytes: &[u8], list: &mut [u16]) -> usize {
    unsafe { step_unpack(bytes.as_ptr(), bytes.len(), list.as_mut_ptr(), list.len()) }
}

pub fn times(a: &[u16], b: &[u16], out: &mut [u16]) {
    unsafe { step_times(a.as_ptr(), a.len(), b.as_ptr(), b.len(), out.as_mut_ptr(), out.len()) }
}

pub fn invert(a: &[u16], out: &mut [u16]) {
    unsafe { step_invert(a.as_ptr(), a.len(), out.as_mut_ptr(), out.len()) }
}
