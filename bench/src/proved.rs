//! The proved functions, out of the static library.

extern "C" {
    fn speed_fletcher(bytes: *const u8, len: usize) -> u32;
    fn speed_pages_equal(a: *const u8, b: *const u8) -> bool;
}

pub fn fletcher(bytes: &[u8]) -> u32 {
    // SAFETY: the pointer and the length are those of one slice.
    unsafe { speed_fletcher(bytes.as_ptr(), bytes.len()) }
}

pub fn pages_equal(a: &[u8; 256], b: &[u8; 256]) -> bool {
    // SAFETY: both pointers are those of arrays of 256 bytes.
    unsafe { speed_pages_equal(a.as_ptr(), b.as_ptr()) }
}
