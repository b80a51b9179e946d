//! The same functions in plain Rust. None is inlined, so that each is a call as the proved ones are.

const MODULUS: u32 = 65_535;

fn word(pair: &[u8]) -> u32 {
    let high = pair.get(1).copied().unwrap_or(0);
    u32::from(u16::from_le_bytes([pair[0], high]))
}

/// The textbook: a reduction at every word.
#[inline(never)]
pub fn fletcher(bytes: &[u8]) -> u32 {
    let mut a = 0u32;
    let mut b = 0u32;
    for pair in bytes.chunks(2) {
        a = (a + word(pair)) % MODULUS;
        b = (b + a) % MODULUS;
    }
    b << 16 | a
}

/// A reduction once in 65,536 bytes.
#[inline(never)]
pub fn fletcher_delayed(bytes: &[u8]) -> u32 {
    let mut a = 0u64;
    let mut b = 0u64;
    for block in bytes.chunks(65_536) {
        let pairs = block.chunks_exact(2);
        let odd = pairs.remainder();
        for pair in pairs {
            a += u64::from(u16::from_le_bytes([pair[0], pair[1]]));
            b += a;
        }
        if let [low] = odd {
            a += u64::from(*low);
            b += a;
        }
        a %= u64::from(MODULUS);
        b %= u64::from(MODULUS);
    }
    ((b << 16) | a) as u32
}

/// A loop by index that stops at the first difference.
#[inline(never)]
pub fn pages_equal(a: &[u8; 256], b: &[u8; 256]) -> bool {
    for i in 0..256 {
        if a[i] != b[i] {
            return false;
        }
    }
    true
}

/// The operator of the language, which calls the C library's comparison of memory.
#[inline(never)]
pub fn pages_equal_operator(a: &[u8; 256], b: &[u8; 256]) -> bool {
    a == b
}
