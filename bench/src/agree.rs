//! The proved functions against the plain ones, on many inputs.

use crate::{plain, proved};

/// Numbers that look random and are the same in each run.
pub struct Noise(u64);

impl Noise {
    pub fn new(seed: u64) -> Noise {
        Noise(seed | 1)
    }

    pub fn byte(&mut self) -> u8 {
        self.0 ^= self.0 << 13;
        self.0 ^= self.0 >> 7;
        self.0 ^= self.0 << 17;
        (self.0 >> 32) as u8
    }

    pub fn bytes(&mut self, len: usize) -> Vec<u8> {
        (0..len).map(|_| self.byte()).collect()
    }

    pub fn page(&mut self) -> [u8; 256] {
        std::array::from_fn(|_| self.byte())
    }
}

fn fletcher(bytes: &[u8]) -> Result<(), String> {
    let proved = proved::fletcher(bytes);
    for plain in [plain::fletcher(bytes), plain::fletcher_delayed(bytes)] {
        if proved != plain {
            return Err(format!("Fletcher of {} bytes: proved {proved}, plain {plain}", bytes.len()));
        }
    }
    Ok(())
}

fn pages(a: &[u8; 256], b: &[u8; 256]) -> Result<(), String> {
    let proved = proved::pages_equal(a, b);
    for plain in [plain::pages_equal(a, b), plain::pages_equal_operator(a, b)] {
        if proved != plain {
            return Err(format!("equality of {a:?} and {b:?}: proved {proved}, plain {plain}"));
        }
    }
    Ok(())
}

/// How many runs of bytes agree: short ones of each length, long ones over several blocks, and single bytes in zeros.
pub fn on_runs() -> Result<usize, String> {
    let mut noise = Noise::new(7);
    let mut count = 0;
    let long = [4_095, 65_534, 65_535, 65_536, 65_537, 65_538, 131_072, 131_073, 1_000_003];
    for len in (0..=600).chain(long) {
        let ascending = (0..len).map(|i| i as u8).collect();
        for bytes in [noise.bytes(len), noise.bytes(len), vec![0; len], vec![255; len], ascending] {
            fletcher(&bytes)?;
            count += 1;
        }
    }
    for len in [1, 2, 3, 255, 256, 507, 508] {
        for place in 0..len {
            for value in [1, 128, 255] {
                let mut bytes = vec![0; len];
                bytes[place] = value;
                fletcher(&bytes)?;
                count += 1;
            }
        }
    }
    Ok(count)
}

/// How many pairs of pages agree: equal ones, ones that differ in one byte, each place in turn, and ones that differ throughout.
pub fn on_pages() -> Result<usize, String> {
    let mut noise = Noise::new(11);
    let mut count = 0;
    for _ in 0..100 {
        let page = noise.page();
        pages(&page, &page.clone())?;
        pages(&page, &noise.page())?;
        count += 2;
        for place in 0..256 {
            for turned in [1, 128, 255] {
                let mut other = page;
                other[place] ^= turned;
                pages(&page, &other)?;
                count += 1;
            }
        }
    }
    Ok(count)
}
