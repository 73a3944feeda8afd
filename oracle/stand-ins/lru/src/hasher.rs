//! A quick multiplicative hash in the place of the standard library's, so that the cache is not slow by its hash.

use std::hash::Hasher;

const FACTOR: u64 = 0x9E37_79B9_7F4A_7C15;

#[derive(Default)]
pub struct QuickHasher(u64);

impl QuickHasher {
    #[inline]
    fn mix(&mut self, word: u64) {
        self.0 = (self.0.rotate_left(5) ^ word).wrapping_mul(FACTOR);
    }
}

impl Hasher for QuickHasher {
    fn write(&mut self, bytes: &[u8]) {
        bytes.iter().for_each(|&byte| self.mix(u64::from(byte)));
    }

    #[inline]
    fn write_i32(&mut self, number: i32) {
        self.mix(u64::from(number as u32));
    }

    #[inline]
    fn finish(&self) -> u64 {
        self.0
    }
}
