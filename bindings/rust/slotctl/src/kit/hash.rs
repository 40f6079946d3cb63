//! A hasher with a fixed seed, in the place of the kit's `std::hash`.

pub use std::hash::BuildHasherDefault;
use std::hash::Hasher;

/// Digits of the golden ratio: an odd number whose bits are mixed.
const MULTIPLIER: u64 = 0x9e37_79b9_7f4a_7c15;

/// A hasher that multiplies and folds the two halves of the product. It is for keys that nobody chooses.
#[derive(Default)]
pub struct FoldHasher {
    state: u64,
}

impl Hasher for FoldHasher {
    fn write(&mut self, bytes: &[u8]) {
        for byte in bytes {
            self.write_u64(u64::from(*byte));
        }
    }

    fn write_u64(&mut self, word: u64) {
        let product = u128::from(self.state ^ word) * u128::from(MULTIPLIER);
        self.state = (product as u64) ^ ((product >> 64) as u64);
    }

    fn write_u128(&mut self, number: u128) {
        self.write_u64(number as u64);
        self.write_u64((number >> 64) as u64);
    }

    fn finish(&self) -> u64 {
        self.state
    }
}
