//! Bytes as letters, by RFC 4648, in the place of the kit's `base64`. The original's calls change from version to version.

use super::alloc::{AllocError, Global};
use super::{String, Vec};

const LETTERS: &[u8; 64] = b"ABCDEFGHIJKLMNOPQRSTUVWXYZabcdefghijklmnopqrstuvwxyz0123456789+/";

pub mod engine {
    //! The kit's `base64::engine`.
    pub mod general_purpose {
        //! The kit's `base64::engine::general_purpose`.
        pub use super::super::STANDARD;
    }
}

/// Why letters are no bytes.
#[derive(Clone, Copy, Debug, PartialEq, Eq)]
pub enum DecodeAllocError {
    /// An allocation failed.
    OutOfMemory,
    /// Some bytes have other letters.
    Invalid,
}

impl From<AllocError> for DecodeAllocError {
    fn from(_: AllocError) -> DecodeAllocError {
        DecodeAllocError::OutOfMemory
    }
}

/// The letters of RFC 4648, section 4, with padding.
pub struct Standard;

/// `STANDARD`: those letters.
pub const STANDARD: Standard = Standard;

impl Standard {
    /// `encode`: the letters of bytes.
    ///
    /// # Errors
    ///
    /// `AllocError` where an allocation failed.
    pub fn encode(&self, _alloc: Global, bytes: &[u8]) -> Result<String, AllocError> {
        let mut text = std::string::String::new();
        text.try_reserve_exact(bytes.len().div_ceil(3).saturating_mul(4))?;
        for group in bytes.chunks(3) {
            let mut word = 0u32;
            for place in 0..3 {
                word = word << 8 | u32::from(*group.get(place).unwrap_or(&0));
            }
            for place in 0..4 {
                let letter = LETTERS[(word >> (18 - 6 * place) & 63) as usize];
                text.push(if place <= group.len() {
                    letter.into()
                } else {
                    '='
                });
            }
        }
        Ok(String::of(text))
    }

    /// `decode`: the bytes of letters.
    ///
    /// # Errors
    ///
    /// `Invalid` where no bytes have these letters, or `OutOfMemory`.
    pub fn decode(&self, alloc: Global, text: &[u8]) -> Result<Vec<u8>, DecodeAllocError> {
        let mut bytes = Vec::with_capacity(alloc, text.len() / 4 * 3)?;
        let groups = text.chunks(4);
        let last = groups.len();
        for (at, group) in groups.enumerate() {
            let padding = group
                .iter()
                .rev()
                .take_while(|letter| **letter == b'=')
                .count();
            if group.len() < 4 || padding > 2 || (0 < padding && at + 1 < last) {
                return Err(DecodeAllocError::Invalid);
            }
            let word = word_of(&group[..4 - padding])?;
            let three = [(word >> 16) as u8, (word >> 8) as u8, word as u8];
            let (kept, rest) = three.split_at(3 - padding);
            if rest.iter().any(|byte| *byte != 0) {
                return Err(DecodeAllocError::Invalid);
            }
            for byte in kept {
                bytes.push_reserved(*byte);
            }
        }
        Ok(bytes)
    }
}

/// The 24 bits of at most four letters.
fn word_of(letters: &[u8]) -> Result<u32, DecodeAllocError> {
    let mut word = 0;
    for place in 0..4 {
        let bits = match letters.get(place) {
            Some(letter) => LETTERS.iter().position(|known| known == letter),
            None => Some(0),
        };
        word = word << 6 | bits.ok_or(DecodeAllocError::Invalid)? as u32;
    }
    Ok(word)
}
