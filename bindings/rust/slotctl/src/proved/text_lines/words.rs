// Erased by bindings/rust/erase from crates/text_lines/src/words.rt, sha256 029faba999612999b6c008c72f4bea8c16271719ee6a08898fbd823c140267f7.
//! Words, and the numbers that they write.

use crate::kit::memchr::memchr;

/// Returns the bytes before the first separator and those after it, or all bytes and `None` if there is no separator.
pub fn cut(bytes: &[u8], separator: u8) -> (&[u8], Option<&[u8]>) {
    match memchr(separator, bytes) {
        Some(at) => (&bytes[..at], Some(&bytes[at + 1..])),
        None => (bytes, None),
    }
}

/// Whether a word is this name, byte for byte.
pub fn is_word(word: &[u8], name: &[u8]) -> bool {
    word == name
}

// Whether each byte is a decimal digit.
fn is_all_digits(word: &[u8]) -> bool {
    word.iter().all(|byte| byte.is_ascii_digit())
}

// The number that digits write, if it is below 2^64.
fn value_of_digits(digits: &[u8]) -> Option<u64> {
    let mut value = 0u64;
    for digit in digits {
        value = value
            .checked_mul(10)?
            .checked_add(u64::from(digit - b'0'))?;
    }
    Some(value)
}

// The number that digits write, if it is below 2^128.
fn wide_value_of_digits(digits: &[u8]) -> Option<u128> {
    let mut value = 0u128;
    for digit in digits {
        value = value
            .checked_mul(10)?
            .checked_add(u128::from(digit - b'0'))?;
    }
    Some(value)
}

/// Returns the number that a word writes, or `None` if it writes none.
///
/// A number is `0`, or decimal digits without a leading zero, below 2^64.
pub fn number(word: &[u8]) -> Option<u64> {
    if !is_all_digits(word) || word.is_empty() {
        return None;
    }
    if word[0] == b'0' {
        return (word.len() == 1).then_some(0);
    }
    value_of_digits(word)
}

/// Returns the number that a word writes, as `number` does, below 2^128.
pub fn wide_number(word: &[u8]) -> Option<u128> {
    if !is_all_digits(word) || word.is_empty() {
        return None;
    }
    if word[0] == b'0' {
        return (word.len() == 1).then_some(0u128);
    }
    wide_value_of_digits(word)
}
