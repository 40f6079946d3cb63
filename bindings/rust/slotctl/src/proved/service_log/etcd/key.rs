// Erased by bindings/rust/erase from crates/service_log/src/etcd/key.rt, sha256 8ff35e192f04636dc05ae6e9c42a988a7cb0ea3049f859ce72b701353e321ebd.
//! The key of a place.

use crate::kit::alloc::{AllocError, Global};
use crate::kit::base64::engine::general_purpose::STANDARD;
use crate::kit::String;
use crate::kit::Vec;

// Appends the last `count` decimal digits of a number.
fn push_digits(text: &mut Vec<u8>, count: u32, number: u64) -> Result<(), AllocError> {
    if count == 0 {
        return Ok(());
    }
    push_digits(text, count - 1, number / 10)?;
    match text.push(b'0' + (number % 10) as u8) {
        Ok(()) => Ok(()),
        Err(_) => Err(AllocError),
    }
}

/// Returns the key of a place under a prefix: the prefix, and the place in 16 digits.
///
/// # Errors
///
/// `AllocError`: an allocation failed.
pub fn key(alloc: Global, prefix: &str, place: u64) -> Result<Vec<u8>, AllocError> {
    let mut key = Vec::from_slice(alloc, prefix.as_bytes())?;
    push_digits(&mut key, 16, place)?;
    Ok(key)
}

/// Returns the key of a place under a prefix in base64, as etcd's gateway takes it.
///
/// # Errors
///
/// `AllocError`: an allocation failed.
pub fn key64(alloc: Global, prefix: &str, place: u64) -> Result<String, AllocError> {
    STANDARD.encode(alloc, &key(alloc, prefix, place)?)
}

/// Returns the place in 16 digits, as it is noted for a start.
///
/// # Errors
///
/// `AllocError`: an allocation failed.
pub fn place_text(alloc: Global, place: u64) -> Result<Vec<u8>, AllocError> {
    let mut text = Vec::new(alloc);
    push_digits(&mut text, 16, place)?;
    Ok(text)
}

/// Returns the key under a prefix at which a place is noted for a start, in base64: the prefix and `last`.
///
/// # Errors
///
/// `AllocError`: an allocation failed.
pub fn hint_key64(alloc: Global, prefix: &str) -> Result<String, AllocError> {
    let mut key = Vec::from_slice(alloc, prefix.as_bytes())?;
    key.extend_from_slice(b"last")?;
    STANDARD.encode(alloc, &key)
}

/// Returns the key under a prefix whose changes part the appends of before from those of later, in base64: the prefix and
/// `fence`.
///
/// # Errors
///
/// `AllocError`: an allocation failed.
pub fn fence_key64(alloc: Global, prefix: &str) -> Result<String, AllocError> {
    let mut key = Vec::from_slice(alloc, prefix.as_bytes())?;
    key.extend_from_slice(b"fence")?;
    STANDARD.encode(alloc, &key)
}

// Returns a prefix, the word `gone` and one more byte.
fn gone(alloc: Global, prefix: &str, end: u8) -> Result<Vec<u8>, AllocError> {
    let mut key = Vec::from_slice(alloc, prefix.as_bytes())?;
    key.extend_from_slice(b"gone")?;
    key.push(end)?;
    Ok(key)
}

/// Returns the key under a prefix that says that entries up to a place were given up, in base64: the prefix, `gone`, a zero
/// byte, and the place in 16 digits.
///
/// # Errors
///
/// `AllocError`: an allocation failed.
pub fn gone_key64(alloc: Global, prefix: &str, place: u64) -> Result<String, AllocError> {
    let mut noted = gone(alloc, prefix, 0)?;
    push_digits(&mut noted, 16, place)?;
    STANDARD.encode(alloc, &noted)
}

/// Returns the first key behind all those of `gone_key64`, in base64.
///
/// # Errors
///
/// `AllocError`: an allocation failed.
pub fn gone_end64(alloc: Global, prefix: &str) -> Result<String, AllocError> {
    STANDARD.encode(alloc, &gone(alloc, prefix, 1)?)
}

/// Returns two places in 16 digits each, as they are noted where entries are given up.
///
/// # Errors
///
/// `AllocError`: an allocation failed.
pub fn places_text(alloc: Global, one: u64, other: u64) -> Result<Vec<u8>, AllocError> {
    let mut text = place_text(alloc, one)?;
    push_digits(&mut text, 16, other)?;
    Ok(text)
}
