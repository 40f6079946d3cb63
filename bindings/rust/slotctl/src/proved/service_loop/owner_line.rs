// Erased by bindings/rust/erase from crates/service_loop/src/owner_line.rt, sha256 25c2aba5c4809f96ea7a654a5b87a7f3b8a580455e2096510560efd51c746cdb.
//! Lines that name an identity with its secret: `take ID SECRET`, and the same behind every other word.

use crate::kit::alloc::AllocError;
use crate::kit::itoa::Buffer;
use crate::kit::sha2::{Digest, Sha256};
use crate::kit::Vec;
use crate::proved::text_lines::words::{cut, number};

/// What stands between two words.
const SPACE: u8 = 32;

/// The first of the identities that secrets give.
pub const FIRST_OWNED: u64 = 1 << 63;

/// The fewest bytes of a secret: more than a number has.
pub const LEAST_SECRET: usize = 22;

/// The most bytes of a secret.
pub const MOST_SECRET: usize = 64;

// Whether a byte may stand in a secret: letters, digits, `-` and `_`.
fn is_of_secret(byte: u8) -> bool {
    byte.is_ascii_alphanumeric() || matches!(byte, b'-' | b'_')
}

// Whether all bytes of a word may stand in a secret.
fn is_all_of_secret(word: &[u8]) -> bool {
    word.iter().all(|byte| is_of_secret(*byte))
}

// Whether a word is a secret.
fn is_secret(word: &[u8]) -> bool {
    LEAST_SECRET <= word.len() && word.len() <= MOST_SECRET && is_all_of_secret(word)
}

// The digest of an identity, as a line writes it, and its secret.
fn digest_of(id: &[u8], secret: &[u8]) -> [u8; 32] {
    let mut hasher = Sha256::new();
    hasher.update(id);
    hasher.update(b" ");
    hasher.update(secret);
    hasher.finalize()
}

/// Returns the identity by which the service knows one that has a secret: from 2^63 on, by the first eight bytes of SHA-256 of `ID SECRET`.
pub(crate) fn owned_identity(id: &[u8], secret: &[u8]) -> u64 {
    let digest = digest_of(id, secret);
    let mut first = [0u8; 8];
    first.copy_from_slice(&digest[..8]);
    u64::from_be_bytes(first) % FIRST_OWNED + FIRST_OWNED
}

// Appends a line of these words, with what stands behind them.
fn put_words(
    command: &[u8],
    word: &[u8],
    rest: Option<&[u8]>,
    out: &mut Vec<u8>,
) -> Result<(), AllocError> {
    out.extend_from_slice(command)?;
    out.push(SPACE)?;
    out.extend_from_slice(word)?;
    if let Some(rest) = rest {
        out.push(SPACE)?;
        out.extend_from_slice(rest)?;
    }
    Ok(())
}

// Appends a line whose second word is an identity below 2^63: where a secret stands behind that, by the identity that it gives.
fn put_named(
    line: &[u8],
    command: &[u8],
    id: &[u8],
    rest: Option<&[u8]>,
    out: &mut Vec<u8>,
) -> Result<(), AllocError> {
    let Some(rest) = rest else {
        return Ok(out.extend_from_slice(line)?);
    };
    let (secret, others) = cut(rest, SPACE);
    if !is_secret(secret) {
        return Ok(out.extend_from_slice(line)?);
    }
    let identity = owned_identity(id, secret);
    put_words(
        command,
        Buffer::new().format(identity).as_bytes(),
        others,
        out,
    )
}

/// Appends a line, without its LF, as it goes to the service: where it names an identity with its secret, the identity that the secret gives stands in
/// their place; and where it names such an identity itself, a word that is no number.
///
/// # Errors
///
/// `AllocError`: an allocation failed. A part of the line may be appended.
pub(crate) fn put_owned(line: &[u8], out: &mut Vec<u8>) -> Result<(), AllocError> {
    let (command, Some(others)) = cut(line, SPACE) else {
        return Ok(out.extend_from_slice(line)?);
    };
    let (word, rest) = cut(others, SPACE);
    match number(word) {
        None => Ok(out.extend_from_slice(line)?),
        Some(id) if FIRST_OWNED <= id => put_words(command, b"-", rest, out),
        Some(_) => put_named(line, command, word, rest, out),
    }
}
