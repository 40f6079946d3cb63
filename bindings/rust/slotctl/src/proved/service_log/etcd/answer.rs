// Erased by bindings/rust/erase from crates/service_log/src/etcd/answer.rt, sha256 5ee8d4dc5bc05af088f628a9d2b3603dfc204c0e829e3d8d10a2a97ff87c6bd4.
//! The answers of etcd.

use crate::kit::alloc::Global;
use crate::kit::base64::engine::general_purpose::STANDARD;
use crate::kit::base64::DecodeAllocError;
use crate::kit::json::{Error, Scratch, Value};
use crate::kit::String;
use crate::kit::Vec;
use crate::proved::service_log::etcd::key::{hint_key64, key64};
use crate::proved::service_log::etcd::request::forget_text;
use crate::proved::service_log::store::Put;
use crate::proved::service_log::store_fault::StoreFault;

/// Returns whether a transaction put its value, or `None` if the JSON is no answer to a transaction.
pub fn put_said(answer: &Value<'_>) -> Option<bool> {
    answer.get("header")?;
    match answer.get("succeeded") {
        Some(said) => Some(said.as_bool().unwrap_or(false)),
        None => Some(false),
    }
}

// Returns the base64 value of an entry whose key is this one, in base64. `None` if the key is another.
fn entry_said<'v>(entry: &Value<'v>, key: &str) -> Option<&'v str> {
    let found = entry.get("key")?.as_str()?;
    if found != key {
        return None;
    }
    match entry.get("value") {
        Some(value) => Some(value.as_str().unwrap_or("")),
        None => Some(""),
    }
}

/// Returns the base64 value at a key, as the answer has it at this index. The inner `None` is an answer with no entry
/// there.
///
/// The outer `None` is JSON that is no such answer. The index is from 0, and the key is in base64.
pub fn get_said<'v>(answer: &Value<'v>, index: usize, key: &str) -> Option<Option<&'v str>> {
    answer.get("header")?;
    let Some(entries) = answer.get("kvs") else {
        return Some(None);
    };
    match entries.at(index) {
        Some(entry) => Some(Some(entry_said(entry, key)?)),
        None => Some(None),
    }
}

// Returns the JSON of the body of an answer.
fn parsed<'a>(
    alloc: Global,
    body: &'a [u8],
    scratch: &'a mut Scratch<Global>,
) -> Result<Value<'a>, StoreFault> {
    match Value::from_slice(alloc, body, scratch) {
        Ok(answer) => Ok(answer),
        Err(Error::OutOfMemory) => Err(StoreFault::Memory),
        Err(_) => Err(StoreFault::Wrong),
    }
}

/// Reads the body of an answer to a request that puts.
///
/// # Errors
///
/// - `Memory`: an allocation failed.
/// - `Wrong`: the body is no such answer.
pub fn read_put(alloc: Global, body: &[u8]) -> Result<Put, StoreFault> {
    let mut scratch = Scratch::new(alloc);
    let said = put_said(&parsed(alloc, body, &mut scratch)?);
    match said {
        Some(true) => Ok(Put::Written),
        Some(false) => Ok(Put::Taken),
        None => Err(StoreFault::Wrong),
    }
}

// Returns the bytes of a text in base64.
fn decoded(alloc: Global, text: &str) -> Result<Vec<u8>, StoreFault> {
    match STANDARD.decode(alloc, text.as_bytes()) {
        Ok(bytes) => Ok(bytes),
        Err(DecodeAllocError::OutOfMemory) => Err(StoreFault::Memory),
        Err(_) => Err(StoreFault::Wrong),
    }
}

// Returns the entry at a place under a prefix, as the answer has it at this index.
fn found_at(
    alloc: Global,
    answer: &Value<'_>,
    index: usize,
    prefix: &str,
    place: u64,
) -> Result<Option<Vec<u8>>, StoreFault> {
    let Ok(key) = key64(alloc, prefix, place) else {
        return Err(StoreFault::Memory);
    };
    match get_said(answer, index, key.as_str()) {
        Some(Some(text)) => Ok(Some(decoded(alloc, text)?)),
        Some(None) => Ok(None),
        None => Err(StoreFault::Wrong),
    }
}

// Appends the entries at the places from `place` on, at most `most`, as the answer has them from this index on.
fn read_from(
    alloc: Global,
    answer: &Value<'_>,
    index: usize,
    most: usize,
    prefix: &str,
    place: u64,
    found: &mut Vec<Vec<u8>>,
) -> Result<(), StoreFault> {
    if most == 0 {
        return Ok(());
    }
    let Some(entry) = found_at(alloc, answer, index, prefix, place)? else {
        return Ok(());
    };
    if found.push(entry).is_err() {
        return Err(StoreFault::Memory);
    }
    if most == 1 {
        return Ok(());
    }
    // No log has so many places.
    let Some(next) = place.checked_add(1) else {
        // No log has so many places.
        return Err(StoreFault::Wrong);
    };
    read_from(alloc, answer, index + 1, most - 1, prefix, next, found)
}

// Returns the entries at the places from `place` on, at most `most`, as the answer has them from its first one on.
fn read_all(
    alloc: Global,
    answer: &Value<'_>,
    most: usize,
    prefix: &str,
    place: u64,
) -> Result<Vec<Vec<u8>>, StoreFault> {
    let mut found = Vec::new(alloc);
    read_from(alloc, answer, 0, most, prefix, place, &mut found)?;
    Ok(found)
}

/// Reads the body of an answer to a request that gets. Returns the entries under a prefix from `place` on, at most
/// `most`.
///
/// # Errors
///
/// - `Memory`: an allocation failed.
/// - `Wrong`: the body is no such answer, or it has more entries than the places up to 2^64 - 1.
pub fn read_get(
    alloc: Global,
    body: &[u8],
    most: usize,
    prefix: &str,
    place: u64,
) -> Result<Vec<Vec<u8>>, StoreFault> {
    let mut scratch = Scratch::new(alloc);
    let answer = parsed(alloc, body, &mut scratch)?;
    read_all(alloc, &answer, most, prefix, place)
}

/// What an append was told.
pub enum Appended {
    /// Its conditions held. These are the entries at its places then, its own among them if it was written.
    Found(Vec<Vec<u8>>),
    /// They did not hold. The fence was changed last at this revision, in digits.
    Refused(String),
}

// Returns what a transaction got by the request of this index, or `None` if the JSON is no such answer.
fn got_said<'a, 'v>(answer: &'a Value<'v>, index: usize) -> Option<&'a Value<'v>> {
    answer.get("responses")?.at(index)?.get("response_range")
}

// Returns the revision at which the first key of an answer was changed last, in digits, or `None` if there is none.
fn revision_of_first<'v>(got: &Value<'v>) -> Option<&'v str> {
    got.get("kvs")?.at(0)?.get("mod_revision")?.as_str()
}

// Returns the revision of the fence as an append was told. A fence that was never changed has none: it is 0.
fn fence_said(alloc: Global, answer: &Value<'_>) -> Result<String, StoreFault> {
    let Some(got) = got_said(answer, 0) else {
        return Err(StoreFault::Wrong);
    };
    let revision = revision_of_first(got).unwrap_or("0");
    match String::from_str(alloc, revision) {
        Ok(revision) => Ok(revision),
        Err(_) => Err(StoreFault::Memory),
    }
}

/// Reads the body of an answer to a request that appends at one of the places from `place` on, `most` of them. Not proved:
/// which revision the fence has. Nothing is written if it is another one.
///
/// # Errors
///
/// - `Memory`: an allocation failed.
/// - `Wrong`: the body is no such answer.
pub fn read_append(
    alloc: Global,
    body: &[u8],
    most: usize,
    prefix: &str,
    place: u64,
) -> Result<Appended, StoreFault> {
    let mut scratch = Scratch::new(alloc);
    let answer = parsed(alloc, body, &mut scratch)?;
    match put_said(&answer) {
        Some(true) => match got_said(&answer, 1) {
            Some(got) => Ok(Appended::Found(read_all(alloc, got, most, prefix, place)?)),
            None => Err(StoreFault::Wrong),
        },
        Some(false) => Ok(Appended::Refused(fence_said(alloc, &answer)?)),
        None => Err(StoreFault::Wrong),
    }
}

// Whether bytes are digits.
fn are_digits(bytes: &[u8]) -> bool {
    bytes.iter().all(|byte| byte.is_ascii_digit())
}

// Returns the number that 16 digits say, or `None` of other bytes.
fn place_of(digits: &[u8]) -> Option<u64> {
    if digits.len() != 16 || !are_digits(digits) {
        return None;
    }
    let mut place = 0u64;
    for digit in digits {
        place = place * 10 + u64::from(*digit - b'0');
    }
    Some(place)
}

/// Reads the body of an answer to a request that gets the place that is noted under a prefix. Returns `None` if no place
/// is noted, or what is noted is none. It is a hint alone.
///
/// # Errors
///
/// - `Memory`: an allocation failed.
/// - `Wrong`: the body is no such answer.
pub fn read_hint(alloc: Global, body: &[u8], prefix: &str) -> Result<Option<u64>, StoreFault> {
    let Ok(key) = hint_key64(alloc, prefix) else {
        return Err(StoreFault::Memory);
    };
    let mut scratch = Scratch::new(alloc);
    let answer = parsed(alloc, body, &mut scratch)?;
    match get_said(&answer, 0, key.as_str()) {
        Some(Some(text)) => Ok(place_of(&decoded(alloc, text)?)),
        Some(None) => Ok(None),
        None => Err(StoreFault::Wrong),
    }
}

/// What is noted of entries that were given up: those below a place, and the place before which they were deleted.
#[derive(Clone, Copy, Debug, PartialEq, Eq)]
pub struct Gone {
    /// All entries below this place were given up, but the first.
    pub below: u64,
    /// Those before this place were deleted, but the first.
    pub deleted: u64,
}

// Returns the base64 value of the first entry of an answer, if there is one.
fn first_value<'v>(answer: &Value<'v>) -> Option<&'v str> {
    answer.get("kvs")?.at(0)?.get("value")?.as_str()
}

// The same, where the inner `None` is an answer with no entry, and the outer one is JSON that is no answer.
fn first_said<'v>(answer: &Value<'v>) -> Option<Option<&'v str>> {
    answer.get("header")?;
    Some(first_value(answer))
}

// Returns what two places in 16 digits each note, or `None` of other bytes.
fn gone_of(digits: &[u8]) -> Option<Gone> {
    let (below, deleted) = digits.split_at_checked(16)?;
    Some(Gone {
        below: place_of(below)?,
        deleted: place_of(deleted)?,
    })
}

// Returns what an answer says of entries that were given up.
fn gone_said(alloc: Global, answer: &Value<'_>) -> Result<Option<Gone>, StoreFault> {
    match first_said(answer) {
        Some(Some(text)) => match gone_of(&decoded(alloc, text)?) {
            Some(gone) => Ok(Some(gone)),
            None => Err(StoreFault::Wrong),
        },
        Some(None) => Ok(None),
        None => Err(StoreFault::Wrong),
    }
}

/// Reads the body of an answer to a request that gets what was noted of entries that were given up. Returns `None` if
/// nothing was noted. No entry hangs on it: a put compares the keys themselves.
///
/// # Errors
///
/// - `Memory`: an allocation failed.
/// - `Wrong`: the body is no such answer.
pub fn read_gone(alloc: Global, body: &[u8]) -> Result<Option<Gone>, StoreFault> {
    let mut scratch = Scratch::new(alloc);
    let answer = parsed(alloc, body, &mut scratch)?;
    gone_said(alloc, &answer)
}

// Returns the revision of the store at which it answered, in digits, or `None` if the JSON is no answer.
fn revision_said<'v>(answer: &Value<'v>) -> Option<&'v str> {
    answer.get("header")?.get("revision")?.as_str()
}

/// Returns the text of the request that lets etcd forget what its keys held before the revision at which it answered.
///
/// # Errors
///
/// - `Memory`: an allocation failed.
/// - `Wrong`: the body is no answer.
pub fn forget_text_of(alloc: Global, body: &[u8]) -> Result<Vec<u8>, StoreFault> {
    let mut scratch = Scratch::new(alloc);
    let answer = parsed(alloc, body, &mut scratch)?;
    let Some(revision) = revision_said(&answer) else {
        return Err(StoreFault::Wrong);
    };
    match forget_text(alloc, revision) {
        Ok(text) => Ok(text),
        Err(_) => Err(StoreFault::Memory),
    }
}
