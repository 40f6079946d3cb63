// Erased by bindings/rust/erase from crates/text_records/src/quick_reply.rt, sha256 bb5eaa89f4ec315dd4ac4c264f3a9604d695873f55dbe16705339ea94d6f62bb.
//! Replies of the commonest words, with which lines end in the spelling in which records are written, in one pass over their bytes.

use crate::proved::text_lines::front::after_front;
use crate::proved::text_lines::quick::quick_number;
use crate::proved::text_lines::words::is_word;
use crate::proved::text_records::reported::Reported;

/// Returns what the end of a line reports, if the reply's word is common and spelled alike in each version. `None`
/// means nothing.
#[inline(always)]
pub fn quick_reported(text: &[u8]) -> Option<Reported> {
    if is_word(text, b"quiet\"}") {
        return Some(Reported::Quiet);
    }
    if is_word(text, b"ok\"}") {
        return Some(Reported::Ok);
    }
    if is_word(text, b"missed\"}") {
        return Some(Reported::Missed);
    }
    quick_number_reported(text)
}

/// As `quick_reported`, for a word and a number.
fn quick_number_reported(text: &[u8]) -> Option<Reported> {
    if let Some(number) = number_after(text, b"proposed ") {
        return Some(Reported::Proposed(number));
    }
    if let Some(number) = number_after(text, b"refused ") {
        return Some(Reported::Refused(number));
    }
    if let Some(number) = number_after(text, b"got ") {
        return Some(Reported::Got(number));
    }
    if let Some(number) = number_after(text, b"left ") {
        return Some(Reported::Left(number));
    }
    if let Some(number) = number_after(text, b"value ") {
        return Some(Reported::Value(number));
    }
    None
}

/// The number at the end of a line, after this word.
#[inline(always)]
fn number_after(text: &[u8], word: &[u8]) -> Option<u64> {
    last_number(after_front(text, word)?)
}

/// The number at the end of a line.
#[inline(always)]
fn last_number(text: &[u8]) -> Option<u64> {
    let (number, count) = quick_number(text, b'"')?;
    if !is_word(&text[count..], b"\"}") {
        return None;
    }
    Some(number)
}
