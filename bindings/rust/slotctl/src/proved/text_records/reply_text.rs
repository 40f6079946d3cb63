// Erased by bindings/rust/erase from crates/text_records/src/reply_text.rt, sha256 9b224c861dd0c871d9b906f2b779d7ee1530c10cf9d5e262e8193d77b6a80286.
//! From the text of a reply to what it reports.

use crate::kit::alloc::{AllocError, Global};
use crate::proved::text_lines::words::{cut, is_word, number, wide_number};
use crate::proved::text_records::header::Version;
use crate::proved::text_records::pairs::Pairs;
use crate::proved::text_records::reported::Reported;

/// The pair that a word writes: an identity and a number, with a colon between them.
fn pair(word: &[u8]) -> Option<(u64, u64)> {
    let (id, rest) = cut(word, b':');
    let (number_word, more) = cut(rest?, b':');
    if let Some(_) = more {
        return None;
    }
    Some((number(id)?, number(number_word)?))
}

/// Returns the pairs that the words of a text write, by strictly rising identity from 1 on, or `None` if it writes none
/// such.
///
/// # Errors
///
/// `AllocError`: the allocation failed.
pub fn pairs(alloc: Global, text: &[u8]) -> Result<Option<Pairs>, AllocError> {
    let mut view = Pairs::new(alloc);
    let mut above = 0;
    let mut left = Some(text);
    while let Some(bytes) = left {
        let (word, rest) = cut(bytes, b' ');
        let Some((id, number)) = pair(word) else {
            return Ok(None);
        };
        if id <= above {
            return Ok(None);
        }
        view.push(id, number)?;
        above = id;
        left = rest;
    }
    Ok(Some(view))
}

/// The reply of one word.
fn alone(word: &[u8]) -> Option<Reported> {
    if is_word(word, b"ok") {
        Some(Reported::Ok)
    } else if is_word(word, b"quiet") {
        Some(Reported::Quiet)
    } else if is_word(word, b"stop") {
        Some(Reported::Stop)
    } else if is_word(word, b"right") {
        Some(Reported::Right)
    } else if is_word(word, b"down") {
        Some(Reported::Down)
    } else if is_word(word, b"spent") {
        Some(Reported::Spent)
    } else if is_word(word, b"missed") {
        Some(Reported::Missed)
    } else {
        None
    }
}

/// The reply to `owner`: the identity that has a name, or `none`.
fn owner(other: &[u8]) -> Option<Reported> {
    if is_word(other, b"none") {
        return Some(Reported::Owner(None));
    }
    number(other).map(|id| Reported::Owner(Some(id)))
}

/// The reply of two words.
fn with(word: &[u8], other: &[u8]) -> Option<Reported> {
    if is_word(word, b"place") {
        wide_number(other).map(Reported::Place)
    } else if is_word(word, b"proposed") {
        number(other).map(Reported::Proposed)
    } else if is_word(word, b"named") {
        number(other).map(|name| Reported::Named(name, None))
    } else if is_word(word, b"got") {
        number(other).map(Reported::Got)
    } else if is_word(word, b"left") {
        number(other).map(Reported::Left)
    } else if is_word(word, b"value") {
        number(other).map(Reported::Value)
    } else if is_word(word, b"refused") {
        number(other).map(Reported::Refused)
    } else if is_word(word, b"owner") {
        owner(other)
    } else {
        None
    }
}

/// The reply of one or two words, which are no pairs.
fn plain(word: &[u8], others: Option<&[u8]>) -> Option<Reported> {
    let Some(text) = others else {
        return alone(word);
    };
    let (other, more) = cut(text, b' ');
    if let Some(_) = more {
        return None;
    }
    with(word, other)
}

/// Returns the reply that a text, without its LF, reports, or `None` if it is no reply.
///
/// # Errors
///
/// `AllocError`: the allocation failed.
pub fn read_reply(alloc: Global, text: &[u8]) -> Result<Option<Reported>, AllocError> {
    let (word, others) = cut(text, b' ');
    if !is_word(word, b"saw") {
        return Ok(plain(word, others));
    }
    let Some(text) = others else {
        return Ok(None);
    };
    match pairs(alloc, text)? {
        Some(view) => Ok(Some(Reported::Saw(view))),
        None => Ok(None),
    }
}

/// What a record of this version reports of a reply with no view beside it.
fn without_view(version: Version, reported: Reported) -> Option<Reported> {
    match (version, &reported) {
        (Version::Two, Reported::Named(_, _)) => None,
        _ => Some(reported),
    }
}

/// What a record of version 2 reports of a reply with the pairs of this text beside it.
fn with_view(
    alloc: Global,
    reported: Reported,
    text: &[u8],
) -> Result<Option<Reported>, AllocError> {
    match reported {
        Reported::Named(name, _) => match pairs(alloc, text)? {
            Some(view) => Ok(Some(Reported::Named(name, Some(view)))),
            None => Ok(None),
        },
        _ => Ok(None),
    }
}

/// Returns what a record of this version reports of a reply, with the view beside it if there is one, or `None`.
///
/// # Errors
///
/// `AllocError`: the allocation failed.
pub fn reported_of(
    alloc: Global,
    version: Version,
    reply: &[u8],
    view: Option<&[u8]>,
) -> Result<Option<Reported>, AllocError> {
    let Some(reported) = read_reply(alloc, reply)? else {
        return Ok(None);
    };
    let Some(text) = view else {
        return Ok(without_view(version, reported));
    };
    match version {
        Version::One => Ok(None),
        Version::Two => with_view(alloc, reported, text),
    }
}
