// Erased by bindings/rust/erase from crates/service_loop/src/take_line.rt, sha256 b7c944551bb12d98e400d74d524a9d504bfff4866563c7e2c7452d7f5379a7c0.
//! Lines that take a number: `take ID`, and `take ID SECONDS`, which waits for one.

use crate::proved::text_lines::words::{cut, is_word, number};

/// What stands between two words.
const SPACE: u8 = 32;

/// The most digits of the seconds for which a line waits.
const MOST_DIGITS: usize = 4;

/// What a line says that takes a number.
#[derive(Clone, Copy, Debug, PartialEq, Eq)]
pub struct TakeLine {
    /// For whom it takes one.
    pub identity: u64,
    /// For how many seconds it waits, at most, while no number is free.
    pub seconds: u64,
}

// The seconds that a word names, at most 9,999.
fn seconds_in(word: &[u8]) -> Option<u64> {
    if word.len() <= MOST_DIGITS {
        number(word)
    } else {
        None
    }
}

// The seconds that the words behind an identity name; 0 where there are none.
fn seconds_of(words: Option<&[u8]>) -> Option<u64> {
    let Some(words) = words else {
        return Some(0);
    };
    let (word, others) = cut(words, SPACE);
    match others {
        None => seconds_in(word),
        Some(_) => None,
    }
}

// What these words say behind `take`.
fn line_of_words(said: &[u8]) -> Option<TakeLine> {
    let (word, others) = cut(said, SPACE);
    let identity = number(word)?;
    let seconds = seconds_of(others)?;
    Some(TakeLine { identity, seconds })
}

/// What a line, without its LF, says, where it takes a number; `None` where it takes none.
pub(crate) fn take_line(line: &[u8]) -> Option<TakeLine> {
    let front = line.len().min(5);
    if !is_word(&line[..front], b"take ") {
        return None;
    }
    line_of_words(&line[front..])
}
