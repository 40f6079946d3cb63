// Erased by bindings/rust/erase from crates/text_lines/src/held/query.rt, sha256 190181fb8ad105359b12c34c8483d46c1c378822c0a4739c65ef1d6683246ef6.
//! The lines that ask for the holders of numbers.

use crate::proved::text_lines::words::{is_word, number};

/// The most bytes of a line that asks for holders, without its LF.
pub const QUERY_MAX: usize = 30;

/// What a line asks for.
#[derive(Clone, Copy, Debug, PartialEq, Eq)]
pub enum HeldQuery {
    /// `held`: the numbers that are held, from 1 on, with their holders.
    All,
    /// `held from N`: those from this number on.
    From(u64),
    /// `held ID`: the number that this identity holds.
    Of(u64),
}

/// Returns what a line, without its LF, asks for, or `None` if it does not ask for holders.
pub fn held_query(line: &[u8]) -> Option<HeldQuery> {
    if is_word(line, b"held") {
        return Some(HeldQuery::All);
    }
    let front = line.len().min(10);
    if is_word(&line[..front], b"held from ") {
        return page_query(&line[front..]);
    }
    query_of_one(line)
}

// Returns what a line asks for that may ask for the number of one identity.
fn query_of_one(line: &[u8]) -> Option<HeldQuery> {
    let front = line.len().min(5);
    if !is_word(&line[..front], b"held ") {
        return None;
    }
    number_query(&line[front..])
}

// Returns what a line asks for whose third word is this one.
fn page_query(word: &[u8]) -> Option<HeldQuery> {
    match number(word) {
        Some(first) => Some(HeldQuery::From(first)),
        None => None,
    }
}

// Returns what a line asks for whose second word is this one.
fn number_query(word: &[u8]) -> Option<HeldQuery> {
    match number(word) {
        Some(id) => Some(HeldQuery::Of(id)),
        None => None,
    }
}
